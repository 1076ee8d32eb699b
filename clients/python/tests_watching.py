"""Tests of questions that are kept, and of what answers hang on."""

import asyncio
import hashlib
import os
import random
import subprocess
import unittest

import keynoted
from keynoted import drawing, hanging, parts, wire
from keynoted.connection import start
from tests_room import CREDENTIAL, POLICY, PROGRAM, Fake, Room, talk

ALICE = (["alice"], {"action": "read"}, ("no", "yes"))


class Watcher(Fake):
    """A daemon in this process whose version can be raised: with each one alice's answer turns to the other value."""

    def __init__(self, **how):
        super().__init__(**how)
        self.version = 1

    def index(self, who, values):
        return len(values) - 1 if b"alice" in who and self.version % 2 else 0

    def reply(self, sessions, words, line, block):
        session = sessions.get(words[1], None) if len(words) > 1 else {}
        if session is None:
            return b"NO 3 session"
        if words[0] == b"CLOSE":
            sessions[words[1]] = None  # its number isn't used again
            return b"OK"
        if words[0] not in (b"WATCH", b"NEWS", b"UNWATCH", b"CRITICAL"):
            return super().reply(sessions, words, line, block)
        if words[0] in (b"WATCH", b"CRITICAL") and b"," not in words[2]:
            return b"NO 10 values"
        if words[0] == b"CRITICAL":
            index = self.index(session["who"], words[2].split(b","))
            return b"CRITICAL %d 2\nNEED a1\nNEED p7\nEND" % index if index else b"CRITICAL 0 0\nEND"
        if words[0] == b"WATCH":
            session["kept"] = (set(session["who"]), words[2].split(b","))
        if "kept" not in session:
            return b"NO 12 unknown"
        if words[0] == b"UNWATCH":
            del session["kept"]
            return b"OK"
        who, values = session["kept"]
        index = self.index(who, values)
        return b"NEWS %d %b %d" % (index, values[index], self.version)


class Watches(Room):
    def watcher(self, **how):
        daemon = Watcher()
        self.addCleanup(daemon.stop)
        return daemon, keynoted.connect(daemon.address, **how)

    def test_a_question_is_kept_on_a_session_of_its_own(self):
        fake, daemon = self.watcher()
        with daemon, daemon.watch(*ALICE, private=[CREDENTIAL]) as watch:
            self.assertEqual(fake.requests, [
                b"OPEN", b"CLEAR 1", b"PIN 1", b"ASSERT 1 37", b"AUTH 1 alice", b"SET 1 action read", b"WATCH 1 no,yes",
                b"RETRACT 1 p1",
            ])
            self.assertEqual((watch.first.index, watch.first.name, watch.first.version), (1, "yes", 1))
            fake.version = 2
            news = watch.news()
            self.assertEqual((news.index, news.name, news.version, news.values), (0, "no", 2, ("no", "yes")))
            self.assertEqual(daemon.ask(["bob"], {}, ("no", "yes")).index, 0)
            fake.version = 3
            self.assertTrue(watch.news().at_least("yes"))
        self.assertEqual(fake.requests[8:9] + fake.requests[-3:], [b"NEWS 1", b"NEWS 1", b"CLOSE 1", b"BYE"])

    def test_several_at_once_and_one_that_is_closed(self):
        fake, daemon = self.watcher(values=("no", "log", "yes"))
        with daemon:
            one, other = daemon.watch(["alice"], {}), daemon.watch(["bob"], {}, ("no", "yes"))
            self.assertEqual((one.news().index, other.news().index), (2, 0))
            one.close()
            self.assertRaises(keynoted.NoSession, one.close)
            self.assertRaises(keynoted.NoSession, one.news)
            self.assertEqual(other.news().values, ("no", "yes"))
            self.assertRaises(ValueError, daemon.watch, ["alice"], {}, ("yes", "no"))
        self.assertRaises(keynoted.LinkEnded, other.news)
        with other:
            pass

    def test_a_refused_question_leaves_no_session(self):
        fake, daemon = self.watcher()
        for say, wanted in ((b"NO 11 principal", keynoted.NoPrincipal), (b"NOMEM", keynoted.NoMemory)):
            fake.say[b"AUTH"] = say
            with self.assertRaises(wanted):
                daemon.watch(*ALICE)
            self.assertTrue(fake.requests[-1].startswith(b"CLOSE "), fake.requests)
        self.assertRaises(TypeError, daemon.watch, "alice", {}, ("no", "yes"))
        self.assertRaises(ValueError, daemon.watch, ["a\nb"], {}, ("no", "yes"))

    def test_step_by_step(self):
        fake, daemon = self.watcher()
        with daemon, daemon.session() as session:
            self.assertRaises(keynoted.NoUnknown, session.news)
            session.auth("alice")
            self.assertEqual(session.watch("no", "yes").index, 1)
            session.clear()
            fake.version = 2
            self.assertEqual((session.news().index, session.news().version), (0, 2))
            with self.assertRaises(keynoted.NoValues):
                session.watch("no")
            self.assertEqual(session.news().values, ("no", "yes"))
            self.assertEqual(session.watch("a", "b", "c").values, session.news().values)
            session.unwatch()
            self.assertRaises(keynoted.NoUnknown, session.unwatch)
            self.assertRaises(keynoted.NoUnknown, session.news)
            self.assertRaises(ValueError, session.watch)
        _, daemon = self.watcher()
        with daemon, daemon.session() as session:
            daemon.request(b"WATCH 1 no,yes")
            self.assertRaises(ValueError, session.news)

    def test_it_is_compared_by_its_index(self):
        yes, no = keynoted.News(1, ("no", "yes"), 7), keynoted.News(0, ("no", "yes"), 8)
        self.assertTrue(no < yes and yes > "no" and yes == "yes" and no.at_least("no") and not no.at_least("yes"))
        self.assertTrue(keynoted.Answer(1, ("no", "yes"), 7, ()) > no)
        self.assertRaises(TypeError, bool, yes)
        self.assertRaises(ValueError, yes.at_least, "maybe")
        self.assertRaises(ValueError, lambda: yes == keynoted.News(1, ("n", "y"), 7))
        self.assertEqual(repr(yes), "<yes: 1 of no,yes, version 7>")
        critical = keynoted.Critical(keynoted.Value(1, ("no", "yes")), ("a1",))
        self.assertTrue(critical.value.at_least("yes"))
        self.assertEqual((critical.ids, repr(critical.value)), (("a1",), "<yes: 1 of no,yes>"))

    def test_what_is_no_reply_ends_the_connection(self):
        for reply in (
            b"OK\n", b"NEWS 1 no 1\n", b"NEWS 2 yes 1\n", b"NEWS 1 yes\n", b"NEWS 01 yes 1\n", b"NEWS 1 yes 1 0\n",
            b"NEWS\n", b"VALUE 1 yes 1 0\nEND\n", b"NEWS 1 yes 1\nOK\n", b"CRITICAL 1 0\nEND\n",
        ):
            daemon = talk(b"OK 1 1\n", reply)
            session = daemon.session()
            with self.assertRaises(keynoted.LinkEnded, msg=reply):
                session.watch("no", "yes")
            self.assertRaises(keynoted.LinkEnded, session.news)

    def test_it_is_recorded_and_sent_as_it_stands(self):
        _, daemon = self.watcher(record="talk")
        with daemon, daemon.session() as session:
            session.auth("alice")
            session.watch("no", "yes")
            session.critical("no", "yes")
            self.assertEqual(daemon.request(b"NEWS 1"), (b"NEWS 1 yes 1",))
            self.assertEqual(daemon.request(b"CRITICAL 1 x,y"), (b"CRITICAL 1 2", b"NEED a1", b"NEED p7", b"END"))
        with open("talk.replies", "rb") as replies:
            told = b"CRITICAL 1 2\nNEED a1\nNEED p7\nEND\n"
            due = b"OK 1 1\nOK\nNEWS 1 yes 1\n" + told + b"NEWS 1 yes 1\n" + told + b"OK\nOK\n"
            self.assertEqual(replies.read(), due)


class Criticals(Room):
    def test_a_whole_question_and_step_by_step(self):
        fake = Watcher()
        self.addCleanup(fake.stop)
        with keynoted.connect(fake.address) as daemon, daemon.session() as session:
            value, ids = daemon.critical(*ALICE, private=[CREDENTIAL])
            self.assertEqual((value.index, value.name, ids), (1, "yes", ("a1", "p7")))
            self.assertEqual(fake.requests[2:], [
                b"CLEAR 2", b"PIN 2", b"ASSERT 2 37", b"AUTH 2 alice", b"SET 2 action read", b"CRITICAL 2 no,yes",
                b"RETRACT 2 p1",
            ])
            self.assertEqual(daemon.critical(["bob"], {}, ("no", "yes")).ids, ())
            self.assertEqual(session.critical("no", "yes").value.index, 0)
            self.assertRaises(keynoted.NoValues, session.critical, "no")
            fake.say[b"CRITICAL"] = b"NO 13 limit nodes 16385"
            with self.assertRaises(keynoted.NoLimit) as raised:
                daemon.critical(*ALICE)
            self.assertEqual(raised.exception.parts, ["nodes", "16385"])
            fake.say[b"CRITICAL"] = b"NOMEM"
            self.assertRaises(keynoted.NoMemory, daemon.critical, *ALICE)
        told = keynoted.explain("NO 13 limit nodes 16385")
        self.assertTrue(told.endswith("this question have 16385 nodes: CRITICAL takes 16,384 at most"), told)

    def test_by_a_pool(self):
        fake = Watcher()
        self.addCleanup(fake.stop)
        with keynoted.Pool(fake.address, values=("no", "yes")) as pool:
            self.assertEqual(pool.critical(["alice"], {}).ids, ("a1", "p7"))
            fake.links[0].close()
            self.assertEqual(pool.critical(["alice"], {}).ids, ("a1", "p7"))
            self.assertEqual(pool.ask(["alice"], {}).index, 1)

    def test_with_asyncio(self):
        fake = Watcher()
        self.addCleanup(fake.stop)

        async def ask():
            async with await keynoted.connect_async(fake.address) as daemon:
                async with await daemon.watch(*ALICE) as watch:
                    fake.version = 2
                    news = await watch.news()
                    fake.version = 3
                    found = [watch.first.index, news.index, news.version, (await watch.news()).index]
                found.append((await daemon.critical(*ALICE)).ids)
                fake.say[b"AUTH"] = b"NO 11 principal"
                with self.assertRaises(keynoted.NoPrincipal):
                    await daemon.watch(*ALICE)
                del fake.say[b"AUTH"]
                with self.assertRaises(keynoted.NoSession):
                    await watch.news()
            async with keynoted.AsyncPool(fake.address, values=("no", "yes")) as pool:
                found.append((await pool.critical(["alice"], {})).value.name)
            return found

        self.assertEqual(asyncio.run(ask()), [1, 0, 2, 1, ("a1", "p7"), "yes"])
        self.assertIn(b"CLOSE 3", fake.requests)

    def test_replies_that_come_byte_by_byte(self):
        text = b"NEWS 1 yes 3\nCRITICAL 1 2\nNEED a12\nNEED p3\nEND\nCRITICAL 0 0\nEND\nNO 12 unknown\nNOMEM\n"
        requests = [wire.asked_of(word, b"1", ("no", "yes")) for word in (b"WATCH", b"CRITICAL", b"CRITICAL")]
        requests += [wire.Request(b"NEWS 1", None, wire.NEWS)] * 2
        for size in (1, 2, 3, 7, 1000):
            replies = wire.Replies(requests)
            pieces = [text[at:at + size] for at in range(0, len(text), size)]
            self.assertEqual([replies.feed(it) for it in pieces], [False] * (len(pieces) - 1) + [True])
            self.assertEqual([it.ids for it in replies.whole], [(), ("a12", "p3"), (), (), ()])
            self.assertEqual(b"".join(it.text() for it in replies.whole), text)

    def test_what_is_no_reply_ends_the_connection(self):
        for reply in (
            b"OK\n", b"CRITICAL 2 0\nEND\n", b"CRITICAL 1 1\nEND\n", b"CRITICAL 1 1\nNEED a1\nNEED a2\nEND\n",
            b"CRITICAL 1\nEND\n", b"CRITICAL 1 1\nNEED 1\nEND\n", b"CRITICAL 1 1\nNEED a01\nEND\n", b"NEWS 1 yes 1\n",
            b"CRITICAL 1 01\nNEED a1\nEND\n", b"VALUE 1 yes 1 0\nEND\n", b"CRITICAL 1 1\nNO 12 unknown\n",
            b"CRITICAL 1 yes 1 0\nEND\n", b"LOG 0 0 0\nEND\n",
        ):
            daemon = talk(b"OK 1 1\n", reply + b"OK\n" * 3)
            session = daemon.session()
            with self.assertRaises(keynoted.LinkEnded, msg=reply):
                session.critical("no", "yes")
        daemon = talk(b"OK 1 1\n", b"CRITICAL 1 1\nNEED a1\n")
        session = daemon.session()
        with self.assertRaisesRegex(keynoted.LinkEnded, "within a reply"):
            session.critical("no", "yes")

    def test_scripts_that_ask_so_are_linted(self):
        for word in (b"QUERY", b"WATCH", b"CRITICAL"):
            self.write("script", b"OPEN\nAUTH 1 alice\n" + word + b" 1 yes,no\n")
            script, found = parts.Script(), []
            found = keynoted.linting.read_script("script", script, [])
            self.assertEqual((script.orders, script.asking), ([[b"yes", b"no"]], [frozenset({b"alice"})]))
            self.assertEqual([it.place for it in found], ["script:3:1"])


def has_news():
    run = subprocess.run([PROGRAM, "ask", os.devnull], input=b"NEWS\n", stdout=subprocess.PIPE)
    return run.stdout == b"NO 1 syntax\n"


class Asked(Room):
    """The same over the program."""

    def setUp(self):
        super().setUp()
        if not has_news():
            raise unittest.SkipTest("the program has no NEWS")
        self.write("keys", b"digest %b\nsecret 733363726574\n" % hashlib.sha256(CREDENTIAL).hexdigest().encode())

    def test_a_kept_question_follows_changes(self):
        with start("p.kn", "keys", loading=None) as daemon, daemon.watch(["bob"], {}, ("no", "yes")) as watch:
            daemon.admin(b"s3cret")
            self.assertEqual((watch.first.index, watch.first.version), (0, 1))
            daemon.add(CREDENTIAL)
            self.assertEqual((watch.news().index, watch.news().version), (1, 2))
            self.assertEqual(daemon.critical(["bob"], {}, ("no", "yes")).ids, ("a1", "a2"))
            daemon.drop("a1")
            self.assertEqual((watch.news().index, watch.news().version), (0, 3))
            self.assertEqual(daemon.ask(["bob"], {}, ("no", "yes")).index, 0)
            with daemon.session() as session:
                self.assertRaises(keynoted.NoUnknown, session.news)
                session.pin(2)
                session.auth("bob")
                self.assertEqual((session.watch("no", "yes").version, session.news().version), (2, 3))
                session.unwatch()

    def test_sixteen_questions_are_kept_on_a_connection(self):
        with start("p.kn", loading=None) as daemon:
            kept = [daemon.watch(["alice"], {}, ("no", "yes")) for _ in range(16)]
            self.assertRaises(keynoted.NoLimit, daemon.watch, *ALICE)
            self.assertEqual([it.news().index for it in kept], [1] * 16)
            kept[3].close()
            self.assertEqual(daemon.watch(*ALICE).news().index, 1)

    def test_the_command_critical(self):
        self.write("more.kn", POLICY + b'\n# hers\nAuthorizer: "alice"\nLicensees: "bob" || "carol"\n\n' + POLICY)
        words = ("critical", "more.kn", "--values", "no,log,yes", "--auth")
        told = "answer: yes, which is 2 of no,log,yes\nyes hangs on a2, more.kn:4:1\n"
        self.assertEqual(self.command(*words, "bob"), (0, told, ""))
        told = "answer: yes, which is 2 of no,log,yes\nyes hangs on no credential alone\n"
        self.assertEqual(self.command(*words, "alice"), (0, told, ""))
        self.assertEqual(self.command(*words, "dave"), (0, "answer: no, which is 0 of no,log,yes\n", ""))
        self.assertEqual(self.command(*words, "POLICY")[0], 2)
        self.assertEqual(self.command("critical", "--values", "no,yes")[0], 2)
        _, address = self.serve()
        told = "answer: yes, which is 1 of no,yes\nyes hangs on a1\n"
        words = ("critical", "--connect", address, "--auth", "alice", "--values", "no,yes")
        self.assertEqual(self.command(*words), (0, told, ""))

    def test_the_command_who(self):
        self.write("who.kn", (
            b'Authorizer: "POLICY"\nLicensees: "a" && "b"\n\nAuthorizer: "a"\nLicensees: "x"\n\n'
            b'Authorizer: "b"\nLicensees: "x" || "y"\nConditions: hour == "9" -> "log"; true -> "read";\n\n'
            b'Local-Constants: TOP = "POLICY"\nAuthorizer: "c"\nLicensees: TOP || POLICY\n\n'
            b'Authorizer: "b"\nLicensees: "y"\n'))
        status, out, errors = self.command("who", "who.kn", "--auth", "x", "--set", "hour=9", "--values", "no,log,read")
        self.assertEqual((status, errors), (0, ""))
        self.assertEqual(sorted(out.splitlines()), sorted([
            "x asks, and has read", "a has read, which hangs on a2", "b has read, which hangs on a3",
            "POLICY has read, which hangs on a1, a2, a3", "c has read, which hangs on a1, a2, a3, a4",
            "answer: read, which is 2 of no,log,read",
        ]))
        told = "w0 asks, and has yes\nanswer: no, which is 0 of no,yes\n"
        self.assertEqual(self.command("who", "who.kn", "--auth", "w0", "--values", "no,yes"), (0, told, ""))
        self.assertEqual(self.command("who", "gone.kn", "--values", "no,yes"), (2, "", "gone.kn: couldn't be read\n"))

    def test_what_each_principal_hangs_on_is_what_it_has_less_without(self):
        """The copies of policies say the same as policies without one of their assertions."""
        draw, tried = random.Random(3), 0
        names = [f"p{it}" for it in range(6)] + ["POLICY"]
        for _ in range(12):
            texts = [self.generated(draw, names, "POLICY" if at < 2 else draw.choice(names)) for at in range(7)]
            self.write("drawn.kn", "\n".join(texts).encode())
            asked = (draw.sample(names[:-1], 2), {"x": "1"}, ("no", "log", "yes"))
            answer, found = hanging.hanging("drawn.kn", asked)
            less = {}
            for at in range(len(texts)):
                self.write("less.kn", "\n".join(texts[:at] + texts[at + 1:]).encode())
                with start("less.kn", loading=None) as daemon:
                    less[f"a{at + 1}"] = {row.principal: row.level for row in daemon.ask(*asked).rows}
            for principal, level, ids in found:
                due = tuple(name for name, levels in less.items() if levels.get(principal, 0) < level)
                self.assertEqual(ids, due, (principal, texts))
                tried += bool(due)
        self.assertGreater(tried, 10)

    @staticmethod
    def generated(draw, names, authorizer):
        a, b, c = (f'"{it}"' for it in draw.sample(names, 3))
        licensees = draw.choice([a, a, f"{a} || {b}", f"{a} && {b}", f"2-of({a}, {b}, {c})"])
        conditions = draw.choice(["", "", 'Conditions: x == "1" -> "log";\n'])
        return f'Authorizer: "{authorizer}"\nLicensees: {licensees}\n{conditions}'

    def test_pictures_have_thick_borders_where_an_answer_hangs(self):
        self.write("policy.kn", POLICY + b'\nAuthorizer: "alice"\nLicensees: "bob"\n\n' + POLICY)
        script = b"OPEN\nAUTH 1 bob\nADMIN 00\nQUERY 1 no\nQUERY 1 no,yes\nAUTH 1 x\nQUERY 2 no,yes\n"
        self.write("script", script)
        self.assertEqual(drawing.critical_ids("policy.kn", "script"), {"a2"})
        with open("output", "wb") as output:
            subprocess.run([PROGRAM, "ask", "policy.kn"], input=script, stdout=output, check=True)
        with open("output", "rb") as output:
            proof = drawing.Proof("policy.kn", "script", output.read())
        sorts = {box.key: box.sort for box in drawing.picture_of(proof).boxes.values()}
        self.assertEqual((sorts["ca3"], sorts["ca2"]), ("credential", "critical"))
        dot = "\n".join(drawing.dot_of(proof))
        self.assertRegex(dot, r'label="a2, policy.kn:4:1.*", shape=box, style=bold\];')
        self.assertRegex(dot, r'label="a3, policy.kn:7:1.*", shape=box\];')
        page = keynoted.pages.page_of(proof, drawing.picture_of(proof))
        self.assertEqual((page.count('class="critical"'), page.count('class="credential"')), (1, 1))
        self.write("output", b'VALUE 1 yes 3 1\nROW 1 a1 "POLICY"\nEND\n')
        with open("output", "rb") as output:
            self.assertEqual(drawing.Proof("policy.kn", "script", output.read()).critical, frozenset())

    def test_a_script_that_breaks_off(self):
        for tail in (b"", b"BYE\nQUERY 1 a,b\n", b"ADD 99999\n", b"QUERY 1 a,b", b"ASSERT 1 1\nxx\nQUERY 1 a,b\n"):
            self.write("script", b"OPEN\nAUTH 1 alice\nQUERY 1 no,yes\n" + tail)
            self.assertEqual(drawing.critical_ids("p.kn", "script"), {"a1"}, tail)
        self.write("script", b"OPEN\nAUTH 1 alice\n")
        self.assertEqual(drawing.critical_ids("p.kn", "script"), frozenset())
