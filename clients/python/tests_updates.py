"""Tests of changes of the shared credentials: batches, the log, older versions, and the commands on them."""

import hashlib
import re
import subprocess
import unittest

import keynoted
from keynoted import parts, sending, wire
from keynoted.errors import refusal_of
from tests_room import CREDENTIAL, POLICY, PROGRAM, Fake, Room, talk

SECRET = b"733363726574"
OTHER = b'Authorizer: "alice"\nLicensees: "carol"\n'
STRANGER = b'Authorizer: "alice"\nLicensees: "mallory"\n'
ADD, DROP = b"ADD %d\n%b\n", b"DROP a%d\n"


class Keeper(Fake):
    """A daemon in this process that keeps updates, and knows two texts beside the policy: all others have no signature."""

    def __init__(self, policy=(POLICY,), **how):
        super().__init__(**how)
        self.updates = [(0, [(text, number)]) for number, text in enumerate(policy, 1)]

    def changes(self):
        return [change for _, changes in self.updates for change in changes]

    def live(self):
        found = {number: text for text, number in self.changes() if text is not None}
        for text, number in self.changes():
            if text is None:
                found.pop(number)
        return found

    def change(self, items):
        """Makes an update of these items; or answers the first that is refused, and its refusal."""
        live, changes, made = self.live(), [], sum(text is not None for text, _ in self.changes())
        for at, (text, number) in enumerate(items, 1):
            if text is not None and text not in (CREDENTIAL, OTHER):
                return at, b"5 read 18 5" if b"2-of" in text else b"7 auth 1"
        for at, (text, number) in enumerate(items, 1):
            if text is None and number not in live:
                return at, b"12 unknown"
            made += text is not None
            changes.append((text, number if text is None else made))
            if text is None:
                live.pop(number)
            else:
                live[made] = text
        self.updates.append((1, changes))
        return 0, b"a%d %d" % (made - sum(text is not None for text, _ in items) + 1, sum(text is not None for text, _ in items))

    def reply(self, sessions, words, line, block):
        if words[0] == b"ADMIN":
            return b"OK" if words[1] == SECRET else b"NO 4 admin"
        if words[0] == b"ADD":
            at, told = self.change([(block, None)])
            return b"NO " + told if at else b"OK %b %d" % (told.split()[0], len(self.updates))
        if words[0] == b"DROP":
            at, told = self.change([(None, int(words[1][1:]))])
            return b"NO " + told if at else b"OK %d" % len(self.updates)
        if words[0] == b"BATCH":
            items = items_of(block)
            if not items:
                return b"NO 16 batch 1"
            at, told = self.change(items)
            return b"NO 17 item %d %b" % (at, told) if at else b"OK %b %d" % (told, len(self.updates))
        if words[0] == b"LOG":
            return self.log(int(words[1]))
        if words[0] == b"PIN" and len(words) == 3:
            newest, version = len(self.updates), int(words[2])
            kept = newest - 15 <= version <= newest
            return b"OK %d %d" % (version, newest) if kept else b"NO 18 retained %d" % newest
        return super().reply(sessions, words, line, block)

    def log(self, start):
        if start > len(self.updates):
            return b"NO 19 ahead %d" % len(self.updates)
        told = self.updates[start:start + 16]
        lines = b"LOG %d %d %d\n" % (start, len(told), len(self.updates))
        for caller, changes in told:
            lines += b"UPDATE %d %d\n" % (caller, len(changes))
            lines += b"".join(DROP % number if text is None else ADD % (len(text), text) for text, number in changes)
        return lines + b"END"


def items_of(block):
    items, at = [], 0
    while at < len(block):
        line = re.compile(rb"ADD (\d+)\n|DROP a(\d+)\n").match(block, at)
        at = line.end() + (int(line[1]) + 1 if line[1] else 0)
        items.append((block[line.end():at - 1], None) if line[1] else (None, int(line[2])))
    return items


class Batches(Room):
    def keeper(self, **how):
        daemon = Keeper(**how)
        self.addCleanup(daemon.stop)
        return daemon, keynoted.connect(daemon.address)

    def test_changes_are_sent_together(self):
        keeper, daemon = self.keeper()
        with daemon:
            with daemon.batch() as batch:
                batch.add(CREDENTIAL)
                batch.drop("a1")
                batch.add(OTHER.decode())
                self.assertEqual(keeper.requests, [])
            self.assertEqual((batch.ids, batch.version, len(batch)), (("a2", "a3"), 2, 3))
            with daemon.batch() as batch:
                batch.drop("a2")
            self.assertEqual((batch.ids, batch.version), ((), 3))
        self.assertEqual(keeper.requests, [b"BATCH 100", b"BATCH 8", b"BYE"])
        self.assertEqual(keeper.live(), {3: OTHER})

    def test_nothing_is_sent_where_the_body_raises(self):
        keeper, daemon = self.keeper()
        for wrong in (ZeroDivisionError, KeyboardInterrupt):
            with self.assertRaises(wrong), daemon.batch() as batch:
                batch.add(CREDENTIAL)
                raise wrong
        self.assertEqual((keeper.requests, batch.version), ([], None))
        self.assertEqual(daemon.add(CREDENTIAL), ("a2", 2))

    def test_a_refusal_names_the_item_and_has_its_own(self):
        keeper, daemon = self.keeper()
        for item, wanted, told in (
            (lambda it: it.drop("a9"), keynoted.NoUnknown, "NO 17 item 2 12 unknown: item 2: the assertion, credential"),
            (lambda it: it.add(STRANGER), keynoted.NoAuth, "NO 17 item 2 7 auth 1: item 2: it has no signature"),
            (lambda it: it.add('Authorizer: "a"\nLicensees: 2-of("b")\n'), keynoted.NoRead,
             "NO 17 item 2 5 read 18 5: item 2, 2:12: a threshold over 1"),
        ):
            with self.assertRaises(keynoted.NoItem) as raised, daemon.batch() as batch:
                batch.add(CREDENTIAL)
                item(batch)
            refused = raised.exception
            self.assertEqual((refused.item, type(refused.reason), batch.version), (2, wanted, None))
            self.assertEqual(refused.parts[0], "2")
            self.assertTrue(str(refused).startswith(told), refused)
        with self.assertRaises(keynoted.NoBatch) as raised, daemon.batch():
            pass
        self.assertEqual(raised.exception.parts, ["1"])
        self.assertEqual(len(keeper.updates), 1)

    def test_what_would_be_other_items_or_too_many_is_not_sent(self):
        keeper, daemon = self.keeper()
        for name in ("a1\nDROP a2", "1", "a01", "a", "p1", "a1000000000", ""):
            with self.assertRaises(ValueError), daemon.batch() as batch:
                batch.drop(name)
        for count, text in ((257, b""), (2, b"c" * 8190), (1, b"c" * 16374)):
            with self.assertRaises(ValueError), daemon.batch() as batch:
                for _ in range(count):
                    batch.add(text)
            self.assertEqual(len(batch), count - 1)
        self.assertRaises(TypeError, daemon.batch().add, 5)
        self.assertEqual(keeper.requests, [])
        with self.assertRaises(keynoted.NoItem), daemon.batch() as batch:
            batch.add(b"c" * 16373)
        self.assertEqual(keeper.requests, [b"BATCH 16384"])

    def test_each_refusal_of_an_item(self):
        for line in ("5 read 7 16", "7 auth 4", "12 unknown", "13 limit live 4096", "13 limit live-bytes 8388600"):
            refused = refusal_of(f"NO 17 item 256 {line}")
            self.assertEqual((refused.item, refused.reason.line), (256, f"NO {line}"))
            self.assertTrue(keynoted.explain(refused.line).startswith(f"{refused.line}: item 256: "), line)
        for line in ("17 item 1 3 session", "17 item 1 4 admin", "17 item 1 17 item 1 12 unknown", "17 item 12 unknown", "16 batch 0"):
            self.assertRaises(ValueError, refusal_of, f"NO {line}")


class Logs(Room):
    def test_the_log_goes_on_to_the_newest(self):
        policy = [b'Authorizer: "POLICY"\nLicensees: "p%d"\n' % number for number in range(40)]
        keeper = Keeper(policy)
        self.addCleanup(keeper.stop)
        with keynoted.connect(keeper.address) as daemon:
            self.assertEqual([it.changes[0].text for it in daemon.log()], policy)
            self.assertEqual(keeper.requests, [b"LOG 0", b"LOG 16", b"LOG 32"])
            self.assertEqual([it.changes[0].text for it in daemon.log(25)], policy[25:])
            self.assertEqual(daemon.log(40), [])
            with self.assertRaises(keynoted.NoAhead) as raised:
                daemon.log(41)
            self.assertEqual(raised.exception.parts, ["40"])
            for wrong in ("1", None, 1.0, True):
                self.assertRaises(TypeError, daemon.log, wrong)
            self.assertRaises(ValueError, daemon.log, -1)

    def test_what_is_live_is_told_by_the_log(self):
        keeper = Keeper()
        self.addCleanup(keeper.stop)
        with keynoted.connect(keeper.address) as daemon:
            daemon.add(CREDENTIAL)
            with daemon.batch() as batch:
                batch.add(OTHER)
                batch.drop("a2")
                batch.add(CREDENTIAL)
            told = [tuple(it) for it in daemon.credentials()]
            self.assertEqual(daemon.log(2)[0].changes, (
                keynoted.Added(OTHER), keynoted.Dropped("a2"), keynoted.Added(CREDENTIAL)))
        self.assertEqual(told, [
            ("a1", True, 0, POLICY), ("a2", False, 1, CREDENTIAL), ("a3", True, 1, OTHER), ("a4", True, 1, CREDENTIAL)])

    def test_replies_that_come_byte_by_byte(self):
        texts = [b"", b"\n", b"END\n", b"\n\nUPDATE 0 1\nDROP a1\n", bytes(range(256)), b"no newline at its end"]
        reply = b"LOG 3 2 5\nUPDATE 0 6\n" + b"".join(ADD % (len(it), it) for it in texts) + b"UPDATE 12 1\nDROP a4\nEND\n"
        for size in (1, 2, 3, 7, 1000):
            replies = wire.Replies([wire.log_of(3)])
            pieces = [reply[at:at + size] for at in range(0, len(reply), size)]
            self.assertEqual([replies.feed(it) for it in pieces], [False] * (len(pieces) - 1) + [True])
            updates = replies.whole[0].updates
            self.assertEqual([it.text for it in updates[0].changes], texts)
            self.assertEqual((updates[1].caller, updates[1].changes), (12, (keynoted.Dropped("a4"),)))
            self.assertEqual(replies.whole[0].text(), reply)

    def test_what_is_no_reply_to_it_ends_the_connection(self):
        good = b"UPDATE 0 1\nADD 2\nx\n\n"
        for text in (
            b"LOG 0 1 1\n" + good + b"OK\n", b"LOG 0 1 2\n" + good + b"END\n", b"LOG 0 2 1\n" + good + b"END\n",
            b"LOG 1 0 1\nEND\n", b"LOG 0 1\n" + good + b"END\n", b"LOG 0 01 1\n" + good + b"END\n",
            b"LOG 0 17 17\n" + good * 17 + b"END\n", b"LOG 0 1 1\nEND\n", b"LOG 0 1 1\nUPDATE 0 0\nEND\n",
            b"LOG 0 1 1\nUPDATE 0 257\n" + b"DROP a1\n" * 257 + b"END\n", b"LOG 0 1 1\nUPDATE 0\nDROP a1\nEND\n",
            b"LOG 0 1 1\nUPDATE 0 2\nDROP a1\nEND\n", b"LOG 0 1 1\nUPDATE 0 1\nDROP 1\nEND\n",
            b"LOG 0 1 1\nUPDATE 0 1\nADD 3\nx\n\nEND\n", b"LOG 0 1 1\nUPDATE 0 1\nADD 16385\n" + b"x" * 16385 + b"\nEND\n",
            b"LOG 0 1 1\nUPDATE 0 1\nADD 1\nx\n\nEND\n", b"OK\n", b"END\n", b"VALUE 0 no 1 0\nEND\n", b"NO 19 ahead\n",
        ):
            daemon = talk(text + b"OK\n" * 20)
            with self.assertRaises(keynoted.LinkEnded, msg=text):
                daemon.log()
            with self.assertRaises(keynoted.LinkEnded):
                daemon.session()
        self.assertRaises(keynoted.NoMemory, talk(b"NOMEM\n").log)
        with self.assertRaisesRegex(keynoted.LinkEnded, "within a reply"):
            talk(b"LOG 0 1 1\nUPDATE 0 1\n").log()

    def test_a_record_of_a_log(self):
        keeper = Keeper([b"Comment: \xff\nAuthorizer: \"POLICY\"\n\n", POLICY])
        self.addCleanup(keeper.stop)
        with keynoted.connect(keeper.address, record="talk") as daemon:
            daemon.admin(b"s3cret")
            daemon.log()
            with daemon.batch() as batch:
                batch.drop("a1")
        with open("talk.requests", "rb") as requests, open("talk.replies", "rb") as replies:
            self.assertEqual(requests.read(), b"ADMIN 00\nLOG 0\nBATCH 8\nDROP a1\n\nBYE\n")
            self.assertEqual(replies.read(), b"OK\n" + keeper.log(0).replace(b"\n3\n", b"\n2\n").replace(b"LOG 0 3 3", b"LOG 0 2 2")
                             .replace(b"UPDATE 1 1\nDROP a1\n", b"") + b"\nOK a3 0 3\nOK\n")


class Scripts(Room):
    def test_what_a_batch_of_a_script_adds_is_linted(self):
        wrong = CREDENTIAL + b"Conditions: name == \"x\" -> yes;\n"
        block = ADD % (len(OTHER), OTHER) + DROP % 1 + ADD % (len(wrong), wrong)
        script = b"OPEN\nBATCH %d\n%b\nQUERY 1 no,yes\n" % (len(block), block)
        found = [script[start:end] for _, line, at, to in parts.requests_of(script) if line.startswith(b"BATCH")
                 for start, end in parts.texts_in(script, at, to)]
        self.assertEqual(found, [OTHER, wrong])
        self.write("script", script)
        told = [str(it) for it in keynoted.lint("p.kn", ["script"])]
        self.assertTrue(any(it.startswith("script:11:") for it in told), told)
        for broken in (b"", b"x", b"ADD 9\nx", b"ADD 3\nx\n\nADD", b"ADD 01\nx\n"):
            self.assertLess(len(list(parts.texts_in(broken, 0, len(broken)))), 2)

    def test_a_batch_is_sent_as_it_stands(self):
        block = ADD % (37, CREDENTIAL) + b"DROP a9\n"
        script = b"LOG 0\nBATCH %d\r\n%b\nBYE\n" % (len(block), block)
        sent = list(sending.requests_in(script))
        self.assertEqual([it.line for it in sent], [b"LOG 0", b"BATCH %d" % len(block), b"BYE"])
        self.assertEqual(sent[1].block, block)


class Pins(Room):
    def test_an_older_version_is_pinned(self):
        keeper = Keeper([POLICY] * 17)
        self.addCleanup(keeper.stop)
        with keynoted.connect(keeper.address) as daemon, daemon.session() as session:
            self.assertEqual((session.pin(2), session.version), ((2, 17), 2))
            with self.assertRaises(keynoted.NoRetained) as raised:
                session.pin(1)
            self.assertEqual((raised.exception.parts, session.version), (["17"], 2))
            for wrong in ("1", 1.0, True):
                self.assertRaises(TypeError, session.pin, wrong)
            self.assertRaises(ValueError, session.pin, -1)
            self.assertEqual(session.pin(), 1)
        self.assertEqual([it for it in keeper.requests if it.startswith(b"PIN")], [b"PIN 1 2", b"PIN 1 1", b"PIN 1"])


class Commands(Room):
    def setUp(self):
        super().setUp()
        self.keeper = Keeper()
        self.addCleanup(self.keeper.stop)
        self.write("old.kn", CREDENTIAL)
        self.write("new.kn", OTHER)
        self.write("stranger.kn", STRANGER)

    def admin(self, word, *words):
        return self.command(word, "--connect", self.keeper.address, "--keys", "keys", *words)

    def test_list(self):
        self.admin("rotate", "old.kn", "--to", "new.kn")
        self.assertEqual(self.keeper.requests, [b"ADMIN 733363726574", b"LOG 0", b"BYE"])
        with keynoted.connect(self.keeper.address) as daemon:
            daemon.add(CREDENTIAL)
            daemon.drop("a2")
        policy, bob = 'Authorizer: "POLICY" Licensees: "alice"\n', 'Authorizer: "alice" Licensees: "bob"\n'
        self.assertEqual(self.admin("list"), (0, f"a1 live, policy: {policy}a2 dropped, caller 1: {bob}", ""))
        self.assertEqual(self.admin("list", "--live"), (0, f"a1 live, policy: {policy}", ""))

    def test_rotate(self):
        with keynoted.connect(self.keeper.address) as daemon:
            for _ in range(2):
                daemon.add(CREDENTIAL)
        told = "dropped a2, old.kn\ndropped a3, old.kn\nadded a4, new.kn\nversion 4\n"
        self.assertEqual(self.admin("rotate", "old.kn", "--to", "new.kn"), (0, told, ""))
        self.assertEqual(self.keeper.updates[-1], (1, [(None, 2), (None, 3), (OTHER, 4)]))

    def test_rotate_that_cannot_be_done_changes_nothing(self):
        with keynoted.connect(self.keeper.address) as daemon:
            daemon.add(CREDENTIAL)
        self.write("wrong.kn", b'Authorizer: "a"\nLicensees: 2-of("b")\n')
        self.write("none", b"mac 0b0b alice\n")
        self.write("other", b"secret 00\n")
        for words, told in (
            (("rotate", "new.kn", "--to", "old.kn"), "no live credential has the text of new.kn"),
            (("rotate", "old.kn", "--to", "new.kn", "stranger.kn"), "NO 17 item 3 7 auth 1: stranger.kn: it has no signature"),
            (("rotate", "old.kn", "--to", "wrong.kn"), "NO 17 item 2 5 read 18 5: wrong.kn:2:12: a threshold over 1"),
            (("rotate", "gone.kn", "--to", "new.kn"), "No such file"),
            (("rotate", "old.kn", "--to", "gone.kn"), "No such file"),
            (("drop", "--like", "new.kn"), "no live credential has the text of new.kn"),
            (("list", "--keys", "none"), "none has no secret"), (("list", "--keys", "other"), "NO 4 admin"),
        ):
            status, out, errors = self.admin(*words)
            self.assertEqual((status, out), (2, ""), words)
            self.assertIn(told, errors)
        self.assertEqual(len(self.keeper.updates), 2)

    def test_drop(self):
        with keynoted.connect(self.keeper.address) as daemon:
            for text in (CREDENTIAL, OTHER, CREDENTIAL):
                daemon.add(text)
        told = "dropped a2, old.kn\ndropped a4, old.kn\nversion 5\n"
        self.assertEqual(self.admin("drop", "--like", "old.kn"), (0, told, ""))
        self.assertEqual(sorted(self.keeper.live()), [1, 3])


def has_batches():
    run = subprocess.run([PROGRAM, "ask", "/dev/null"], input=b"LOG\n", stdout=subprocess.PIPE)
    return run.stdout == b"NO 1 syntax\n"


class Served(Room):
    """The same over the program."""

    def setUp(self):
        super().setUp()
        if not has_batches():
            raise unittest.SkipTest("the program has no LOG")
        digests = b"".join(b"digest %b\n" % hashlib.sha256(it).hexdigest().encode() for it in (CREDENTIAL, OTHER))
        self.write("keys", digests + b"secret 733363726574\n")
        self.write("old.kn", CREDENTIAL)
        self.write("new.kn", OTHER)

    def test_a_whole_talk(self):
        with keynoted.start("p.kn", "keys") as daemon, daemon.session() as session:
            session.auth("carol")
            for refused in (daemon.log, lambda: daemon.batch().__exit__(None, None, None)):
                self.assertRaises(keynoted.NoAdmin, refused)
            daemon.admin(b"s3cret")
            daemon.add(CREDENTIAL)
            with daemon.batch() as batch:
                batch.drop("a2")
                batch.add(OTHER)
            self.assertEqual((batch.ids, batch.version), (("a3",), 3))
            self.assertEqual((session.pin(), session.query("no", "yes").index), (3, 1))
            self.assertEqual((session.pin(2), session.query("no", "yes").index), ((2, 3), 0))
            self.assertRaises(keynoted.NoRetained, session.pin, 4)
            self.assertRaises(keynoted.NoAhead, daemon.log, 4)
            self.assertEqual([tuple(it) for it in daemon.credentials()], [
                ("a1", True, 0, POLICY), ("a2", False, 0, CREDENTIAL), ("a3", True, 0, OTHER)])
            with self.assertRaises(keynoted.NoItem) as raised, daemon.batch() as batch:
                batch.drop("a3")
                batch.drop("a3")
            self.assertEqual((raised.exception.item, type(raised.exception.reason)), (2, keynoted.NoUnknown))
            with self.assertRaisesRegex(keynoted.NoItem, "^NO 17 item 1 5 read 18 5: item 1, 2:12: a threshold"), \
                    daemon.batch() as batch:
                batch.add('Authorizer: "a"\nLicensees: 2-of("b")\n')
            with self.assertRaises(keynoted.NoBatch), daemon.batch():
                pass
            self.assertEqual(len(daemon.log()), 3)

    def test_a_batch_and_a_log_at_their_limits(self):
        with keynoted.start("p.kn", "keys") as daemon:
            daemon.admin(b"s3cret")
            for round_ in range(20):
                with daemon.batch() as batch:
                    for _ in range(128):
                        batch.add(CREDENTIAL)
                    for number in range(128):
                        batch.drop(f"a{2 + 128 * round_ + number}")
            self.assertEqual((batch.version, len(daemon.log()), len(daemon.log(5))), (21, 21, 16))
            self.assertEqual(sum(it.live for it in daemon.credentials()), 1)

    def test_the_commands(self):
        _, address = self.serve()
        words = ("--connect", address, "--keys", "keys")
        with keynoted.connect(address) as daemon:
            daemon.admin(b"s3cret")
            daemon.add(CREDENTIAL)
        told = "dropped a2, old.kn\nadded a3, new.kn\nversion 3\n"
        self.assertEqual(self.command("rotate", *words, "old.kn", "--to", "new.kn"), (0, told, ""))
        status, out, errors = self.command("list", *words)
        self.assertEqual((status, errors), (0, ""))
        self.assertRegex(out, r'^a1 live, policy: .*\na2 dropped, caller [1-4]: .*\na3 live, caller [1-4]: .*"carol"\n$')
        self.assertEqual(self.command("drop", *words, "--like", "new.kn")[:2], (0, "dropped a3, new.kn\nversion 4\n"))
        self.assertEqual(self.command("drop", *words, "--like", "new.kn")[0], 2)
