"""Tests of connections: refusals, replies, interruptions, threads, limits of time, types and addresses."""

import contextlib
import os
import random
import signal
import socket
import subprocess
import threading
import time

import keynoted
from keynoted import link, wire
from tests_room import CREDENTIAL, POLICY, PROGRAM, Room, talk


class Refusals(Room):
    def test_each_refusal_is_an_exception_of_its_own(self):
        with keynoted.start("p.kn", "keys") as daemon, daemon.session() as session:
            gone = daemon.session()
            gone.close()
            for wanted, call in (
                (keynoted.NoSyntax, lambda: daemon.request(b"OPEN 1")),
                (keynoted.NoCommand, lambda: daemon.request(b"open")),
                (keynoted.NoSession, gone.clear),
                (keynoted.NoAdmin, lambda: daemon.admin(b"wrong")),
                (keynoted.NoRead, lambda: session.add_private('Authorizer: "a"\nLicensees: 2-of("b")\n')),
                (keynoted.NoPolicy, lambda: session.add_private(POLICY)),
                (keynoted.NoName, lambda: session.set("_x", "1")),
                (keynoted.NoValue, lambda: session.set("x", "1" * 4097)),
                (keynoted.NoValues, lambda: session.query("yes")),
                (keynoted.NoPrincipal, lambda: session.auth("POLICY")),
                (keynoted.NoUnknown, lambda: session.unset("x")),
                (keynoted.NoLimit, lambda: [daemon.session() for _ in range(17)]),
                (keynoted.NoLong, lambda: session.set("x", "1" * 9000)),
            ):
                with self.assertRaises(wanted) as raised:
                    call()
                self.assertIs(type(raised.exception), wanted)
                self.assertEqual(raised.exception.line.split()[1], str(wanted.code))
            daemon.admin(b"s3cret")
            with self.assertRaises(keynoted.NoAuth) as raised:
                daemon.add(CREDENTIAL)
            self.assertEqual(raised.exception.parts, ["1"])
            with self.assertRaises(keynoted.NoBlock):
                daemon.add(b" " * 16385)
            with self.assertRaises(keynoted.LinkEnded):
                daemon.session()

    def test_there_are_nineteen(self):
        self.assertEqual(sorted(keynoted.Refusal.of_code), list(range(1, 20)))

    def test_what_would_be_another_request_is_not_sent(self):
        with keynoted.start("p.kn") as daemon, daemon.session() as session:
            for call in (
                lambda: session.auth("bob\nAUTH 1 alice"),
                lambda: session.auth("alice\r"),
                lambda: session.set("x", "1\nAUTH 1 alice"),
                lambda: session.set("x y", "1"),
                lambda: session.set("", "1"),
                lambda: session.unset("x\nAUTH 1 alice"),
                lambda: session.query("no,yes", "maybe"),
                lambda: session.query("no", "yes\nAUTH 1 alice"),
                lambda: session.retract("p1\nAUTH 1 alice"),
                lambda: daemon.drop("a1\nAUTH 1 alice"),
                lambda: daemon.request(b"AUTH 1 alice\nCLEAR 1"),
            ):
                self.assertRaises(ValueError, call)
            self.assertEqual(session.query("no", "yes").index, 0)
        for word in (b"a\n", b"a\r", b"\nb", b"a\nb"):
            self.assertRaises(ValueError, wire.words_of, b"AUTH", word)

    def test_bytes_of_all_kinds_are_a_value(self):
        self.write("p.kn", POLICY + b'Conditions: x == "a\\nb\\015" -> "yes";\n')
        with keynoted.start("p.kn") as daemon, daemon.session() as session:
            session.auth("alice")
            session.set_bytes("x", b"a\nb\r")
            self.assertTrue(session.query("no", "yes") >= "yes")


class Replies(Room):
    def reply(self, text):
        """A session whose daemon answers OPEN and then what is asked next by this."""
        return talk(b"OK 1 1\n", text).session()

    def test_want_of_memory_is_no_answer(self):
        with self.assertRaises(keynoted.NoMemory):
            self.reply(b"NOMEM\n").query("no", "yes")

    def test_what_is_no_reply_ends_the_connection(self):
        for text in (
            b"", b"OK", b"VALUE 1 yes 1 1\nROW 1 a1 \"POLICY\"\n", b"VALUE 1 yes 1 0\nROW", b"VALUE 2 yes 1 0\nEND\n",
            b"VALUE 0 yes 1 0\nEND\n", b"VALUE 1 YES 1 0\nEND\n", b"VALUE 01 yes 1 0\nEND\n", b"OK\n", b"NO 3 limit\n",
            b"VALUE 1 yes 1 1\nROW 1 a1 POLICY\nEND\n", b"VALUE 1 yes 1 0\nOK\n", b"NO 16 batch\n", b"yes\n",
            b"NO 17 item 1 8 name\n", b"NO 17 item 0 12 unknown\n", b"NO 17 item 1 12\n", b"NO 18 retained\n", b"NO 20 x\n",
            b'VALUE 1 yes 1 0\nROW 1 a1 "POLICY"\nEND\n', b"error link budget\n", b"VALUE 1 yes 1 0 \nEND\n",
        ):
            # what stands behind it would be taken for the reply to the next request
            session = self.reply(text + b"OK\nOK\n" if text.endswith(b"\n") else text)
            with self.assertRaises(keynoted.LinkEnded):
                session.query("no", "yes")
            with self.assertRaises(keynoted.LinkEnded):
                session.clear()

    def test_an_answer_goes_by_its_index(self):
        answer = self.reply(b'VALUE 1 a 3 1\nROW 1 p2 "x\\"\\012"\nEND\n').query("b", "a", "c")
        self.assertEqual((answer.index, answer.name, answer.version), (1, "a", 3))
        self.assertEqual(answer.rows, (keynoted.Row(1, "p2", b'x"\n'),))
        self.assertTrue(answer > "b" and answer >= "a" and answer == "a" and answer < "c" and not answer.at_least("c"))
        self.assertRaises(ValueError, answer.at_least, "d")
        self.assertRaises(TypeError, bool, answer)

    def test_a_policy_that_is_refused_ends_the_connection_by_its_line(self):
        self.write("p.kn", b'Authorizer: "POLICY"\nLicensees: alice\n')
        with self.assertRaises(keynoted.LinkEnded) as raised, keynoted.start("p.kn") as daemon:
            daemon.session()
        self.assertEqual(raised.exception.line, "error policy p.kn 1 19 5")
        told = 'p.kn:2:12: alice is no local constant: a principal stands in quotes, "alice"'
        self.assertEqual(str(raised.exception), told)

    def test_a_key_file_that_is_refused_is_told_by_its_line(self):
        self.write("keys", b"secret 00\nsecret 01\n")
        with self.assertRaises(keynoted.LinkEnded) as raised, keynoted.start("p.kn", "keys") as daemon:
            daemon.ask(["alice"], {}, ("no", "yes"))
        self.assertRegex(str(raised.exception), "^keys:2:1: neither mac")

    def test_a_program_that_says_nothing_is_told_by_its_status(self):
        for program, told in (("false", "status 1"), ("/no/such/program", "doesn't start")):
            with self.assertRaisesRegex(keynoted.LinkEnded, told), keynoted.start("p.kn", program=program) as daemon:
                daemon.session()

    def test_a_whole_talk(self):
        with keynoted.start("p.kn", "keys") as daemon, daemon.session() as session:
            session.auth("bob")
            self.assertEqual(session.add_private(CREDENTIAL), "p1")
            self.assertEqual([row.id for row in session.query("no", "yes").rows], ["p1", "a1"])
            session.retract("p1")
            session.unauth("bob")
            session.clear()
            self.assertEqual((session.version, session.pin()), (1, 1))

    def test_a_connection_over_tcp(self):
        with socket.create_server(("127.0.0.1", 0)) as listener:
            def serve():
                with listener.accept()[0] as link:
                    subprocess.run([PROGRAM, "ask", "p.kn"], stdin=link, stdout=link)
            thread = threading.Thread(target=serve)
            thread.start()
            port = str(listener.getsockname()[1])
            words = ("--connect", f"127.0.0.1:{port}", "--auth", "alice", "--values", "no,yes")
            status, out, _ = self.command("query", *words)
            thread.join()
        self.assertEqual((status, out.splitlines()[-1]), (0, "answer: yes, which is 1 of no,yes"))
        with self.assertRaises(keynoted.LinkEnded):
            keynoted.connect("127.0.0.1", int(port), 5)

    def test_the_place_in_a_text_that_is_refused_is_told(self):
        with keynoted.start("p.kn", "keys") as daemon:
            daemon.admin(b"s3cret")
            for add in (daemon.add, daemon.session().add_private, lambda it: daemon.ask([], {}, ("no", "yes"), [it])):
                with self.assertRaisesRegex(keynoted.NoRead, "^NO 5 read 18 5: 2:12: a threshold over 1") as raised:
                    add('Authorizer: "a"\nLicensees: 2-of("b")\n')
                self.assertEqual(raised.exception.parts, ["18", "5"])


class Interrupt(BaseException):
    """What a signal raises here, as KeyboardInterrupt: no Exception."""


class Interruptions(Room):
    """A request that is interrupted between its writing and the end of its reply: 1,000 times each."""

    def setUp(self):
        super().setUp()

        def raise_interrupt(*_):
            raise Interrupt

        self.addCleanup(signal.signal, signal.SIGALRM, signal.signal(signal.SIGALRM, raise_interrupt))
        self.addCleanup(signal.setitimer, signal.ITIMER_REAL, 0)

    def interrupted(self, ask, seconds):
        """Asks again and again until a signal comes within some part of these seconds."""
        try:
            signal.setitimer(signal.ITIMER_REAL, random.uniform(0.00002, seconds))
            while True:
                ask()
        except Interrupt:
            pass

    def rounds(self, prepare, most):
        """1,000 rounds in which alice's question is interrupted and mallory's comes next; `prepare` gives both."""
        daemon, ended, asks = self.fake(delay=0.0003), 0, None
        for _ in range(1000):
            asks = asks or prepare(keynoted.connect(daemon.address))
            self.interrupted(lambda: self.assertEqual(asks[0]().index, 1), most)
            try:
                self.assertEqual(asks[1]().index, 0)
            except keynoted.LinkEnded:
                ended, asks = ended + 1, None
        self.assertGreater(ended, 200)

    def test_the_next_query_gets_its_own_answer(self):
        def prepare(connection):
            sessions = connection.session(), connection.session()
            for session, who in zip(sessions, ("alice", "mallory")):
                session.auth(who)
            return [lambda it=it: it.query("no", "yes") for it in sessions]

        self.rounds(prepare, 0.002)

    def test_the_next_question_gets_its_own_answer(self):
        def prepare(connection):
            connection.ask([], {}, ("no", "yes"))
            return [lambda it=it: connection.ask([it], {}, ("no", "yes")) for it in ("alice", "mallory")]

        self.rounds(prepare, 0.006)

    def test_a_pool_goes_on(self):
        _, address = self.serve()
        with keynoted.Pool(address, values=("no", "yes")) as pool:
            for _ in range(1000):
                self.interrupted(lambda: self.assertEqual(pool.ask(["alice"], {}).index, 1), 0.001)
                self.assertEqual(pool.ask(["mallory"], {}).index, 0)
                self.assertEqual(pool.ask(["alice"], {}, private=[]).index, 1)

    def test_private_assertions_do_not_stay(self):
        with keynoted.Pool(self.serve()[1], values=("no", "yes")) as pool:
            for _ in range(300):
                self.interrupted(lambda: self.assertEqual(pool.ask(["bob"], {}, private=[CREDENTIAL]).index, 1), 0.001)
                self.assertEqual(pool.ask(["bob"], {}).index, 0)

    def test_a_started_program_is_no_longer_asked(self):
        ended = 0
        for _ in range(30):
            with keynoted.start("p.kn") as daemon:
                daemon.ask(["alice"], {}, ("no", "yes"))
                self.interrupted(lambda: daemon.ask(["alice"], {}, ("no", "yes")), 0.002)
                try:
                    self.assertEqual(daemon.ask(["mallory"], {}, ("no", "yes")).index, 0)
                except keynoted.LinkEnded:
                    ended += 1
        self.assertGreater(ended, 3)

    def test_what_a_signal_handler_asks_meanwhile_is_refused(self):
        daemon = self.fake(delay=0.05)
        with keynoted.connect(daemon.address) as connection:
            asked = []

            def handler(*_):
                with contextlib.suppress(keynoted.LinkEnded):
                    asked.append("refused")
                    connection.ask(["alice"], {}, ("no", "yes"))
                    asked.append("answered")

            signal.signal(signal.SIGALRM, handler)
            signal.setitimer(signal.ITIMER_REAL, 0.1)
            self.assertEqual(connection.ask(["mallory"], {}, ("no", "yes")).index, 0)
            self.assertEqual(asked, ["refused"])


class Threads(Room):
    def both(self, *works):
        """Runs these side by side, and raises what one of them raises."""
        wrong = []

        def run(work):
            try:
                work()
            except BaseException as why:
                wrong.append(why)

        threads = [threading.Thread(target=run, args=(work,)) for work in works]
        for thread in threads:
            thread.start()
        for thread in threads:
            thread.join(60)
        if wrong:
            raise wrong[0]
        self.assertFalse(any(thread.is_alive() for thread in threads))

    def test_two_on_one_connection_get_their_own_answers(self):
        for started in (False, True):
            with keynoted.start("p.kn") if started else keynoted.connect(self.fake().address) as daemon:

                def ask(who, index):
                    with daemon.session() as session:
                        for _ in range(1000):
                            session.clear()
                            session.auth(who)
                            self.assertEqual(session.query("no", "yes").index, index)
                            self.assertEqual(daemon.ask([who], {}, ("no", "yes")).index, index)

                self.both(lambda: ask("alice", 1), lambda: ask("mallory", 0))

    def test_one_closes_while_the_other_asks(self):
        for _ in range(20):
            daemon = keynoted.connect(self.fake(delay=0.0005).address)

            def ask():
                with self.assertRaises(keynoted.LinkEnded):
                    while True:
                        self.assertEqual(daemon.ask(["alice"], {}, ("no", "yes")).index, 1)

            def close():
                time.sleep(0.005)
                daemon.close()

            self.both(ask, close)

    def test_a_forked_process_has_no_part_in_it(self):
        with keynoted.start("p.kn") as daemon:
            self.assertEqual(daemon.ask(["alice"], {}, ("no", "yes")).index, 1)
            child = os.fork()
            if not child:
                status = 1
                with contextlib.suppress(BaseException):
                    try:
                        daemon.ask(["alice"], {}, ("no", "yes"))
                    except keynoted.LinkEnded:
                        daemon.close()
                        status = 0
                os._exit(status)
            self.assertEqual(os.waitpid(child, 0)[1], 0)
            self.assertEqual(daemon.ask(["alice"], {}, ("no", "yes")).index, 1)


class Limits(Room):
    def test_a_daemon_that_is_silent_ends_the_connection(self):
        daemon = self.fake(delay=0.5)
        begun = time.monotonic()
        with keynoted.connect(daemon.address, timeout=0.1) as connection:
            self.assertRaises(keynoted.TimedOut, connection.session)
            self.assertRaisesRegex(keynoted.LinkEnded, "has ended", connection.session)
        self.assertLess(time.monotonic() - begun, 0.4)

    def test_bytes_that_drip_do_not_make_it_longer(self):
        ours, theirs = socket.socketpair()

        def drip():
            with contextlib.suppress(OSError), theirs:
                while True:
                    theirs.sendall(b"O")
                    time.sleep(0.02)

        connection = keynoted.Connection(link.Link(ours, ours), timeout=0.2)
        threading.Timer(0.01, drip).start()
        begun = time.monotonic()
        self.assertRaises(keynoted.LinkEnded, connection.session)
        self.assertLess(time.monotonic() - begun, 1)

    def test_connecting_has_its_limit_too(self):
        with socket.create_server(("127.0.0.1", 0), backlog=0) as listener:
            port, held = listener.getsockname()[1], []
            try:
                for _ in range(8):  # until the queue is full
                    held.append(keynoted.connect("127.0.0.1", port, timeout=0.2))
            except keynoted.TimedOut as why:
                self.assertIn("within 0.2 s", str(why))
            else:
                self.skipTest("this system's queue takes more connections than were asked for")
            finally:
                for connection in held:
                    connection._link.close()

    def test_five_seconds_where_nothing_is_said(self):
        with keynoted.connect(self.fake().address) as connection, keynoted.start("p.kn") as daemon:
            self.assertEqual((connection._timeout, daemon._timeout), (5.0, 5.0))
        self.assertEqual(keynoted.Pool("localhost")._timeout, 5.0)
        self.assertEqual(keynoted.AsyncPool("localhost")._timeout, 5.0)

    def test_a_program_that_loads_for_long_has_longer(self):
        self.write("slow", b"#!/bin/sh\nsleep 0.5\nexec \"$REAL\" \"$@\"\n")
        os.chmod("slow", 0o755)
        os.environ["REAL"] = PROGRAM
        with keynoted.start("p.kn", program="./slow", timeout=0.2) as daemon:
            self.assertEqual(daemon.ask(["alice"], {}, ("no", "yes")).index, 1)
        with keynoted.start("p.kn", program="./slow", timeout=0.1, loading=0.1) as daemon:
            self.assertRaises(keynoted.TimedOut, daemon.session)

    def test_more_than_was_asked_for_ends_the_connection(self):
        with talk(b"OK 1 1\n", b"OK\nOK\n", b"OK\n") as connection:
            session = connection.session()
            self.assertRaises(keynoted.LinkEnded, session.clear)
            self.assertRaises(keynoted.LinkEnded, session.clear)

    def test_what_came_unasked_is_no_reply(self):
        ours, theirs = socket.socketpair()
        with theirs:
            theirs.sendall(b"OK 1 1\n")
            self.assertRaises(keynoted.LinkEnded, keynoted.Connection(link.Link(ours, ours)).session)

    def test_the_daemons_last_line_is_told_in_words(self):
        ours, theirs = socket.socketpair()
        with theirs:
            theirs.sendall(b"error link read\n")
            with self.assertRaisesRegex(keynoted.LinkEnded, "standard input couldn't be read") as raised:
                keynoted.Connection(link.Link(ours, ours)).session()
            self.assertEqual(raised.exception.line, "error link read")


class Arguments(Room):
    def test_wrong_types_name_the_argument(self):
        with keynoted.start("p.kn", "keys") as daemon, daemon.session() as session:
            pool = keynoted.Pool("localhost", values=("no", "yes"))
            for name, call in (
                ("secret", lambda: daemon.admin("text")),
                ("text", lambda: daemon.add(7)),
                ("name", lambda: daemon.drop(7)),
                ("line", lambda: daemon.request("OPEN")),
                ("value", lambda: session.set("size", 5)),
                ("value", lambda: session.set("size", None)),
                ("name", lambda: session.set(5, "size")),
                ("value", lambda: session.set_bytes("size", 5)),
                ("name", lambda: session.unset(5)),
                ("principal", lambda: session.auth(5)),
                ("principal", lambda: session.unauth(["alice"])),
                ("text", lambda: session.add_private(None)),
                ("name", lambda: session.retract(1)),
                ("values", lambda: session.query(["no", "yes"])),
                ("values", lambda: session.query(b"no", b"yes")),
                ("principals", lambda: daemon.ask("alice", {}, ("no", "yes"))),
                ("principals", lambda: daemon.ask([5], {}, ("no", "yes"))),
                ("principals", lambda: daemon.ask(None, {}, ("no", "yes"))),
                ("attributes", lambda: daemon.ask(["alice"], ["a"], ("no", "yes"))),
                (r"attributes\['size'\]", lambda: daemon.ask(["alice"], {"size": 5}, ("no", "yes"))),
                ("values", lambda: daemon.ask(["alice"], {}, "no,yes")),
                ("private", lambda: daemon.ask(["alice"], {}, ("no", "yes"), CREDENTIAL)),
                ("principals", lambda: pool.ask("alice", {})),
                ("host", lambda: keynoted.connect(2704)),
                ("port", lambda: keynoted.connect("localhost", "2704")),
                ("timeout", lambda: keynoted.connect("localhost", timeout="5")),
                ("values", lambda: keynoted.start("p.kn", values="no,yes")),
                ("policy", lambda: keynoted.start(5)),
                ("keys", lambda: keynoted.start("p.kn", 5)),
                ("loading", lambda: keynoted.start("p.kn", loading="5")),
                ("record", lambda: keynoted.start("p.kn", record=5)),
                ("size", lambda: keynoted.Pool("localhost", size="3")),
                ("timeout", lambda: keynoted.AsyncPool("localhost", timeout="3")),
                ("host", lambda: keynoted.AsyncPool(("localhost", 2704))),
            ):
                self.assertRaisesRegex(TypeError, f"^{name}: ", call)
            self.assertEqual(daemon.ask(["alice"], {"size": "5"}, ("no", "yes")).index, 1)

    def test_values_keep_the_order_that_the_connection_was_told(self):
        order = ("no", "log", "yes")
        with keynoted.start("p.kn", values=order) as daemon, daemon.session() as session:
            for values in (("yes", "no"), ("log", "yes"), ("no", "yes", "log"), ("no", "maybe"), ("yes", "log", "no")):
                self.assertRaisesRegex(ValueError, "order of this connection, no,log,yes", session.query, *values)
                self.assertRaisesRegex(ValueError, "order of this connection", daemon.ask, ["alice"], {}, values)
            self.assertEqual(session.query("no", "yes").values, ("no", "yes"))
            self.assertEqual((session.query().values, daemon.ask(["alice"], {}).values), (order, order))
        with keynoted.start("p.kn") as daemon:
            self.assertRaisesRegex(ValueError, "none are named", daemon.ask, ["alice"], {})

    def test_addresses(self):
        for text, wanted in (
            ("[::1]:2704", ("::1", 2704)), ("[::1]", ("::1", 2704)), ("::1", ("::1", 2704)),
            ("localhost", ("localhost", 2704)), ("localhost:17", ("localhost", 17)),
            ("127.0.0.1:65535", ("127.0.0.1", 65535)), ("[fe80::1%lo]:3", ("fe80::1%lo", 3)),
        ):
            self.assertEqual(link.host_and_port(text, None), wanted)
        self.assertEqual(link.host_and_port("[::1]", 5), ("::1", 5))
        for text in ("", ":2704", "localhost:", "localhost:0", "localhost:65536", "localhost:x", "[::1]2704", "[]:1",
                     "localhost:\u0661"):
            self.assertRaises(ValueError, link.host_and_port, text, None)

    def test_connections_by_name_and_over_ipv6(self):
        with keynoted.connect("localhost", self.fake().port) as connection:
            self.assertEqual(connection.ask(["alice"], {}, ("no", "yes")).index, 1)
        try:
            daemon = self.fake(host="::1")
        except OSError:
            self.skipTest("there is no IPv6 on the loopback")
        with keynoted.connect(daemon.address) as connection:
            self.assertEqual(connection.ask(["alice"], {}, ("no", "yes")).index, 1)
