"""Tests of whole questions, of pools of connections, of asyncio, and of transcripts."""

import asyncio
import contextlib
import hashlib
import os
import subprocess
import sys
import threading
import time
from unittest import mock

import keynoted
from keynoted import asynchronous, connection

from tests_room import CREDENTIAL, HERE, POLICY, PROGRAM, Room, talk

VALUES = ("no", "yes")
SECONDS = float(os.environ.get("KEYNOTED_SECONDS", "3"))  # of a gateway's questions


class Questions(Room):
    def test_nothing_of_a_former_user_stays(self):
        self.write("p.kn", POLICY + b'Conditions: door == "front" && note == "a\\nb" -> "yes";\n')
        with keynoted.start("p.kn") as daemon:
            attributes = {"door": "front", "note": b"a\nb"}
            self.assertEqual(daemon.ask(["alice"], attributes, VALUES).index, 1)
            self.assertEqual(daemon.ask(["alice"], {}, VALUES).index, 0)
            self.assertEqual(daemon.ask([], attributes, VALUES).index, 0)
            self.assertEqual(daemon.ask(["bob"], attributes, VALUES).index, 0)
            self.assertEqual(daemon.ask(["bob"], attributes, VALUES, private=[CREDENTIAL]).rows[0].id, "p1")
            self.assertEqual(daemon.ask(["bob"], attributes, VALUES, private=[CREDENTIAL] * 3).rows[0].id[0], "p")
            self.assertEqual(daemon.ask(["bob"], attributes, VALUES).index, 0)

    def test_a_refusal_within_is_raised_and_leaves_nothing(self):
        with keynoted.start("p.kn") as daemon:
            for refused, question in (
                (keynoted.NoPrincipal, (["alice", "POLICY"], {}, VALUES)),
                (keynoted.NoName, (["alice"], {"_x": "1"}, VALUES)),
                (keynoted.NoValue, (["alice"], {"x": "1" * 4097}, VALUES)),
                (keynoted.NoLong, (["alice"], {"x": "1" * 9000}, VALUES)),
                (keynoted.NoValues, (["alice"], {}, ("yes",))),
                (keynoted.NoLimit, ([f"p{it}" for it in range(65)], {}, VALUES)),
                (keynoted.NoRead, (["alice"], {}, VALUES, [CREDENTIAL, b"x", CREDENTIAL])),
                (keynoted.NoPolicy, (["alice"], {}, VALUES, [POLICY, CREDENTIAL])),
            ):
                self.assertRaises(refused, daemon.ask, *question)
                self.assertEqual(daemon.ask(["bob"], {}, VALUES).index, 0)
                self.assertEqual(daemon.ask(["alice"], {}, VALUES).index, 1)
                self.assertEqual(daemon.ask(["bob"], {}, VALUES, [CREDENTIAL]).index, 1)
            with self.assertRaises(keynoted.NoBlock):
                daemon.ask(["alice"], {}, VALUES, [b" " * 16385])
            self.assertRaises(keynoted.LinkEnded, daemon.ask, ["alice"], {}, VALUES)

    def test_an_answer_counts_only_where_all_before_it_was_taken(self):
        for wrong, raised in (
            (b"NOMEM", keynoted.NoMemory), (b"NO 11 principal", keynoted.NoPrincipal), (b"OK 1", keynoted.LinkEnded),
        ):
            lines = [b"OK", b"OK 1", wrong, b"OK", b"VALUE 1 yes 1 0", b"END", b""]
            with talk(b"OK 1 1\n", b"\n".join(lines)) as daemon:
                self.assertRaises(raised, daemon.ask, ["alice"], {"a": "b"}, VALUES)

    def test_private_assertions_of_other_numbers_end_the_connection(self):
        for made, gone in ((b"OK p2", b"OK"), (b"OK p1", b"NO 12 unknown"), (b"NO 6 policy", b"OK")):
            lines = [b"OK", b"OK 1", made, b"VALUE 1 yes 1 0", b"END", gone, b""]
            with talk(b"OK 1 1\n", b"\n".join(lines)) as daemon:
                self.assertRaises(keynoted.LinkEnded, daemon.ask, [], {}, VALUES, [CREDENTIAL])
                self.assertEqual(daemon.left(), 0)

    def test_one_write_and_the_newest_version(self):
        with keynoted.start("p.kn", "keys") as daemon:
            self.assertEqual(daemon.ask(["bob"], {}, VALUES).version, 1)
            daemon.admin(b"s3cret")
            self.assertEqual(daemon.drop("a1"), 2)
            answer = daemon.ask(["alice"], {}, VALUES)
            self.assertEqual((answer.version, answer.index), (2, 0))
        seen = []
        with keynoted.start("p.kn") as daemon:
            exchange = daemon._link.exchange
            with mock.patch.object(daemon._link, "exchange", lambda *it: (seen.append(it[0]), exchange(*it))[1]):
                daemon.ask(["alice"], {"a": "b"}, VALUES)
        self.assertEqual(seen[1], b"CLEAR 1\nPIN 1\nAUTH 1 alice\nSET 1 a b\nQUERY 1 no,yes\n")

    def test_a_large_question_passes(self):
        text = b'Authorizer: "alice"\nLicensees: "bob"\nComment: ' + b"x" * 4000 + b"\n"
        attributes = {f"a{it}": "v" * 4096 for it in range(256)}
        with keynoted.start("p.kn") as daemon:
            for _ in range(3):
                self.assertEqual(daemon.ask(["bob"], attributes, VALUES, [text] * 64).index, 1)
            self.assertEqual(daemon.ask(["bob"], {}, VALUES).index, 0)


class Pools(Room):
    def test_a_restarted_daemon_is_found_again(self):
        process, address = self.serve()
        with keynoted.Pool(address, values=VALUES) as pool:
            for _ in range(3):
                self.assertEqual(pool.ask(["alice"], {}).index, 1)
                process.kill()
                process.wait()
                self.assertRaises(keynoted.LinkEnded, pool.ask, ["alice"], {})
                process, _ = self.serve(int(address.split(":")[1]))
            process.kill()
            process.wait()
            process, _ = self.serve(int(address.split(":")[1]))
            self.assertEqual(pool.ask(["alice"], {}).index, 1)  # by an idle connection that has ended

    def test_a_question_whose_connection_has_ended_is_asked_once_more(self):
        daemon = self.fake()
        with keynoted.Pool(daemon.address, values=VALUES) as pool:
            self.assertEqual(pool.ask(["alice"], {}).index, 1)
            daemon.stop()
            again = self.fake(port=daemon.port)
            self.assertEqual((pool.ask(["alice"], {}).index, again.accepted), (1, 1))
            again.stop()
            last = self.fake(port=daemon.port, say={b"PIN": b"OK 1\nerror link read"})
            self.assertRaises(keynoted.LinkEnded, pool.ask, ["alice"], {})
            self.assertEqual(last.accepted, 1)  # no more than once

    def test_a_new_connection_before_the_requests_are_used_up(self):
        with mock.patch.object(connection, "REQUESTS", 50), mock.patch.object(asynchronous, "REQUESTS", 50):
            daemon = self.fake(most=50)
            with keynoted.Pool(daemon.address) as pool:
                for _ in range(100):
                    self.assertEqual(pool.ask(["alice"], {"a": "b"}, VALUES).index, 1)
            self.assertEqual(daemon.accepted, 12)  # OPEN, nine questions of five requests, and BYE: ten would be 52

            async def ask():
                async with keynoted.AsyncPool(daemon.address) as pool:
                    for _ in range(100):
                        self.assertEqual((await pool.ask(["alice"], {"a": "b"}, VALUES)).index, 1)

            asyncio.run(ask())
            self.assertEqual(daemon.accepted, 24)
            with keynoted.connect(daemon.address) as single:
                with self.assertRaisesRegex(keynoted.LinkEnded, "1,000,000 requests"):
                    while True:
                        single.ask(["alice"], {}, VALUES)

    def test_threads_get_their_own_answers(self):
        daemon, wrong = self.fake(), []
        with keynoted.Pool(daemon.address, size=3, values=VALUES) as pool:
            def ask(who, index):
                try:
                    for _ in range(250):
                        self.assertEqual(pool.ask([who], {}).index, index)
                except BaseException as why:
                    wrong.append(why)

            threads = [threading.Thread(target=ask, args=it) for it in [("alice", 1), ("mallory", 0)] * 4]
            for thread in threads:
                thread.start()
            for thread in threads:
                thread.join(60)
        self.assertEqual(wrong, [])
        self.assertLessEqual(daemon.accepted, 3)

    def test_each_thread_gets_its_turn(self):
        daemon, counts = self.fake(), [0] * 6
        with keynoted.Pool(daemon.address, size=2, values=VALUES) as pool:
            def ask(number):
                while sum(counts) < 1200:
                    self.assertEqual(pool.ask(["alice"], {}).index, 1)
                    counts[number] += 1

            threads = [threading.Thread(target=ask, args=(it,)) for it in range(6)]
            for thread in threads:
                thread.start()
            for thread in threads:
                thread.join(60)
        self.assertGreater(min(counts), 100, counts)
        self.assertEqual(pool._turns, [])

    def test_all_taken_is_told_after_the_limit(self):
        daemon = self.fake(delay=0.3)
        with keynoted.Pool(daemon.address, size=1, timeout=0.2, values=VALUES) as pool:
            def ask():
                self.assertRaises(keynoted.TimedOut, pool.ask, ["alice"], {})

            threads = [threading.Thread(target=ask) for _ in range(3)]
            for thread in threads:
                thread.start()
            for thread in threads:
                thread.join(10)
        self.assertEqual(len(pool._leases), 0)
        self.assertRaises(ValueError, keynoted.Pool, "localhost", size=0)

    def test_a_closed_pool_asks_no_more(self):
        pool = keynoted.Pool(self.fake().address, values=VALUES)
        self.assertEqual(pool.ask(["alice"], {}).index, 1)
        pool.close()
        self.assertRaisesRegex(keynoted.LinkEnded, "closed", pool.ask, ["alice"], {})

    def test_a_forked_process_makes_connections_of_its_own(self):
        daemon = self.fake()
        with keynoted.Pool(daemon.address, values=VALUES) as pool:
            self.assertEqual(pool.ask(["alice"], {}).index, 1)
            child = os.fork()
            if not child:
                status = 1
                with contextlib.suppress(BaseException):
                    status = 0 if pool.ask(["mallory"], {}).index == 0 else 2
                os._exit(status)
            self.assertEqual(os.waitpid(child, 0)[1], 0)
            self.assertEqual((pool.ask(["alice"], {}).index, daemon.accepted), (1, 2))

    def test_a_gateway_over_tcp(self):
        """Questions by threads that share a pool, for KEYNOTED_SECONDS, 3 where nothing is said."""
        count, wrong = [], []
        self.write("p.kn", POLICY + b'Conditions: door == "front" -> "yes";\n')
        with keynoted.Pool(self.serve(workers=4)[1], size=3, values=VALUES) as pool:
            until = time.monotonic() + SECONDS

            def ask(number):
                asked = 0
                try:
                    while time.monotonic() < until:
                        who, door = ("alice", "mallory")[asked % 2], ("front", "back")[asked % 3 % 2]
                        self.assertEqual(pool.ask([who], {"door": door}).index, int((who, door) == ("alice", "front")))
                        asked += 1
                except BaseException as why:
                    wrong.append(why)
                count.append(asked)

            threads = [threading.Thread(target=ask, args=(it,)) for it in range(3)]
            for thread in threads:
                thread.start()
            for thread in threads:
                thread.join()
        self.assertEqual(wrong, [])
        print(f"a gateway of three threads asks {sum(count) / SECONDS:.0f} questions a second by a pool of 3 over TCP")
        self.assertGreater(sum(count) / SECONDS, 20)


class Tasks(Room):
    """The same for asyncio."""

    def run_tasks(self, work, *daemon, **how):
        async def run():
            async with keynoted.AsyncPool(*daemon, values=VALUES, **how) as pool:
                await asyncio.wait_for(work(pool), SECONDS + 60)

        asyncio.run(run())

    def test_tasks_get_their_own_answers(self):
        daemon = self.fake()

        async def work(pool):
            async def ask(who, index):
                for _ in range(50):
                    self.assertEqual((await pool.ask([who], {"a": "b"})).index, index)

            await asyncio.gather(*[ask(*it) for it in [("alice", 1), ("mallory", 0)] * 20])

        self.run_tasks(work, daemon.address)
        self.assertLessEqual(daemon.accepted, 3)

    def test_each_task_gets_its_turn(self):
        daemon, counts = self.fake(), [0] * 6

        async def work(pool):
            async def ask(number):
                while sum(counts) < 600:
                    self.assertEqual((await pool.ask(["alice"], {})).index, 1)
                    counts[number] += 1

            await asyncio.gather(*[ask(it) for it in range(6)])

        self.run_tasks(work, daemon.address, size=2)
        self.assertGreater(min(counts), 50, counts)

    def test_a_task_that_is_cancelled_leaves_no_answer_behind(self):
        daemon = self.fake(delay=0.0003)

        async def work(pool):
            for count in range(1000):
                task = asyncio.ensure_future(pool.ask(["alice"], {}))
                await asyncio.sleep(0.00003 * (count % 100))
                task.cancel()
                self.assertEqual((await pool.ask(["mallory"], {})).index, 0)
                with contextlib.suppress(asyncio.CancelledError):
                    self.assertEqual((await task).index, 1)
            self.assertEqual((pool._used, len(pool._waiting)), (0, 0))

        self.run_tasks(work, daemon.address, size=1)
        self.assertGreater(daemon.accepted, 100)

    def test_a_restarted_daemon_is_found_again(self):
        process, address = self.serve()

        async def work(pool):
            nonlocal process
            self.assertEqual((await pool.ask(["alice"], {})).index, 1)
            process.kill()
            process.wait()
            with self.assertRaises(keynoted.LinkEnded):
                await pool.ask(["alice"], {})
            process, _ = self.serve(int(address.split(":")[1]))
            self.assertEqual((await pool.ask(["alice"], {})).index, 1)
            process.kill()
            process.wait()
            process, _ = self.serve(int(address.split(":")[1]))
            self.assertEqual((await pool.ask(["alice"], {})).index, 1)

        self.run_tasks(work, address)

    def test_one_connection(self):
        async def run():
            async with await keynoted.connect_async(self.fake().address, values=VALUES) as connection:
                asked = [connection.ask([who], {}) for who in ("alice", "mallory")]
                return [it.index for it in await asyncio.gather(*asked)], connection

        indexes, connection = asyncio.run(run())
        self.assertEqual((indexes, connection.left()), ([1, 0], 0))

    def test_limits_of_time(self):
        daemon = self.fake(delay=0.3)

        async def work(pool):
            asked = [pool.ask(["alice"], {}) for _ in range(3)]
            for raised in await asyncio.gather(*asked, return_exceptions=True):
                self.assertIsInstance(raised, keynoted.TimedOut)

        self.run_tasks(work, daemon.address, size=1, timeout=0.2)

    def test_refusals_and_what_is_no_reply(self):
        async def work(pool):
            with self.assertRaises(keynoted.NoPrincipal):
                await pool.ask(["POLICY"], {})
            with self.assertRaises(TypeError):
                await pool.ask("alice", {})
            self.assertEqual((await pool.ask(["alice"], {})).index, 1)

        self.run_tasks(work, self.serve()[1])

        async def junk(pool):
            with self.assertRaises(keynoted.LinkEnded):
                await pool.ask(["alice"], {})

        self.run_tasks(junk, self.fake(say={b"CLEAR": b"OK\nOK"}).address)
        self.run_tasks(junk, self.fake(say={b"QUERY": b"VALUE 1 no 1 0\nEND"}).address)
        self.run_tasks(junk, self.fake(say={b"OPEN": b"error link read"}).address)

    def test_a_gateway_over_tcp(self):
        asked = [0]

        async def work(pool):
            until = time.monotonic() + SECONDS

            async def ask(who, index):
                while time.monotonic() < until:
                    self.assertEqual((await pool.ask([who], {"door": "front"})).index, index)
                    asked[0] += 1

            await asyncio.gather(*[ask(*it) for it in [("alice", 1), ("mallory", 0)] * 3])

        self.run_tasks(work, self.serve()[1])
        print(f"six tasks ask {asked[0] / SECONDS:.0f} questions a second by a pool of 3 over TCP")
        self.assertGreater(asked[0] / SECONDS, 20)


class Transcripts(Room):
    def read(self, name):
        with open(name, "rb") as file:
            return file.read()

    def replayed(self, name):
        return subprocess.run([PROGRAM, "ask", "p.kn"], input=self.read(name), stdout=subprocess.PIPE).stdout

    def test_what_was_sent_and_what_came(self):
        with keynoted.start("p.kn", record="talk") as daemon, daemon.session() as session:
            session.set_bytes("x", b"a\nb")
            self.assertRaises(keynoted.NoUnknown, session.unset, "y")
            session.add_private(CREDENTIAL)
            session.auth("bob")
            self.assertEqual(session.query(*VALUES).index, 1)
            self.assertEqual(daemon.ask(["alice"], {}, VALUES, [CREDENTIAL]).index, 1)
        self.assertTrue(self.read("talk.requests").endswith(b"CLOSE 1\nBYE\n"))
        self.assertEqual(self.replayed("talk.requests"), self.read("talk.replies"))
        self.write("reply", b"VALUE 1 yes 1 1\nROW 1 a1 \"POLICY\"\nEND\n")
        run = subprocess.run([PROGRAM, "check", "p.kn", "talk.requests", "reply"], stdout=subprocess.PIPE)
        self.assertEqual(run.stdout, b"PROVED 1 yes\n")

    def test_without_the_secret(self):
        with keynoted.start("p.kn", "keys", record="talk") as daemon:
            self.assertRaises(keynoted.NoAdmin, daemon.admin, b"t3cret")
            daemon.admin(b"s3cret")
            self.assertEqual(daemon.drop("a1"), 2)
            self.assertRaises(keynoted.NoSyntax, daemon.request, b"ADMIN 7")
            self.assertRaises(keynoted.NoLong, daemon.admin, b"s3cret" * 1000)
        requests = self.read("talk.requests")
        self.assertEqual(requests.replace(b"0" * 8192, b"0.."), b"ADMIN 00\nADMIN 00\nDROP a1\nADMIN\nADMIN 0..\nBYE\n")
        self.assertEqual(self.read("talk.replies"), b"NO 4 admin\nOK\nOK 2\nNO 1 syntax\nNO 14 long\nOK\n")
        # the stored requests have the same replies, but for what the secret allowed
        played = b"NO 4 admin\nNO 4 admin\nNO 4 admin\nNO 1 syntax\nNO 14 long\nOK\n"
        self.assertEqual(self.replayed("talk.requests"), played)

    def test_a_misspelled_secret_is_left_out_too(self):
        with keynoted.start("p.kn", "keys", record="talk") as daemon:
            for line in (b"admin 733363726574", b"ADMIN\t733363726574", b" ADMIN 733363726574", b"ADMIN: 733363726574"):
                self.assertRaises(keynoted.NoCommand, daemon.request, line)
            self.assertRaises(keynoted.NoSyntax, daemon.request, b"ADMIN  733363726574")
            self.assertRaises(keynoted.NoLong, daemon.request, b"admin 733363726574" + b" " * 9000)
        self.assertNotIn(b"7333", self.read("talk.requests"))
        self.assertEqual(self.replayed("talk.requests"), self.read("talk.replies"))

    def recorded(self, name, script):
        """What `record` prints, the two files that it keeps, and what `ask` writes for the same script."""
        files = ["p.kn", "--keys", "keys"]
        command = [sys.executable, "-B", os.path.join(HERE, "keynoted.py"), "record", name, *files]
        run = subprocess.run(command, input=script, stdout=subprocess.PIPE, check=True)
        asked = subprocess.run([PROGRAM, "ask", "p.kn", "keys"], input=script, stdout=subprocess.PIPE)
        return run.stdout, self.read(f"{name}.requests"), self.read(f"{name}.replies"), asked.stdout

    def test_each_request_is_kept_as_it_stands(self):
        self.write("keys", b"digest %b\nsecret 733363726574\n" % hashlib.sha256(CREDENTIAL).hexdigest().encode())
        add = b"ADD 37\n" + CREDENTIAL + b"\n"
        batch = add + b"DROP a2\n" + add
        script = b"".join([
            b"OPEN\nOPEN\nPIN 2\nADMIN 733363726574\n", add, b"BATCH %d\n%b\n" % (len(batch), batch),
            b"PIN 1 1\nPIN 1 3\nSET 1 x a b \nSETX 1 y 0a0d\nUNSET 1 x\nAUTH 1 bob\nAUTH 1 x\nUNAUTH 1 x\n",
            b"ASSERT 1 37\n", CREDENTIAL, b"\nRETRACT 1 p1\nQUERY 1 no,yes\nWATCH 1 no,yes\n",
            b"DROP a3\nNEWS 1\nCRITICAL 1 no,yes\nUNWATCH 1\nLOG 0\nLOG 9\nDROP a3\nBATCH 3\nxyz\nBATCH 9\nDROP a99\n\n",
            b"nothing\nOPEN 1\n\nCLEAR 1\nCLOSE 1\nCLEAR 1\nBYE\n",
        ])
        printed, requests, replies, asked = self.recorded("talk", script + b"OPEN\n")
        self.assertEqual(requests, script.replace(b"733363726574", b"00"))
        self.assertEqual((printed, replies), (asked, asked))
        for word in (b"VALUE 1 ", b"NEWS 1 ", b"CRITICAL ", b"LOG 0 ", b"NO 19 ", b"NO 12 ", b"NO 16 ", b"NO 17 "):
            self.assertRegex(replies, b"(?m)^" + word)

    def test_a_block_that_is_refused_ends_it(self):
        for number, (block, kept) in enumerate((
            (b"ASSERT 1 3\nabcd\nOPEN\nBYE\n", b"ASSERT 1 3\nabcd\n"), (b"ADD 3\nabc\r\n", b"ADD 3\nabc\r\n"),
            (b"ADD 16385\nOPEN\n", b"ADD 16385\n"), (b"BATCH 99999\n", b"BATCH 99999\n"), (b"ADD 3\nabc", b""),
            (b"ADD 3\n", b""), (b"BYE", b""), (b"ADD 03\nOPEN\n", b"ADD 03\nOPEN\n"),
        )):
            printed, requests, replies, asked = self.recorded(f"talk{number}", b"OPEN\n" + block)
            ends = b"" if replies.endswith(b"NO 15 block\n") else b"BYE\n"
            self.assertEqual(requests, b"OPEN\n" + kept + ends, block)
            self.assertEqual(printed, b"".join(it for it in asked.splitlines(True) if not it.startswith(b"error ")))
            self.assertEqual(replies, printed + (b"OK\n" if ends else b""))
            self.assertEqual(bool(ends), number > 3)

    def test_a_request_whose_reply_is_lost_is_left_out(self):
        with keynoted.connect(self.fake(say={b"PIN": b"OK 1\nerror link read"}).address, record="talk") as daemon:
            self.assertRaises(keynoted.LinkEnded, daemon.ask, ["alice"], {}, VALUES)
        self.assertEqual(self.read("talk.requests"), b"OPEN\nCLEAR 1\nPIN 1\n")
        self.assertEqual(self.read("talk.replies"), b"OK 1 1\nOK\nOK 1\n")

    def test_no_file_is_overwritten_and_a_pool_has_two_for_each_connection(self):
        self.write("talk.requests", b"kept")
        with self.assertRaises(FileExistsError):
            keynoted.start("p.kn", record="talk")
        self.assertEqual(self.read("talk.requests"), b"kept")
        with keynoted.Pool(self.fake().address, record="pool", values=VALUES) as pool:
            pool.ask(["alice"], {})
        prefix = f"pool.{os.getpid()}.1"
        self.assertEqual(self.read(prefix + ".replies"), b"OK 1 1\nOK\nOK 1\nOK\nVALUE 1 yes 1 0\nEND\nOK\n")

    def test_a_record_that_fails_ends_the_connection(self):
        if not os.path.exists("/dev/full"):
            self.skipTest("there is no /dev/full")
        with keynoted.start("p.kn", record="talk") as daemon:
            daemon._transcript._replies.close()
            daemon._transcript._replies = open("/dev/full", "wb", buffering=0)
            self.assertRaises(OSError, daemon.session)
            self.assertRaises(keynoted.LinkEnded, daemon.session)
