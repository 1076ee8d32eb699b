"""Tests of files of the log, and of the commands `log` and `restore`."""

import hashlib
import os
import signal
import subprocess
import sys
import time
import unittest

import keynoted
from keynoted import keeping, logfile
from keynoted.logfile import LogFile, LogText
from tests_room import CREDENTIAL, HERE, POLICY, Room
from tests_updates import ADD, OTHER, SECRET, STRANGER, Keeper, has_batches

NOTHING = "updates that were restored: 0\n"


def update(*texts, caller=1):
    return b"UPDATE %d %d\n" % (caller, len(texts)) + b"".join(ADD % (len(it), it) for it in texts)


def reply(start, *updates, newest=None):
    newest = start + len(updates) if newest is None else newest
    return b"LOG %d %d %d\n" % (start, len(updates), newest) + b"".join(updates) + b"END\n"


WHOLE = reply(0, update(POLICY, caller=0)) + reply(1, update(CREDENTIAL, b"END\n\n"), b"UPDATE 2 1\nDROP a3\n")


class Texts(Room):
    def test_what_a_file_holds(self):
        for text, start, held in (
            (b"", None, 0), (WHOLE, 0, 3), (reply(5), 5, 5), (reply(5, update(b"")), 5, 6),
            (reply(0, *[update(OTHER)] * 16, newest=40) + reply(16, *[update(OTHER)] * 16, newest=33), 0, 32),
        ):
            read = LogText(text, "f")
            self.assertEqual((read.start, read.held(), read.whole), (start, held, len(text)))

    def test_each_place_at_which_it_breaks_off(self):
        whole = [len(WHOLE) - len(WHOLE.split(b"END\n", 1)[1]), len(WHOLE)]
        for zeros, first in ((b"", 1), (b"\0" * 100, 10)):
            for end in range(first, len(WHOLE)):
                read = LogText(WHOLE[:end] + zeros, "f")
                self.assertEqual((read.whole, read.held()), (whole[0], 1) if end >= whole[0] else (0, 0))
                self.assertEqual(read.start, 0 if end >= whole[0] else None)

    def test_what_is_no_such_file_is_told_by_its_place(self):
        lines = WHOLE.count(b"\n")
        for text, told in (
            (b"hello", "f:1:1: no reply"), (b"\n", "f:1:1: no reply"), (b"\0", "f:1:1: no reply"),
            (b"LOG 0 1\n", "f:1:1: no reply"), (b"LOG x", "f:1:1: no reply"), (b"LOG 0 2 1\n", "f:1:1: no reply"),
            (b"LOG 0 1 1\nEND\n", "f:2:1: no reply"),
            (b"LOG 0 1 1\nDROP", "f:2:1: no reply"), (b"LOG 0 1 1\nUPDATE 0 1\nEND", "f:3:1: no reply"),
            (b"LOG 0 0 0\nUP", "f:2:1: no reply"), (WHOLE + b"NO 19 ahead 1\n", f"f:{lines + 1}:1: no reply"),
            (WHOLE + b"OK", f"f:{lines + 1}:1: no reply"),
            (WHOLE + WHOLE, f"f:{lines + 1}:1: this reply tells what is behind 0 updates, and 3"),
            (WHOLE + reply(4), f"f:{lines + 1}:1: this reply tells what is behind 4 updates, and 3"),
            (WHOLE[:60] + b"\0" + WHOLE[61:] + reply(3, *[update(b"x" * 16000)] * 16, newest=99) * 2, "this reply"),
        ):
            with self.assertRaises(ValueError) as raised:
                LogText(text, "f")
            self.assertIn(told, str(raised.exception), text[:100])

    def test_a_write_that_fails_leaves_whole_replies(self):
        class Full:
            def __init__(self, file):
                self.file, self.left = file, 20

            def write(self, data):
                if not self.left:
                    raise OSError(28, "No space left on device")
                wrote, self.left = self.file.write(data[:self.left]), 0
                return wrote

            def __getattr__(self, name):
                return getattr(self.file, name)

        self.write("f", WHOLE)
        with LogFile("f") as file:
            real, file._file = file._file, Full(file._file)
            self.assertRaises(OSError, file.append, keynoted.wire.Reply((b"LOG 3 0 3", b"END") * 5))
            file._file = real
            self.assertEqual((file.text.held(), os.path.getsize("f")), (3, len(WHOLE)))

    def test_one_process_writes_a_file(self):
        with LogFile("f"):
            self.assertRaisesRegex(ValueError, "another process", LogFile, "f")
        self.assertEqual(os.stat("f").st_mode & 0o777, 0o600)
        os.mkfifo("pipe")
        self.assertRaisesRegex(ValueError, "no file", LogFile, "pipe")
        self.assertRaises(OSError, LogFile, "gone/f")
        for wrong in (b"hello", b"L\0A", WHOLE + b"x\n"):
            self.write("other", wrong)
            self.assertRaises(ValueError, LogFile, "other")
            with open("other", "rb") as file:
                self.assertEqual(file.read(), wrong)


class Kept(Room):
    """The commands over a daemon that keeps updates."""

    def setUp(self):
        super().setUp()
        self.keeper = self.keep()

    def keep(self, policy=(POLICY,)):
        keeper = Keeper(policy)
        self.addCleanup(keeper.stop)
        return keeper

    def run_on(self, keeper, word, *words):
        return self.command(word, "--connect", keeper.address, "--keys", "keys", *words)

    def log(self, *words):
        return self.run_on(self.keeper, "log", *words, "f")

    def content(self, name="f"):
        with open(name, "rb") as file:
            return file.read()

    def fill(self, keeper):
        keeper.change([(CREDENTIAL, None)])
        keeper.change([(OTHER, None), (None, 2), (CREDENTIAL, None)])
        keeper.change([(None, 3)])
        keeper.change([(None, 1)])

    def test_a_log_is_kept_and_continued(self):
        self.assertEqual(self.log(), (0, "f: version 1\n", ""))
        first = self.keeper.log(0) + b"\n"
        self.assertEqual(self.content(), first)
        self.fill(self.keeper)
        second = first + self.keeper.log(1) + b"\n"
        for _ in range(2):
            self.assertEqual(self.log(), (0, "f: version 5\n", ""))
            self.assertEqual(self.content(), second)
        for _ in range(20):
            self.keeper.change([(OTHER, None)])
        third = second + self.keeper.log(5) + b"\n" + self.keeper.log(21) + b"\n"
        self.assertEqual(self.log("--from", "0"), (0, "f: version 25\n", ""))
        self.assertEqual(self.content(), third)
        for end in (len(third) - 1, len(second) + 1):
            self.write("f", third[:end])
            status, out, errors = self.log()
            self.assertEqual((status, out, self.content()), (0, "f: version 25\n", third))
            self.assertIn("bytes of a reply that broke off were cut off", errors)

    def test_a_log_from_an_update_on(self):
        self.fill(self.keeper)
        for start in ("4", "5"):
            self.assertEqual(self.log("--from", start), (0, "f: version 5\n", ""))
            self.assertEqual(self.content(), self.keeper.log(4) + b"\n" if start == "4" else b"")
            if start == "4":
                self.assertIn("f begins behind 4 updates, and not 3", self.log("--from", "3")[2])
                self.assertEqual(self.log()[0], 0)
                os.remove("f")
        self.assertIn("NO 19 ahead 5", self.log("--from", "6")[2])
        for wrong in ("-1", "01", "x", "1000000000"):
            self.assertRaises(SystemExit, self.log, f"--from={wrong}")

    def test_a_log_of_another_run_is_left_as_it_is(self):
        self.fill(self.keeper)
        self.log()
        kept = self.content()
        fewer = self.keep()
        other = self.keep([POLICY, POLICY])
        for _ in range(9):
            other.change([(OTHER, None)])
        for keeper, told in ((fewer, "f holds updates up to 5, and the daemon has fewer: restore them first"),
                             (other, "update 2 of f isn't the daemon's")):
            status, out, errors = self.run_on(keeper, "log", "f")
            self.assertEqual((status, out, self.content()), (2, "", kept))
            self.assertIn(told, errors)
        self.write("f", reply(7, update(OTHER)))
        self.assertIn("restore them first", self.log()[2])

    def test_what_was_told_is_restored(self):
        self.fill(self.keeper)
        self.log()
        for there in range(5):
            fresh = self.keep()
            fresh.updates += self.keeper.updates[1:1 + there]
            wanted = (0, f"updates that were restored: {4 - there}\nversion 5\n", "")
            self.assertEqual(self.run_on(fresh, "restore", "f"), wanted)
            self.assertEqual(fresh.updates, self.keeper.updates)
            self.assertEqual(self.run_on(fresh, "restore", "f"), (0, f"{NOTHING}version 5\n", ""))
        fresh.change([(OTHER, None)])
        self.assertEqual(self.run_on(fresh, "restore", "f"), (0, f"{NOTHING}version 6\n", ""))
        words = [it.split()[0] for it in fresh.requests if it.split()[0] in (b"ADD", b"DROP", b"BATCH")]
        self.assertEqual(words, [])
        self.write("f", self.content() + b"LOG 5 1 6\nUPDATE")
        fresh = self.keep()
        self.assertEqual(self.run_on(fresh, "restore", "f")[0], 0)
        words = [it.split()[0] for it in fresh.requests if it.split()[0] in (b"ADD", b"DROP", b"BATCH")]
        self.assertEqual(words, [b"ADD", b"BATCH", b"DROP", b"DROP"])
        self.assertEqual(fresh.updates, self.keeper.updates)

    def test_a_file_from_an_update_on_is_restored_behind_it(self):
        self.fill(self.keeper)
        self.log("--from", "2")
        fresh = self.keep()
        self.assertIn("f begins behind 2 updates, and the daemon has 1", self.run_on(fresh, "restore", "f")[2])
        fresh.updates.append(self.keeper.updates[1])
        self.assertEqual(self.run_on(fresh, "restore", "f")[0], 0)
        self.assertEqual(fresh.updates, self.keeper.updates)

    def test_nothing_is_sent_where_the_policy_is_another_one(self):
        self.keeper = self.keep([POLICY, OTHER])
        self.fill(self.keeper)
        self.log()
        for policy, told in (
            ([POLICY], "f has more assertions of the policy file than the daemon has"), ([], "f has more assertions"),
            ([OTHER, POLICY], "update 1 of f isn't"), ([POLICY, OTHER, OTHER], "update 3 of f isn't the daemon's"),
            ([POLICY, OTHER, CREDENTIAL], "update 3 of f isn't the daemon's"),
        ):
            fresh = self.keep(policy)
            status, out, errors = self.run_on(fresh, "restore", "f")
            self.assertEqual((status, out, len(fresh.updates)), (2, "", len(policy)))
            self.assertIn(told, errors)
        self.assertIn("No such file", self.run_on(fresh, "restore", "gone")[2])
        self.write("f", b"hello\n")
        self.assertIn("f:1:1: no reply", self.run_on(fresh, "restore", "f")[2])

    def test_the_first_refusal_ends_it(self):
        first = reply(0, update(POLICY, caller=0), update(CREDENTIAL))
        for bad, told in (
            (update(STRANGER), "update 3 of f: NO 7 auth 1: it has no signature: stopped at version 2"),
            (update(OTHER, STRANGER), "update 3 of f: NO 17 item 2 7 auth 1: item 2: it has no signature; nothing of"),
            (b"UPDATE 1 1\nDROP a7\n", "update 3 of f: NO 12 unknown"),
        ):
            fresh = self.keep()
            self.write("f", first + reply(2, bad, update(OTHER)))
            status, out, errors = self.run_on(fresh, "restore", "f")
            self.assertEqual((status, out, len(fresh.updates)), (2, "", 2))
            self.assertIn(told, errors)

    def test_other_ids_and_versions_end_it(self):
        self.fill(self.keeper)
        self.log()
        for say in ({b"ADD": b"OK a2 3"}, {b"ADD": b"OK a3 2"}, {b"BATCH": b"OK a3 1 3"}, {b"DROP": b"OK 9"}):
            fresh = self.keep()
            fresh.say = say
            status, out, errors = self.run_on(fresh, "restore", "f")
            self.assertEqual((status, out), (2, ""))
            self.assertIn("somebody else makes updates too", errors)
        fresh.say = {b"ADD": b"NOMEM"}
        fresh.updates = fresh.updates[:1]
        self.assertIn("update 2 of f: ", self.run_on(fresh, "restore", "f")[2])

    def test_what_is_live_is_restored_over_another_policy(self):
        for text in (CREDENTIAL, OTHER, OTHER, CREDENTIAL):
            self.keeper.change([(text, None)])
        self.keeper.change([(None, 2)])
        self.keeper.change([(None, 1)])
        self.log()
        fresh = self.keep([OTHER, POLICY, POLICY])
        told = "a3 is a4\na4 is a5\na5 is a6\n"
        self.assertEqual(self.run_on(fresh, "restore", "--live", "f"), (0, told, ""))
        self.assertEqual(self.run_on(fresh, "restore", "--live", "f"), (0, "", ""))
        self.assertEqual([fresh.live()[number] for number in (4, 5, 6)], [OTHER, OTHER, CREDENTIAL])
        self.assertEqual(sorted(fresh.live()), [1, 2, 3, 4, 5, 6])
        self.write("f", reply(0, update(POLICY, caller=0), update(STRANGER), update(OTHER)))
        status, out, errors = self.run_on(self.keep(), "restore", "--live", "f")
        self.assertEqual((status, out), (2, "a3 is a2\n"))
        self.assertIn("a2: NO 7 auth 1: it has no signature\n", errors)
        self.write("f", reply(1, update(OTHER)))
        self.assertIn("what is live is told by all", self.run_on(fresh, "restore", "--live", "f")[2])


class Following(Kept):
    def follow(self):
        words = [sys.executable, os.path.join(HERE, "keynoted.py"), "log", "--follow", "--connect", self.keeper.address]
        run = subprocess.Popen([*words, "--keys", "keys", "f"], stdout=subprocess.PIPE, stderr=subprocess.PIPE)
        self.addCleanup(run.communicate)
        self.addCleanup(run.kill)
        return run

    def await_version(self, version):
        deadline = time.monotonic() + 60
        while time.monotonic() < deadline:
            if os.path.exists("f") and LogText(self.content(), "f").held() == version:
                return
            time.sleep(0.05)
        self.fail(f"the file doesn't come to version {version}")

    def test_it_is_followed_until_it_is_interrupted(self):
        run = self.follow()
        self.await_version(1)
        self.fill(self.keeper)
        self.await_version(5)
        self.assertIn("another process", self.log()[2])
        run.send_signal(signal.SIGINT)
        self.assertEqual((*run.communicate(), run.returncode), (b"", b"", 0))
        self.assertEqual([it for it in self.keeper.requests if it == b"ADMIN " + SECRET], [b"ADMIN " + SECRET])

    def test_it_ends_with_the_daemon(self):
        run = self.follow()
        self.await_version(1)
        self.keeper.stop()
        self.assertIn(b"connection", run.communicate(timeout=60)[1])
        self.assertEqual(run.returncode, 2)

    def test_a_connection_that_is_nearly_used_up_is_replaced(self):
        asked = keeping.SPARE, keeping.PAUSE
        self.addCleanup(lambda: setattr(keeping, "SPARE", asked[0]))
        self.addCleanup(lambda: setattr(keeping, "PAUSE", asked[1]))
        keeping.SPARE, keeping.PAUSE = keynoted.wire.REQUESTS - 20, 0.01
        keeping.time = Clock(60)
        self.addCleanup(lambda: setattr(keeping, "time", time))
        self.fill(self.keeper)
        self.assertEqual(self.log("--follow"), (0, "", ""))
        self.assertGreater(self.keeper.accepted, 2)
        self.assertEqual(self.content(), self.keeper.log(0) + b"\n")


class Clock:
    """Sleeps, and interrupts after so many times."""

    def __init__(self, times):
        self.left = times

    def sleep(self, seconds):
        self.left -= 1
        if not self.left:
            raise KeyboardInterrupt
        time.sleep(seconds)


class KeptOfTheProgram(Room):
    """The same over the program."""

    def setUp(self):
        super().setUp()
        if not has_batches():
            raise unittest.SkipTest("the program has no LOG")
        digests = b"".join(b"digest %b\n" % hashlib.sha256(it).hexdigest().encode() for it in (CREDENTIAL, OTHER))
        self.write("keys", digests + b"secret 733363726574\n")

    def run_on(self, word, *words):
        return self.command(word, "--connect", self.address, "--keys", "keys", *words)

    def log_of_daemon(self):
        with keynoted.connect(self.address) as daemon:
            daemon.admin(b"s3cret")
            return daemon.log()

    def test_a_daemon_is_killed_and_restored(self):
        process, self.address = self.serve()
        with keynoted.connect(self.address) as daemon:
            daemon.admin(b"s3cret")
            for _ in range(20):
                daemon.add(CREDENTIAL)
            with daemon.batch() as batch:
                batch.add(OTHER)
                batch.drop("a22")
            daemon.drop("a2")
        self.assertEqual(self.run_on("log", "f"), (0, "f: version 23\n", ""))
        log = self.log_of_daemon()
        process.kill()
        process.wait()
        _, self.address = self.serve()
        self.assertEqual(self.run_on("restore", "f"), (0, "updates that were restored: 22\nversion 23\n", ""))
        self.assertEqual([it.changes for it in self.log_of_daemon()], [it.changes for it in log])
        self.assertEqual(self.run_on("log", "f"), (0, "f: version 23\n", ""))

    def test_a_key_that_is_gone(self):
        process, self.address = self.serve()
        with keynoted.connect(self.address) as daemon:
            daemon.admin(b"s3cret")
            for text in (OTHER, CREDENTIAL, OTHER):
                daemon.add(text)
        self.run_on("log", "f")
        process.kill()
        process.wait()
        self.write("keys", b"digest %b\nsecret 733363726574\n" % hashlib.sha256(OTHER).hexdigest().encode())
        _, self.address = self.serve()
        status, out, errors = self.run_on("restore", "f")
        self.assertEqual((status, out), (2, ""))
        self.assertRegex(errors, r"update 3 of f: NO 7 auth \d: .*: stopped at version 2\n")
        status, out, errors = self.run_on("restore", "--live", "f")
        self.assertEqual((status, out), (2, "a4 is a3\n"))
        self.assertRegex(errors, r"^a3: NO 7 auth \d: .*\n.*credentials of f that were refused: 1\n$")
