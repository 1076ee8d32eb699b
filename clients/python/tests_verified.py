"""Tests that what the client records of a connection is verified by the program, and that changed replies aren't."""

import hashlib
import os
import subprocess
import sys

import keynoted

from tests_room import CREDENTIAL, HERE, PROGRAM, Room

VALUES = ("no", "yes")
OTHER = b'Authorizer: "alice"\nLicensees: "carol"\nConditions: hour == "9" -> "yes";\n'
ADD = b"ADD %d\n%b\n" % (len(OTHER), OTHER)
BATCH = ADD + b"DROP a2\n"
# the secret is s3cret
SCRIPT = b"".join([
    b"OPEN\nAUTH 1 bob\nQUERY 1 no,yes\nDROP a1\nADMIN 743363726574\nADMIN 733363726574\n",
    b"ADD %d\n%b\nADD 4\nnone\n" % (len(CREDENTIAL), CREDENTIAL), b"QUERY 1 no,yes\nPIN 1\nQUERY 1 no,yes\n",
    b"BATCH %d\n%b\n" % (len(BATCH), BATCH), b"BATCH 9\nDROP a99\n\n", ADD, b"OPEN\nAUTH 2 carol\nSET 2 hour 9\n",
    b"ASSERT 2 %d\n%b\nQUERY 2 no,yes\n" % (len(CREDENTIAL), CREDENTIAL), b"PIN 1 2\nQUERY 1 no,yes\nCLOSE 2\nBYE\n",
])
REPLIES = [
    b"OK 1 1", b"OK", b"VALUE 0 no 1 0\nEND", b"NO 4 admin", b"NO 4 admin", b"OK", b"OK a2 2", b"NO 5 read 9 0",
    b"VALUE 0 no 1 0\nEND", b"OK 2", b'VALUE 1 yes 2 2\nROW 1 a2 "alice"\nROW 1 a1 "POLICY"\nEND', b"OK a3 1 3",
    b"NO 17 item 1 12 unknown", b"OK a4 4", b"OK 2 4", b"OK", b"OK", b"OK p1",
    b'VALUE 1 yes 4 2\nROW 1 a3 "alice"\nROW 1 a1 "POLICY"\nEND', b"OK 2 4",
    b'VALUE 1 yes 2 2\nROW 1 a2 "alice"\nROW 1 a1 "POLICY"\nEND', b"OK", b"OK",
]


class Verified(Room):
    def setUp(self):
        super().setUp()
        digests = [hashlib.sha256(text).hexdigest().encode() for text in (CREDENTIAL, OTHER)]
        self.write("keys", b"digest %b\ndigest %b\nsecret 733363726574\n" % tuple(digests))
        self.write("script", SCRIPT)

    def record(self, name, *words, script=b""):
        """What `record` prints."""
        command = [sys.executable, "-B", os.path.join(HERE, "keynoted.py"), "record", name, *words]
        return subprocess.run(command, input=script, stdout=subprocess.PIPE, check=True).stdout

    def read(self, name):
        with open(name, "rb") as file:
            return file.read()

    def verify(self, requests, replies):
        """The line and the status with which the program verifies a transcript over p.kn."""
        words = [PROGRAM, "verify", "p.kn", requests, replies]
        run = subprocess.run(words, stdin=subprocess.DEVNULL, stdout=subprocess.PIPE)
        return run.stdout.decode().rstrip("\n"), run.returncode

    def test_a_connection_of_an_administrator_over_tcp(self):
        _, address = self.serve()
        printed = self.record("talk", "--connect", address, "--script", "script")
        self.assertEqual(printed.count(b"\nVALUE 1 yes "), 3)
        self.assertEqual(self.read("talk.replies"), printed)
        self.assertNotIn(b"3363726574", self.read("talk.requests"))
        self.assertEqual(self.verify("talk.requests", "talk.replies"), ("VERIFIED 5 4", 0))
        # the administrator was let in by the secret alone, which isn't wanted here
        self.assertEqual(self.verify("script", "talk.replies"), ("VERIFIED 5 4", 0))

    def test_a_connection_behind_the_updates_of_others(self):
        _, address = self.serve()
        self.record("first", "--connect", address, script=SCRIPT)
        self.record("second", "--connect", address, script=b"OPEN\nBYE\n")
        self.assertEqual(self.read("second.replies"), b"OK 1 4\nOK\n")
        self.assertEqual(self.verify("second.requests", "second.replies"), ("error transcript 3 1", 12))

    def test_the_script_comes_from_a_file_or_from_standard_input(self):
        for name, words, script in (("one", ["--script", "script"], b"OPEN\nBYE\n"), ("two", [], SCRIPT)):
            self.record(name, "p.kn", "--keys", "keys", *words, script=script)
            self.assertEqual(self.verify(f"{name}.requests", f"{name}.replies"), ("VERIFIED 5 4", 0))
        self.assertEqual(self.read("one.requests"), self.read("two.requests"))
        status, _, errors = self.command("record", "three", "p.kn", "--script", "gone")
        self.assertEqual((status, "gone" in errors, os.path.exists("three.requests")), (2, True, False))

    def test_each_reply_counts(self):
        self.write("replies", b"\n".join(REPLIES) + b"\n")
        self.assertEqual(self.verify("script", "replies"), ("VERIFIED 5 4", 0))
        for place in range(len(REPLIES)):
            for replies, fault in (
                (REPLIES[:place], 1), (REPLIES[:place] + [b"ok", *REPLIES[place + 1:]], 2),
                (REPLIES[:place] + [b"NO 9 value", *REPLIES[place + 1:]], 3),
            ):
                self.write("changed", b"".join(reply + b"\n" for reply in replies))
                self.assertEqual(self.verify("script", "changed"), (f"error transcript {fault} {place + 1}", 12))

    def test_what_the_library_records(self):
        with keynoted.start("p.kn", "keys", record="talk") as daemon:
            daemon.admin(b"s3cret")
            daemon.add(CREDENTIAL)
            self.assertEqual(daemon.ask(["bob"], {}, VALUES).index, 1)
            with daemon.batch() as batch:
                batch.drop("a2")
                batch.add(OTHER)
            self.assertEqual(daemon.ask(["bob"], {}, VALUES).index, 0)
            self.assertEqual(daemon.ask(["bob"], {}, VALUES, private=[CREDENTIAL]).index, 1)
        self.assertEqual(self.verify("talk.requests", "talk.replies"), ("VERIFIED 3 3", 0))

    def test_what_a_transcript_does_not_judge(self):
        with keynoted.start("p.kn", record="talk") as daemon:
            self.assertEqual(daemon.ask(["alice"], {}, VALUES).index, 1)
            self.assertEqual(daemon.critical(["alice"], {}, VALUES).ids, ("a1",))
        asked = self.read("talk.requests").split(b"\n").index(b"CRITICAL 1 no,yes") + 1
        self.assertEqual(self.verify("talk.requests", "talk.replies"), (f"error transcript 5 {asked}", 12))
