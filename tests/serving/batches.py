"""Batches by one client while seven others pin, ask and keep standing queries: each sees all of a batch or nothing of it.

One batch adds a credential for each part of a whole, and the next one drops them all. So the version alone tells whether
all parts are there or none, and which ids they have.
"""

import contextlib
import hashlib
import os
import re
import threading

from serving.daemon import SECRET, Fault, read_value
from serving.talk import Daemon

BATCHES, READERS, PARTS = 10_000, 7, 6
# requests of a connection after which a reader stops; a connection may have 1,000,000
MOST = 900_000
NAMES = [f"part {at}" for at in range(1, PARTS + 1)]
LISTED = ",".join(f'"{name}"' for name in NAMES)
POLICY = (
    f'Authorizer: "POLICY"\nLicensees: 1-of({LISTED})\nConditions: true -> "some";\n\n'
    f'Authorizer: "POLICY"\nLicensees: {PARTS}-of({LISTED})\n'
)
LOADED = 2
TEXTS = [f'Authorizer: "{name}"\nLicensees: "reader"\n'.encode() for name in NAMES]
KEYS = "".join(f"digest {hashlib.sha256(text).hexdigest()}\n" for text in TEXTS) + f"secret {SECRET.decode()}\n"
VALUES = b"none,some,all"
ASKED = [
    b"PIN 1\n", b"QUERY 1 %s\n" % VALUES, b"CRITICAL 1 %s\n" % VALUES, b"NEWS 1\n", b"WATCH 1 %s\n" % VALUES,
]


def ids_at(version):
    """The ids of the parts that are there at this version: none, or those of the batch that made it."""
    batch = version - LOADED
    first = LOADED + 1 + PARTS * ((batch - 1) // 2)
    return [f"a{first + at}" for at in range(PARTS)] if batch > 0 and batch % 2 else []


def batch_at(version):
    """The request that makes this version, and its reply."""
    added, gone = ids_at(version), ids_at(version - 1)
    items = [b"ADD %d\n%s\n" % (len(text), text) for text in TEXTS] if added else []
    items += [f"DROP {name}\n".encode() for name in gone]
    block, first = b"".join(items), int((added or gone)[0][1:]) + len(gone)
    return b"BATCH %d\n%s\n" % (len(block), block), b"OK a%d %d %d\n" % (first, len(added), version)


def expect(told, due, what):
    if told != due:
        raise Fault(f"{what} is answered {told!r}, and not {due!r}")


def expect_value(reply, version):
    """The value of a query at this version, by a proof that has all parts or none."""
    index, name, told, rows = read_value(reply)
    due = ids_at(version)
    expect((index, name, told), (2, "all", version) if due else (0, "none", version), "QUERY")
    expect(sorted(by for _, by, who in rows if who != "POLICY"), sorted(due), "QUERY")


def expect_critical(reply, version):
    due = ["a2", *ids_at(version)] if ids_at(version) else []
    lines = [f"CRITICAL {2 if due else 0} {len(due)}", *(f"NEED {name}" for name in due), "END"]
    expect(reply.decode().splitlines(), lines, "CRITICAL")


def version_in_news(reply):
    """The version that NEWS or the reply to WATCH tells, of which the value has to be right."""
    told = re.fullmatch(rb"NEWS (0 none|2 all) (\d+)\n", reply)
    if not told:
        raise Fault(f"a standing query is answered {reply!r}")
    expect(told[1], b"2 all" if ids_at(int(told[2])) else b"0 none", f"a standing query at version {told[2].decode()}")
    return int(told[2])


class Reader:
    """A client that asks at ever newer versions."""

    def __init__(self, talk):
        self.talk, self.newest, self.rounds = talk, LOADED, 0
        talk.ask([b"OPEN\n", b"AUTH 1 reader\n", b"WATCH 1 %s\n" % VALUES])

    def ask(self):
        self.rounds += 1
        pinned, value, critical, news, watched = self.talk.ask(ASKED)
        self.talk.transcript.exchanges.clear()
        version = int(pinned.split()[1])
        expect_value(value, version)
        expect_critical(critical, version)
        expect(version_in_news(watched), version, "the version of WATCH")
        newest = version_in_news(news)
        if not self.newest <= version <= newest:
            raise Fault(f"versions go from {self.newest} to {version} by PIN and to {newest} by NEWS")
        self.newest = newest
        self.ask_before(version)

    def ask_before(self, version):
        """The version before, where it is kept yet."""
        pinned, value = self.talk.ask([b"PIN 1 %d\n" % (version - 1), b"QUERY 1 %s\n" % VALUES])
        if pinned.startswith(b"OK "):
            expect_value(value, version - 1)


class Batches:
    def __init__(self, program, room):
        self.program, self.faults = program, []
        self.policy, self.keys = os.path.join(room, "batches.kn"), os.path.join(room, "batches.keys")
        for name, text in ((self.policy, POLICY), (self.keys, KEYS)):
            with open(name, "w") as file:
                file.write(text)

    def guarded(self, work, *words):
        try:
            work(*words)
        except (Fault, OSError, ValueError) as why:
            self.faults.append(f"{type(why).__name__}: {why}")

    def write(self, talk, done):
        """The batches, one by one."""
        try:
            expect(talk.ask([b"ADMIN %s\n" % SECRET]), [b"OK\n"], "ADMIN")
            for version in range(LOADED + 1, LOADED + 1 + BATCHES):
                request, due = batch_at(version)
                expect(talk.ask([request]), [due], f"the batch of version {version}")
                talk.transcript.exchanges.clear()
        finally:
            done.set()

    def read(self, reader, done):
        while not done.is_set() and reader.rounds * (len(ASKED) + 2) < MOST and not self.faults:
            reader.ask()
        reader.ask()

    def try_all(self):
        """Why somebody saw a part of a batch, or nothing."""
        run = Daemon(self.program, self.policy, self.keys, READERS + 2, READERS + 2)
        with contextlib.closing(run):
            writer, done = run.connect("writer"), threading.Event()
            readers = [Reader(run.connect(f"reader {at}")) for at in range(READERS)]
            threads = [threading.Thread(target=self.guarded, args=(self.read, it, done)) for it in readers]
            threads.append(threading.Thread(target=self.guarded, args=(self.write, writer, done)))
            for thread in threads:
                thread.start()
            for thread in threads:
                thread.join()
            seen = sum(reader.rounds for reader in readers)
            for talk in (writer, *(reader.talk for reader in readers)):
                talk.bye()
            if not self.faults:
                run.expect_end(LOADED + BATCHES)
        print(f"batches: {BATCHES} by one client, and {seen} times seven others looked")
        return "; ".join(self.faults[:3])
