"""What an administrator was answered is there for everybody who pins afterwards. No clause speaks of time, and a PIN at which
nothing is new waits for nobody: so this is tried from outside.

A credential is added and dropped in turn. The last version that the administrator was told is read before each PIN is sent,
and after its reply has come one more than that may be there.
"""

import contextlib
import hashlib
import os
import threading

from serving.daemon import SECRET, Fault
from serving.talk import Daemon

# updates after each of which all readers pin, one after another, and updates while all of them pin at once
BY_TURNS, AT_ONCE, READERS = 500, 5000, 7
# requests of a connection after which a reader stops; a connection may have 1,000,000
MOST = 900_000
POLICY = 'Authorizer: "POLICY"\nLicensees: "part"\n'
LOADED = 1
TEXT = b'Authorizer: "part"\nLicensees: "reader"\n'
KEYS = f"digest {hashlib.sha256(TEXT).hexdigest()}\nsecret {SECRET.decode()}\n"
VALUES = b"none,all"


class Writer:
    """The administrator, and the version that it was told last."""

    def __init__(self, talk):
        self.talk, self.told, self.added = talk, LOADED, None
        if talk.ask([b"ADMIN %s\n" % SECRET]) != [b"OK\n"]:
            raise Fault("the administrator isn't let in")

    def update(self):
        request = b"DROP %s\n" % self.added if self.added else b"ADD %d\n%s\n" % (len(TEXT), TEXT)
        words = self.talk.ask([request])[0].split()
        self.talk.transcript.exchanges.clear()
        self.added = None if self.added else words[1]
        version = int(words[-1])
        if version != self.told + 1:
            raise Fault(f"version {version} comes behind {self.told}")
        self.told = version


class Reader:
    def __init__(self, talk, writer):
        self.talk, self.writer, self.pins = talk, writer, 0
        talk.ask([b"OPEN\n", b"AUTH 1 reader\n"])

    def pin(self):
        before = self.writer.told
        version = int(self.talk.ask([b"PIN 1\n"])[0].split()[1])
        after = self.writer.told + 1
        self.pins += 1
        if not before <= version <= after:
            raise Fault(f"PIN tells version {version}, where {before} was told before and {after} may be there afterwards")
        return version

    def look(self):
        """Two pins, between which nothing may be new, and a question at what they pinned."""
        first, second = self.pin(), self.pin()
        value = self.talk.ask([b"QUERY 1 %s\n" % VALUES])[0].split(b"\n")[0].split()
        self.talk.transcript.exchanges.clear()
        due = [b"all", b"none"][(second - LOADED) % 2 == 0]
        if second < first or value[2] != due or int(value[3]) != second:
            raise Fault(f"versions {first} and {second} were pinned, and QUERY is answered {value}")


class Recency:
    def __init__(self, program, room):
        self.program, self.faults = program, []
        self.policy, self.keys = os.path.join(room, "recency.kn"), os.path.join(room, "recency.keys")
        for name, text in ((self.policy, POLICY), (self.keys, KEYS)):
            with open(name, "w") as file:
                file.write(text)

    def guarded(self, work, *words):
        try:
            work(*words)
        except (Fault, OSError, ValueError, IndexError) as why:
            self.faults.append(f"{type(why).__name__}: {why}")

    def update_all(self, writer, done):
        try:
            for _ in range(AT_ONCE):
                writer.update()
        finally:
            done.set()

    def look_on(self, reader, done):
        while not done.is_set() and 3 * reader.pins < MOST and not self.faults:
            reader.look()
        reader.look()

    def try_by_turns(self, writer, readers):
        for _ in range(BY_TURNS):
            writer.update()
            for reader in readers:
                reader.look()

    def try_at_once(self, writer, readers):
        done = threading.Event()
        threads = [threading.Thread(target=self.guarded, args=(self.look_on, it, done)) for it in readers]
        threads.append(threading.Thread(target=self.guarded, args=(self.update_all, writer, done)))
        for thread in threads:
            thread.start()
        for thread in threads:
            thread.join()

    def try_all(self):
        """Why somebody was told an older version than the administrator before."""
        run = Daemon(self.program, self.policy, self.keys, READERS + 2, READERS + 2)
        with contextlib.closing(run):
            writer = Writer(run.connect("writer"))
            readers = [Reader(run.connect(f"reader {at}"), writer) for at in range(READERS)]
            self.guarded(self.try_by_turns, writer, readers)
            if not self.faults:
                self.try_at_once(writer, readers)
            for it in (writer, *readers):
                it.talk.bye()
            if not self.faults:
                run.expect_end(LOADED + BY_TURNS + AT_ONCE)
        print(f"recency: {writer.told - LOADED} updates, and {sum(it.pins for it in readers)} pins by seven others")
        return "; ".join(self.faults[:3])
