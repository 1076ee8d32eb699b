"""The rounds of tests/load: random clients under limits of memory and open files, and memory that comes back."""

import argparse
import contextlib
import resource
import sys
import tempfile
import threading
import time

from serving import conduct, daemon as model
from serving.clients import Clients
from serving.daemon import Fault
from serving.run import Long, Tally, built_program, probe
from serving.talk import Daemon

WORKERS, CONNECTIONS = 16, 2400
# the seconds of a round in which clients add and drop
SECONDS = 40
# how often sessions are filled, how many sessions a client fills, and their private assertions with so many bytes of comment
FILLS, SESSIONS, PRIVATE, COMMENT = 12, 16, 40, 2000
# the fillings behind which memory may grow no more but by GROWTH, in KiB. Each worker has an arena of the C library, which
# grows when the worker is first among those whose sessions are filled, and a filling has eight of the workers.
FIRST, GROWTH = 8, 4096


def memory(daemon, what):
    """The memory of a run in KiB: VmRSS now, or VmHWM at most."""
    with open(f"/proc/{daemon.run.pid}/status") as status:
        return next(int(line.split()[1]) for line in status if line.startswith(what + ":"))


def fill(daemon, texts, name):
    """Fills each session that a connection may have with private assertions, asks in each, and closes them."""
    talk = daemon.connect(name)
    numbers = range(1, SESSIONS + 1)
    talk.ask([b"OPEN\n" for _ in numbers])
    for s in numbers:
        made = [model.make_assertion(f"{name} {k}", conduct.USERS[k % 6], None, f"{k} of {name} " + "x" * COMMENT) for k in range(PRIVATE)]
        talk.ask([conduct.block(b"ASSERT %d" % s, texts.enter(assertion)) for assertion in made])
        talk.ask([b"AUTH %d u0\n" % s, b"QUERY %d no,yes\n" % s])
    talk.ask([b"CLOSE %d\n" % s for s in numbers])
    talk.bye()


def fill_at_once(daemon, texts):
    """Eight clients fill their sessions side by side."""
    faults = []

    def guarded(name):
        try:
            fill(daemon, texts, name)
        except (Fault, OSError) as why:
            faults.append(f"{name}: {why}")

    threads = [threading.Thread(target=guarded, args=(name,)) for name in conduct.CLIENTS]
    for thread in threads:
        thread.start()
    for thread in threads:
        thread.join()
    return faults


class Load(Long):
    """Rounds of clients, each on a run of its own under the limits."""

    def __init__(self, tally, program, room, words):
        super().__init__(tally, program, room, SECONDS)
        self.words, self.most, self.exchanges, self.updates = words, 0, 0, 0

    def limit(self):
        """What the run may take, set in its own process."""
        resource.setrlimit(resource.RLIMIT_AS, (self.words.memory << 20,) * 2)
        resource.setrlimit(resource.RLIMIT_NOFILE, (self.words.files,) * 2)

    def note_memory(self, name, daemon, texts):
        """Whether memory comes back: filled again, the run grows no more."""
        kept = []
        for _ in range(FILLS):
            faults = fill_at_once(daemon, texts)
            if faults:
                return self.tally.note(f"{name}: memory comes back", "; ".join(faults[:3]))
            kept.append(memory(daemon, "VmRSS"))
        grown = max(kept[FIRST:]) - max(kept[:FIRST])
        self.tally.note(f"{name}: memory comes back", f"after each filling, in KiB: {kept}" if grown > GROWTH else "")
        self.most = max(self.most, memory(daemon, "VmHWM"))

    def try_round(self, name):
        texts = conduct.Texts()
        daemon = Daemon(self.program, self.policy, self.keys, WORKERS, CONNECTIONS, limit=self.limit)
        with contextlib.closing(daemon):
            clients = Clients(daemon, texts, self.seconds)
            self.start(clients, others=True)
            clients.join()
            self.tally.note(f"{name}: all clients are served", "; ".join(clients.faults[:5]))
            self.note_memory(name, daemon, texts)
            version = probe(daemon, texts)
            daemon.use_up()
            self.tally.attempt(f"{name}: it ends by itself", lambda: daemon.expect_end(version))
            self.note_history(name, daemon, texts, version)
            self.exchanges += sum(len(t.exchanges) for t in daemon.transcripts())
            self.updates += version - len(conduct.LOADED)


def read_words():
    parser = argparse.ArgumentParser(prog="tests/load", description="Serves random clients under limits of memory and open files.")
    parser.add_argument("--minutes", type=float, default=60, help="how long (60)")
    parser.add_argument("--memory", type=int, default=2048, help="the MiB of address space that a run may take; the C library reserves 64 for each worker (2048)")
    parser.add_argument("--files", type=int, default=WORKERS + 8, help=f"the files that a run may have open ({WORKERS + 8})")
    return parser.parse_args()


def main():
    words, tally, start = read_words(), Tally(), time.monotonic()
    program, rounds = built_program(), 0
    with tempfile.TemporaryDirectory() as room:
        load = Load(tally, program, room, words)
        while rounds == 0 or time.monotonic() - start < 60 * words.minutes:
            rounds += 1
            tally.attempt(f"round {rounds}", lambda: load.try_round(f"round {rounds}"))
    print(f"{rounds} rounds in {(time.monotonic() - start) / 60:.1f} minutes: {load.exchanges} exchanges, {load.updates} updates, at most {load.most} KiB")
    print(f"{tally.passed} passed, {tally.failed} failed")
    return 0 if tally.passed and not tally.failed else 1


if __name__ == "__main__":
    sys.exit(main())
