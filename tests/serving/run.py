"""The runs of tests/serve: what is tried, and its last line."""

import argparse
import contextlib
import os
import subprocess
import sys
import tempfile
import time

from serving import conduct, history, planted, proving
from serving.batches import Batches
from serving.clients import Clients
from serving.daemon import Fault
from serving.doors import Doors
from serving.recency import Recency
from serving.talk import Daemon
from serving.waiting import Waiting

TOP = os.path.dirname(os.path.dirname(os.path.dirname(os.path.abspath(__file__))))
# what the last client asks about: so many of the credentials that were made last
PROBED = 300
# the requests that it sends at once
AT_ONCE = 60


class Tally:
    """What passed and what failed."""

    def __init__(self):
        self.passed, self.failed = 0, 0

    def note(self, name, why=""):
        if why:
            self.failed += 1
            print(f"FAILED {name}: {why}", flush=True)
        else:
            self.passed += 1

    def attempt(self, name, work):
        try:
            self.note(name, work())
        except (Fault, OSError, subprocess.SubprocessError) as why:
            self.note(name, f"{type(why).__name__}: {why}")


def probe(daemon, texts):
    """The last connection: it pins the newest version, and asks about credentials one by one. The version is told."""
    talk, signed = daemon.connect("prober"), texts.signed()
    version = int(talk.ask([b"OPEN\n", b"SET 1 level 9\n"])[0].split()[2])
    others = [a for a in signed[:-PROBED] if a.authorizer in conduct.OTHERS]
    requests = list(conduct.probes(others + signed[-PROBED:]))
    for at in range(0, len(requests), AT_ONCE):
        talk.ask(requests[at:at + AT_ONCE])
    talk.bye()
    return version


class Long:
    """A long run: clients at once, and what they saw."""

    def __init__(self, tally, program, room, seconds):
        self.tally, self.program, self.room, self.seconds = tally, program, room, seconds
        self.policy, self.keys = os.path.join(room, "policy"), os.path.join(room, "keyfile")
        with open(self.policy, "wb") as file:
            file.write(conduct.POLICY)
        with open(self.keys, "w") as file:
            file.write(conduct.KEYS)

    def start(self, clients, others):
        for number, name in enumerate(conduct.CLIENTS):
            clients.start(clients.ask, name, number)
        if others:
            for work in (clients.cut_off, clients.read_nothing, clients.send_endless, clients.send_slowly):
                clients.start(work)

    def note_history(self, name, daemon, texts, version):
        """Whether it was one history, and what those did to it who broke off."""
        transcripts = daemon.transcripts()
        faults, told, asked = history.judge(transcripts, conduct.LOADED, texts, version)
        self.tally.note(f"{name}: one history", "; ".join(faults))
        if told is None:
            return
        made = {update.client for update in told.updates if update}
        lost = [t.client for t in transcripts if t.client in conduct.OTHERS and any(map(history.is_update, t.exchanges)) and t.client not in made]
        self.tally.note(f"{name}: nothing of those who break off is lost", f"no update of {lost}" if lost else "")
        number, refused = proving.Prover(self.program, self.room).prove(told, asked)
        self.tally.note(f"{name}: each VALUE is proved by check", f"{len(refused)} of {number}: {refused[0]}" if refused else "")
        exchanges = sum(len(t.exchanges) for t in transcripts)
        print(f"{name}: {len(transcripts)} connections, {exchanges} exchanges, {told.length() - told.loaded} updates, {len(asked)} VALUE replies, {number} of them different")

    def try_run(self, name, workers, connections, others=True):
        texts = conduct.Texts()
        daemon = Daemon(self.program, self.policy, self.keys, workers, connections)
        with contextlib.closing(daemon):
            clients = Clients(daemon, texts, self.seconds)
            self.start(clients, others)
            clients.join()
            self.tally.note(f"{name}: all clients are served", "; ".join(clients.faults[:5]))
            version = probe(daemon, texts)
            daemon.use_up()
            self.tally.attempt(f"{name}: it ends by itself", lambda: daemon.expect_end(version))
            self.note_history(name, daemon, texts, version)


def built_program():
    """The program that KEYNOTED names, or the one that is built here."""
    if "KEYNOTED" in os.environ:
        return os.environ["KEYNOTED"]
    if subprocess.run([os.path.join(TOP, "keynoted")], stdin=subprocess.DEVNULL, stdout=subprocess.DEVNULL).returncode == 125:
        sys.exit("the program can't be built")
    return os.path.join(TOP, "crates", "keynoted", "out", "keynoted")


def read_words():
    parser = argparse.ArgumentParser(prog="tests/serve", description="Tries keynoted serve over TCP on the loopback.")
    parser.add_argument("--seconds", type=float, default=20, help="of the long run; the shorter ones take a tenth (20)")
    parser.add_argument("--only", choices=["checker", "doors", "waiting", "batches", "recency", "clients"], help="the self-test of the checker, which wants no program; what is at fault and how connections end; slow and idle clients, and want of descriptors; ten thousand batches; pins behind updates; the long run")
    return parser.parse_args()


def try_doors(tally, program, room):
    doors = Doors(program, room)
    for name, work in [*doors.faults(), *doors.ends()]:
        tally.attempt(name, work)


def try_waiting(tally, program, room):
    for name, work in Waiting(program, room).cases():
        tally.attempt(name, work)


def try_batches(tally, program, room):
    tally.attempt("each sees all of a batch or nothing", lambda: Batches(program, room).try_all())


def try_recency(tally, program, room):
    tally.attempt("each PIN sees what was answered before", lambda: Recency(program, room).try_all())


def try_clients(tally, program, room, seconds):
    long, short = Long(tally, program, room, seconds), Long(tally, program, room, seconds / 10)
    tally.attempt("16 workers", lambda: long.try_run("16 workers", 16, 1600))
    tally.attempt("2 workers", lambda: short.try_run("2 workers", 2, 400, others=False))


def main():
    words, tally, start = read_words(), Tally(), time.monotonic()
    if words.only in (None, "checker"):
        for name, why in planted.try_checker():
            tally.note(f"checker: {name}", why)
    if words.only != "checker":
        program = built_program()
        parts = {"doors": try_doors, "waiting": try_waiting, "batches": try_batches, "recency": try_recency}
        parts["clients"] = lambda *to: try_clients(*to, words.seconds)
        for name, part in parts.items():
            if words.only in (None, name):
                with tempfile.TemporaryDirectory() as room:
                    part(tally, program, room)
    print(f"in {time.monotonic() - start:.0f} seconds")
    print(f"{tally.passed} passed, {tally.failed} failed")
    return 0 if tally.passed and not tally.failed else 1


if __name__ == "__main__":
    sys.exit(main())
