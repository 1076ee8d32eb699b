"""Clients that are killed in the middle of everything: each in a process of its own, which is ended by SIGKILL.

Such a process is a relay: it hands on what the test sends, in small pieces, and what the daemon replies. So the test
knows all that was asked and all that was answered. Others, which nobody kills, ask meanwhile. In the end the daemon's
own log tells which of the unanswered updates were made: each update of it is one that was asked for, those that were
answered stand where they were told, and all that anybody was told is right by that history.
"""

import argparse
import collections
import contextlib
import os
import random
import re
import select
import signal
import socket
import sys
import tempfile
import time

import protocol
from serving import conduct, history, talk
from serving.daemon import Fault
from serving.run import Tally, built_program

WORKERS, CONNECTIONS = 16, 16_000
# how many are killed and how many aren't, the most seconds that one lives, and the seconds of a round
KILLED, SPARED, LIFE, SECONDS = 20, 6, 0.4, 20
# the most requests of a burst, and the most bytes that a relay hands on at once
BURST, PIECE = 8, 600
# the most seconds that a reply may take to one who waits for it
LIMIT = 20
ADMIN = b"ADMIN 733363726574\n"
LOG = re.compile(rb"LOG \d+ (\d+) (\d+)\n")


def relay(test, address, seed):
    """Hands on what comes from the one side to the other, until one of them ends."""
    rng = random.Random(seed)
    daemon = socket.create_connection(address, LIMIT)
    daemon.setsockopt(socket.IPPROTO_TCP, socket.TCP_NODELAY, 1)
    while True:
        for side in select.select([test, daemon], [], [])[0]:
            piece = side.recv(rng.randint(1, PIECE) if side is test else 65536)
            if not piece:
                return
            (daemon if side is test else test).sendall(piece)


class Relay:
    """A process with a connection of its own."""

    def __init__(self, address, seed):
        self.link, theirs = socket.socketpair()
        self.pid = os.fork()
        if self.pid == 0:
            try:
                kept = os.dup2(theirs.fileno(), 3)
                os.closerange(4, 1024)
                relay(socket.socket(fileno=kept), address, seed)
            finally:
                os._exit(0)
        theirs.close()

    def kill(self):
        os.kill(self.pid, signal.SIGKILL)
        os.waitpid(self.pid, 0)
        self.link.close()


class Client:
    """Somebody who asks at random, by one relay after the other."""

    def __init__(self, name, texts, seed, killed):
        self.conduct, self.rng, self.killed = conduct.Conduct(name, texts, seed), random.Random(seed), killed
        self.transcripts, self.relay, self.kills = [], None, 0

    def start(self, address, end):
        self.conduct.connect()
        self.relay, self.heard = Relay(address, self.rng.random()), b""
        self.waiting, self.next = collections.deque(), 0.0
        self.until = time.monotonic() + LIFE * self.rng.random() ** 2 if self.killed else end
        self.transcripts.append(history.Transcript(self.conduct.name, []))
        self.send(self.conduct.start())

    def send(self, requests):
        sent = time.monotonic()
        self.waiting += [(request, sent) for request in requests]
        self.relay.link.sendall(b"".join(requests))

    def hear(self):
        """What the relay has for the test."""
        piece = self.relay.link.recv(1 << 16)
        if not piece:
            raise Fault(f"the connection of {self.conduct.name} ended")
        self.heard += piece
        while self.waiting:
            reply, self.heard = talk.take_reply(self.heard)
            if reply is None:
                return
            request, sent = self.waiting.popleft()
            self.conduct.learn(request, reply)
            self.transcripts[-1].exchanges.append(history.Exchange(request, reply, sent, time.monotonic()))
        self.next = time.monotonic() + 0.01 * self.rng.random()

    def go_on(self, now):
        """The next requests, where the ones before are answered."""
        if self.waiting and now - self.waiting[0][1] > LIMIT and not self.killed:
            raise Fault(f"{self.conduct.name} waits for {LIMIT} s for the reply to {self.waiting[0][0]!r:.60}")
        if not self.waiting and now >= self.next:
            self.send(self.conduct.burst(BURST))

    def kill(self):
        self.relay.kill()
        self.relay, self.kills = None, self.kills + 1
        for request, sent in self.waiting:
            self.transcripts[-1].exchanges.append(history.Exchange(request, None, sent, time.monotonic()))


def let_ask(clients, address, seconds):
    """All of them ask for so many seconds, and are killed again and again."""
    end = time.monotonic() + seconds
    try:
        while (now := time.monotonic()) < end:
            for client in clients:
                if client.relay and now >= client.until:
                    client.kill()
                if not client.relay:
                    client.start(address, end)
                client.go_on(now)
            links = {client.relay.link: client for client in clients}
            for link in select.select(list(links), [], [], 0.005)[0]:
                links[link].hear()
    finally:
        for client in clients:
            if client.relay:
                client.kill()


# -- what the log tells


def read_log(daemon):
    """The changes of each update, by the daemon's own log."""
    reader, updates, newest = daemon.connect("reader"), [], 1
    reader.ask([ADMIN])
    while len(updates) < newest:
        (reply,) = reader.ask([b"LOG %d\n" % len(updates)])
        head = LOG.match(reply)
        newest, at = int(head[2]), head.end()
        for _ in range(int(head[1])):
            update = protocol.UPDATE_LINE.match(reply, at)
            items, at = protocol.split_items(reply, update.end(), int(update[1]))
            updates.append(items)
    reader.bye()
    return updates


def unanswered(transcripts):
    """The updates whose replies nobody read, by their changes."""
    left = collections.defaultdict(collections.deque)
    for transcript in transcripts:
        for exchange in transcript.exchanges:
            if history.is_update(exchange) and exchange.reply is None:
                left[tuple(history.items_of(exchange))].append(history.Update(transcript.client, exchange))
    return left


def history_of(log, transcripts, texts):
    """The history that the log tells, each of whose updates somebody asked for, and how many were never answered."""
    told, left = history.updates_told(transcripts), unanswered(transcripts)
    made, lost = history.History(conduct.LOADED, texts), 0
    for version, items in enumerate(log, 1):
        if version <= made.loaded:
            continue
        update = told.pop(version, None)
        if update is None:
            if not left[tuple(items)]:
                raise Fault(f"version {version} is made by none of the requests: {items!r:.200}")
            update, lost = left[tuple(items)].popleft(), lost + 1
        elif history.items_of(update.exchange) != items:
            raise Fault(f"version {version} is told {update.client}, and the log has {items!r:.200} there")
        made.append(update)
    if told:
        raise Fault(f"versions {sorted(told)[:5]} were told, and the log has {len(log)} updates")
    return made, lost


def faults_of(made, transcripts):
    """What was told against this history, one by one."""
    yield from history.order_faults(transcripts)
    yield from history.fall_faults(transcripts)
    yield from history.time_faults(transcripts, made)
    yield from history.log_faults(transcripts, made)
    for transcript in transcripts:
        try:
            history.replay(transcript, made)
        except Fault as why:
            yield str(why)


# -- rounds


def count_open(pid):
    return len(os.listdir(f"/proc/{pid}/fd"))


def use_up(daemon):
    """Connects until the run ends by itself."""
    while daemon.run.poll() is None:
        with contextlib.suppress(OSError, Fault):
            daemon.left = 1
            daemon.connect("last").bye()


class Killing:
    """Rounds, each with a run of its own."""

    def __init__(self, tally, program, room, processors):
        self.tally, self.program, self.processors = tally, program, processors
        self.policy, self.keys = os.path.join(room, "policy"), os.path.join(room, "keyfile")
        self.kills = self.exchanges = self.updates = self.lost = 0
        with open(self.policy, "wb") as file:
            file.write(conduct.POLICY)
        with open(self.keys, "w", encoding="ascii") as file:
            file.write(conduct.KEYS)

    def limit(self):
        if self.processors:
            os.sched_setaffinity(0, self.processors)

    def start(self):
        return talk.Daemon(self.program, self.policy, self.keys, WORKERS, CONNECTIONS, limit=self.limit)

    def try_round(self, name, seed):
        texts, daemon = conduct.Texts(), self.start()
        with contextlib.closing(daemon):
            before = count_open(daemon.run.pid)
            names = conduct.OTHERS[:KILLED + SPARED]
            clients = [Client(who, texts, seed + i, i < KILLED) for i, who in enumerate(names)]
            self.tally.attempt(f"{name}: those who aren't killed are served",
                               lambda: let_ask(clients, daemon.address, SECONDS))
            self.tally.attempt(f"{name}: one history", lambda: self.judge(daemon, clients, texts))
            left = count_open(daemon.run.pid) - before
            self.tally.note(f"{name}: connections are closed", f"{left} files more are open" if left > 0 else "")
            use_up(daemon)
            self.tally.attempt(f"{name}: it ends by itself", lambda: self.expect_end(daemon))

    def judge(self, daemon, clients, texts):
        log = read_log(daemon)
        transcripts = [transcript for client in clients for transcript in client.transcripts]
        made, lost = history_of(log, transcripts, texts)
        faults = [why for why, _ in zip(faults_of(made, transcripts), range(5))]
        self.version = len(log)
        self.kills += sum(client.kills for client in clients)
        self.exchanges += sum(len(transcript.exchanges) for transcript in transcripts)
        self.updates += made.length() - made.loaded
        self.lost += lost
        return "; ".join(faults)

    def expect_end(self, daemon):
        ended = daemon.end()
        due = (0, b"served %d version %d\n" % (CONNECTIONS, self.version), b"")
        return f"the run ends with {ended}, and not with {due}" if ended != due else ""


def read_words():
    parser = argparse.ArgumentParser(prog="tests/kill", description="Kills clients of keynoted serve.")
    parser.add_argument("--minutes", type=float, default=10, help="how long (10)")
    parser.add_argument("--processors", default="0,1", help="those of the run, by their numbers (0,1)")
    parser.add_argument("--seed", type=int, default=1)
    return parser.parse_args()


def main():
    words, tally, begun, rounds = read_words(), Tally(), time.monotonic(), 0
    processors = {int(number) for number in words.processors.split(",")}
    with tempfile.TemporaryDirectory() as room:
        killing = Killing(tally, built_program(), room, processors)
        while rounds == 0 or time.monotonic() - begun < 60 * words.minutes:
            rounds += 1
            name = f"round {rounds}"
            tally.attempt(name, lambda: killing.try_round(name, words.seed + 1000 * rounds))
    minutes = (time.monotonic() - begun) / 60
    print(f"{rounds} rounds in {minutes:.1f} minutes: {killing.kills} clients were killed, with "
          f"{killing.exchanges} requests and {killing.updates} updates, of which {killing.lost} were never answered")
    print(f"{tally.passed} passed, {tally.failed} failed")
    return 0 if tally.passed and not tally.failed else 1


if __name__ == "__main__":
    sys.exit(main())
