"""The clients of a long run: eight that ask as they should, and others that break off, don't read, or send too much or too little."""

import threading
import time

from serving import conduct
from serving.daemon import Fault

# the most bursts of a connection, requests of a burst, and seconds between two bursts
BURSTS, BURST, PAUSE = 60, 8, 0.02
# the most connections of a client of each kind
CONNECTIONS, CUTS, LINES = 80, 24, 6
# the bytes of a line without a newline
ENDLESS = 1_000_000
# the most bytes of one that doesn't read, and the bytes that it leaves room for
FLOOD, ROOM = 16_000_000, 4096
ADMIN = b"ADMIN 733363726574\n"


class Clients:
    """All clients of a run, as threads, until a time."""

    def __init__(self, daemon, texts, seconds):
        self.daemon, self.texts, self.faults = daemon, texts, []
        self.seconds, self.until = seconds, time.monotonic() + seconds
        self.threads, self.lock, self.others = [], threading.Lock(), 0

    def is_over(self):
        return time.monotonic() >= self.until

    def start(self, work, *words):
        def guarded():
            try:
                work(*words)
            except (Fault, OSError) as why:
                self.faults.append(f"{work.__name__}: {why}")

        self.threads.append(threading.Thread(target=guarded, daemon=True))
        self.threads[-1].start()

    def join(self):
        for thread in self.threads:
            thread.join(max(0.0, self.until - time.monotonic()) + 60)
        if any(thread.is_alive() for thread in self.threads):
            self.faults.append("a client isn't done a minute after its time")

    # -- those who ask as they should

    def ask(self, name, seed):
        client = conduct.Conduct(name, self.texts, seed)
        for _ in range(CONNECTIONS):
            if self.is_over():
                return
            client.connect()
            self.talk(self.daemon.connect(name), client)

    def talk(self, talk, client):
        """One connection, with each of the three ways to end it."""
        requests = client.start()
        for _ in range(client.rng.randint(1, BURSTS)):
            for request, reply in zip(requests, talk.ask(requests)):
                client.learn(request, reply)
            if self.is_over():
                break
            time.sleep(client.rng.random() * PAUSE)
            requests = client.burst(BURST)
        client.rng.choice([talk.bye, talk.end_input, lambda: talk.cut(False)])()

    # -- the others

    def other(self, receive=None):
        """A connection of somebody whose name nobody else has."""
        with self.lock:
            name = conduct.OTHERS[self.others]
            self.others += 1
        return self.daemon.connect(name, receive), conduct.Conduct(name, self.texts, self.others)

    def add(self, client):
        return conduct.block(b"ADD", client.credential())

    def batch(self, client):
        texts = [client.credential() for _ in range(3)]
        return conduct.block(b"BATCH", b"".join(b"ADD %d\n%s\n" % (len(text), text) for text in texts))

    def cut_off(self):
        """Those who break off in the middle of a block, with and without an answered and an unread update before."""
        for number in range(CUTS):
            if self.is_over():
                return
            talk, client = self.other()
            talk.ask([ADMIN, b"OPEN\n", self.add(client), b"PIN 1\n"])
            half = conduct.block(b"ADD", client.credential())
            unread = [self.add(client) if number % 3 else self.batch(client)] if number % 2 else []
            talk.leave_unread(unread)
            talk.send(half[:len(half) // 2])
            time.sleep(0.01 * (number % 3))
            talk.cut(reset=number % 4 < 2)
            time.sleep(self.seconds / CUTS)

    def read_nothing(self):
        """One that adds and then asks on and on, without ever reading."""
        talk, client = self.other(ROOM)
        talk.leave_unread([ADMIN, b"OPEN\n", self.add(client)])
        talk.socket.settimeout(min(1.0, self.seconds / 4))
        sent = 0
        try:
            while sent < FLOOD:
                sent += talk.socket.send(b"QUERY 1 no,yes\n" * 1000)
        except TimeoutError:
            pass
        if sent >= FLOOD:
            self.faults.append(f"the daemon took {sent} bytes of one who doesn't read")
        time.sleep(max(0.0, self.until - time.monotonic()))
        talk.cut(reset=False)

    def send_endless(self):
        """A line of a megabyte, which is refused once, and whose connection goes on behind its newline, or ends within it."""
        for number in range(LINES):
            if self.is_over():
                return
            talk, client = self.other()
            talk.ask([ADMIN, self.add(client)])
            sent = time.monotonic()
            talk.send(b"A" * ENDLESS)
            talk.say(b"A" * 8193 + b"\n", talk.reply(b"A" * 20), sent)
            if number % 2:
                talk.cut(reset=False)
            else:
                talk.send(b"\n")
                talk.ask([b"OPEN\n", self.add(client), b"PIN 1\n"])
                talk.bye()
            time.sleep(self.seconds / LINES)

    def send_slowly(self):
        """One byte a second, or so many that twenty fit into the time."""
        talk, _ = self.other()
        for request in (b"OPEN\n", b"PIN 1\n", b"BYE\n"):
            for at in range(len(request)):
                if self.is_over():
                    return talk.cut(reset=False)
                if not talk.is_silent():
                    raise Fault(f"{request[:at]!r} is answered before it is whole")
                sent = time.monotonic()
                talk.send(request[at:at + 1])
                time.sleep(0 if at + 1 == len(request) else self.seconds / 20)
            talk.say(request, talk.reply(request), sent)
        talk.expect_end()
