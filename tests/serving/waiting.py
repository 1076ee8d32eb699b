"""What `serve` does where clients are slow, stop or reset, are idle for too long, and where descriptors lack."""

import contextlib
import os
import resource
import shutil
import socket
import subprocess
import threading
import time

from serving.daemon import Fault
from serving.doors import ASK, POLICY, Room, words_of
from serving.talk import LIMIT, Daemon, free_port

# the requests of a connection, each with its reply
ASKED = [
    (b"OPEN\n", b"OK 1 1\n"),
    (b"AUTH 1 alice\n", b"OK\n"),
    (b'ASSERT 1 37\nAuthorizer: "alice"\nLicensees: "bob"\n\n', b"OK p1\n"),
    (b"QUERY 1 no,yes\n", b'VALUE 1 yes 1 1\nROW 1 a1 "POLICY"\nEND\n'),
    (b"\n", b"NO 2 command\n"),
    (b"ADD 13\nno assertion.\n", b"NO 4 admin\n"),
    (b"PIN 1\n", b"OK 1\n"),
]
# requests at once, whose replies are many times what is gathered
MANY = 20_000
# what has many times its bytes of replies
FLOOD = ASK + b"\n" * 50_000
# resets while replies are written, and connections of a run, by which no worker's share is used up
RESETS, ENOUGH = 40, 200
# descriptors of a run that leave room for four connections
FEW = 8
# errors of accept(2): those that nothing mends, and how often in a row each other one comes
FINAL = ("EBADF", "EFAULT", "EINVAL", "ENOTSOCK", "EOPNOTSUPP")
AGAIN = {
    **dict.fromkeys(("ECONNABORTED", "EPROTO", "EPERM", "EINTR", "ENETDOWN", "ENOPROTOOPT", "EHOSTDOWN", "ENONET", "EHOSTUNREACH", "ENETUNREACH", "ETIMEDOUT"), 200),
    **dict.fromkeys(("EMFILE", "ENFILE", "ENOBUFS", "ENOMEM", "EAGAIN", "ENOSR"), 5),
}
IDLE = "KEYNOTED_IDLE_SECONDS"
IDLE_LINE = b"keynoted: KEYNOTED_IDLE_SECONDS isn't a number from 1 to 86400\n"


class Waiting:
    def __init__(self, program, room):
        self.program, self.room = program, Room(room)

    def serve(self, *words, **options):
        return Daemon(self.program, self.room.path("p.kn"), self.room.path("keys"), *words, **options)

    def cases(self):
        """Pairs of a name and what is to be tried."""
        yield "requests of one byte at a time", self.try_bytes
        yield "a part of a request behind whole ones", self.try_parts
        yield "one that stops sending", self.try_stopping
        yield "more replies than are gathered", self.try_many
        yield "peers that reset while replies are written", self.try_resets
        yield "descriptors lack and come back", self.try_descriptors
        if shutil.which("strace"):
            for error, times in AGAIN.items():
                yield f"an accept that fails by {error}, {times} times", lambda error=error, times=times: self.try_again(error, times)
            for error in FINAL:
                yield f"an accept that fails by {error}", lambda error=error: self.try_final(error)
        else:
            print("errors of accept are left out: they want strace")
        yield "idle connections end where a time is set", self.try_idle
        yield "a connection of which nothing is read ends where a time is set", self.try_unread
        for value in ("", "0", "86401", "x", "-1", "+5", "05", "1.5", " 5", "5\n", "99999999999", b"\xff"):
            yield f"a time that is {value!r}", lambda value=value: self.try_wrong_time(value)
        yield "a time for ask, which has none", self.try_time_of_ask

    # -- slow and stopped clients

    def try_bytes(self):
        """No reply comes before its request is whole, and each comes before anything else is sent."""
        run = self.serve(1, 2)
        with contextlib.closing(run):
            one = run.connect("one")
            for request, reply in ASKED:
                for at in range(len(request)):
                    if not one.is_silent():
                        raise Fault(f"{request[:at]!r} is answered before it is whole")
                    one.send(request[at:at + 1])
                self.expect(one, request, reply)
            one.bye()
            run.expect_end(1)

    def try_parts(self):
        """However many whole requests and however much of the next one are sent at once, the whole ones are answered."""
        connections = sum(len(request) for request, _ in ASKED)
        run = self.serve(2, connections + 1)
        with contextlib.closing(run):
            for place, (request, reply) in enumerate(ASKED):
                for at in range(len(request)):
                    one = run.connect("one")
                    one.send(b"".join(whole for whole, _ in ASKED[:place]) + request[:at])
                    for whole, told in ASKED[:place]:
                        self.expect(one, whole, told)
                    one.send(request[at:])
                    self.expect(one, request, reply)
                    one.bye()
            run.expect_end(1)

    def try_stopping(self):
        """Its replies come, and it may go on later; others are served meanwhile."""
        run = self.serve(2, ENOUGH)
        with contextlib.closing(run):
            one, other = run.connect("one"), run.connect("other")
            one.send(ASK + b"QUERY 1 ")
            for reply in (ASKED[0][1], ASKED[1][1], ASKED[3][1]):
                self.expect(one, ASK, reply)
            for _ in range(10):
                other.ask([b"OPEN\n", b"CLOSE 1\n", b"\n"])
                time.sleep(0.1)
            if not one.is_silent():
                raise Fault("half a request is answered")
            one.send(b"no,yes\n")
            self.expect(one, ASK, ASKED[3][1])
            one.bye()
            other.bye()
            run.use_up()
            run.expect_end(1)

    def try_many(self):
        """Each reply of a session's assertions tells its own number, so none is lost, doubled or out of its place."""
        text = b'Authorizer: "alice"\nLicensees: "bob"\n'
        run = self.serve(1, 2)
        with contextlib.closing(run):
            one = run.connect("one")
            pieces = [b"OPEN\n", *(b"ASSERT 1 %d\n%s\nRETRACT 1 p%d\n" % (len(text), text, k) for k in range(1, MANY + 1))]
            due = b"OK 1 1\n" + b"".join(b"OK p%d\nOK\n" % k for k in range(1, MANY + 1))
            heard = one.hear_all([b"".join(pieces)])
            if heard != due:
                at = next((i for i, (a, b) in enumerate(zip(heard, due)) if a != b), min(len(heard), len(due)))
                raise Fault(f"{len(heard)} bytes come, and {len(due)} are due; from byte {at} on {heard[at:at + 60]!r}")
            run.expect_end(1)

    def try_resets(self):
        """Peers that ask much, read nothing and reset; the other worker's client is answered, and so are those who come later."""
        run = self.serve(2, ENOUGH)
        with contextlib.closing(run):
            one = run.connect("one")
            one.ask([b"OPEN\n", b"AUTH 1 alice\n"])
            for number in range(RESETS):
                broken = run.connect("broken", 4096)
                broken.socket.settimeout(0.2)
                with contextlib.suppress(TimeoutError):
                    for _ in range(number % 8 + 1):
                        broken.send(FLOOD)
                time.sleep(0.005 * (number % 5))
                broken.cut(reset=number % 4 < 3)
                if one.ask([b"QUERY 1 no,yes\n"]) != [ASKED[3][1]]:
                    raise Fault("one is answered otherwise while another resets")
            late = run.connect("late")
            late.ask([b"OPEN\n"])
            late.bye()
            one.bye()
            run.use_up()
            run.expect_end(1)

    def expect(self, talk, request, reply):
        heard = talk.reply(request)
        if heard != reply:
            raise Fault(f"{request!r:.60} is answered {heard!r:.60}, and not {reply!r:.60}")

    # -- descriptors

    def try_descriptors(self):
        """Eight workers of which four have no descriptor; all of them answer when there are more."""
        hard = resource.getrlimit(resource.RLIMIT_NOFILE)[1]
        run = self.serve(8, ENOUGH, limit=lambda: resource.setrlimit(resource.RLIMIT_NOFILE, (FEW, hard)))
        with contextlib.closing(run):
            held = [run.connect("held") for _ in range(8)]
            for one in held:
                one.send(b"OPEN\n")
            time.sleep(1)
            answered = [one for one in held if not one.is_silent()]
            if len(answered) != FEW - 4:
                raise Fault(f"{len(answered)} of 8 are answered with {FEW} descriptors")
            resource.prlimit(run.run.pid, resource.RLIMIT_NOFILE, (64, hard))
            for one in held:
                self.expect(one, b"OPEN\n", b"OK 1 1\n")
            for one in held:
                one.bye()
            again = [run.connect("again") for _ in range(8)]
            for one in again:
                one.ask([b"OPEN\n"])
            for one in again:
                one.bye()
            run.use_up()
            run.expect_end(1)

    # -- errors of accept

    def faulty(self, error, times):
        """The program under strace, where its first calls of accept fail."""
        name = self.room.path("faulty")
        inject = f"inject=accept4:error={error}:when=1..{times}"
        self.room.write("faulty", f'#!/bin/sh\nexec strace -f -qq -o /dev/null -e trace=accept4 -e {inject} "{self.program}" "$@"\n'.encode())
        os.chmod(name, 0o755)
        return name

    def try_again(self, error, times):
        """Each of the workers meets some of the errors, and all are there afterwards."""
        run = Daemon(self.faulty(error, times), self.room.path("p.kn"), None, 4, ENOUGH)
        with contextlib.closing(run):
            held = [run.connect("held") for _ in range(4)]
            for one in held:
                one.ask([b"OPEN\n"])
            for one in held:
                one.bye()
            run.use_up()
            run.expect_end(1)

    def try_final(self, error):
        """The one worker ends, and nobody was served."""
        words = words_of(free_port(), self.room.path("p.kn"), workers="1")
        ran = subprocess.run([self.faulty(error, 1), "serve", *words], stdin=subprocess.DEVNULL, capture_output=True, timeout=LIMIT)
        if (ran.stdout, ran.returncode) != (b"error listener\n", 7):
            raise Fault(f"{ran.stdout!r} with status {ran.returncode}")

    # -- idle connections

    def try_idle(self):
        """With a second: a silent one ends, which has sent half a request or none; one that sends in time goes on."""
        run = self.serve(1, 4, environment={IDLE: "1"})
        with contextlib.closing(run):
            for sent in (b"", b"OPEN\nQUERY 1 "):
                one, start = run.connect("one"), time.monotonic()
                one.send(sent)
                if sent:
                    self.expect(one, sent, b"OK 1 1\n")
                one.expect_end()
                spent = time.monotonic() - start
                if not 0.9 < spent < 5:
                    raise Fault(f"a connection that is silent ends after {spent:.1f} s")
            one = run.connect("one")
            for _ in range(6):
                time.sleep(0.5)
                one.ask([b"OPEN\n"])
            one.bye()
            run.expect_end(1)

    def try_unread(self):
        """One that asks on and on and reads nothing holds its worker for a second or two, and then the next one has it."""
        run = self.serve(1, 3, environment={IDLE: "1"})
        with contextlib.closing(run):
            one = run.connect("one", 4096)
            one.socket.settimeout(0.5)
            with contextlib.suppress(OSError):
                while True:
                    one.send(FLOOD)
            late = run.connect("late")
            # a slow program takes its time to fill the system's buffers
            late.socket.settimeout(3 * LIMIT)
            late.ask([b"OPEN\n"])
            late.bye()
            one.socket.close()
            run.expect_end(1)

    def try_wrong_time(self, value):
        for words in (["serve", *words_of(free_port(), self.room.path("p.kn"))], ["ask", self.room.path("p.kn")]):
            ran = self.run_with(value, words)
            if ran != (b"", 1, IDLE_LINE):
                raise Fault(f"{words[0]} ends with {ran}")

    def try_time_of_ask(self):
        for value in ("1", "86400"):
            ran = self.run_with(value, ["ask", self.room.path("p.kn")])
            if ran != (b"OK 1 1\nOK\n" + ASKED[3][1], 0, b""):
                raise Fault(f"ask ends with {ran}")

    def run_with(self, value, words):
        environment = {**os.environb, IDLE.encode(): os.fsencode(value)}
        ran = subprocess.run([self.program, *words], env=environment, input=ASK, capture_output=True, timeout=LIMIT)
        return ran.stdout, ran.returncode, ran.stderr
