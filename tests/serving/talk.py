"""The daemon as a program on a free port of the loopback, and connections to it that keep what was said and when."""

import contextlib
import os
import select
import socket
import struct
import subprocess
import threading
import time

import protocol
from serving.daemon import Fault
from serving.history import Exchange, Transcript

# the most seconds that a reply, a start or an end may take
LIMIT = 20
# how often a start is tried where the port was taken meanwhile
STARTS = 5
HOST = "127.0.0.1"


def free_port(host=HOST):
    with socket.create_server((host, 0), family=socket.AF_INET6 if ":" in host else socket.AF_INET) as taken:
        return taken.getsockname()[1]


def take_reply(heard):
    """The first reply of these bytes and the rest; no reply where it isn't whole yet."""
    end = protocol.end_of_reply(heard, 0)
    return (heard[:end], heard[end:]) if end else (None, heard)


def open_socket(address, receive):
    """A connected socket, with so much room for replies where that is said. A name is tried with each of its addresses."""
    for family, sort, _, _, place in socket.getaddrinfo(*address, type=socket.SOCK_STREAM):
        made = socket.socket(family, sort)
        made.settimeout(LIMIT)
        if receive:
            made.setsockopt(socket.SOL_SOCKET, socket.SO_RCVBUF, receive)
        made.setsockopt(socket.IPPROTO_TCP, socket.TCP_NODELAY, 1)
        try:
            made.connect(place)
            return made
        except OSError as why:
            made.close()
            fault = why
    raise fault


class Talk:
    """A connection of a client."""

    def __init__(self, address, client, receive=None):
        self.transcript, self.heard = Transcript(client, []), b""
        self.socket = open_socket(address, receive)

    def say(self, request, reply, sent, heard=None):
        """Keeps an exchange."""
        self.transcript.exchanges.append(Exchange(request, reply, sent, heard or time.monotonic()))

    def send(self, text):
        self.socket.sendall(text)

    def reply(self, request):
        """The next reply."""
        while True:
            reply, self.heard = take_reply(self.heard)
            if reply is not None:
                return reply
            try:
                piece = self.socket.recv(65536)
            except OSError as why:
                raise Fault(f"{self.transcript.client}: no reply to {request!r:.60}: {why}") from None
            if not piece:
                raise Fault(f"{self.transcript.client}: the connection ended before the reply to {request!r:.60}")
            self.heard += piece

    def ask(self, requests):
        """Sends these requests at once, and reads their replies."""
        sent, replies = time.monotonic(), []
        self.send(b"".join(requests))
        for request in requests:
            replies.append(self.reply(request))
            self.say(request, replies[-1], sent)
        return replies

    def leave_unread(self, requests):
        """Sends these requests, whose replies nobody is to read."""
        sent = time.monotonic()
        self.send(b"".join(requests))
        for request in requests:
            self.say(request, None, sent)

    def is_silent(self):
        """Whether no byte of a reply is there."""
        return not self.heard and not select.select([self.socket], [], [], 0)[0]

    def expect_end(self):
        """The daemon ends the connection, and nothing stands behind the last reply."""
        try:
            piece = self.heard or self.socket.recv(65536)
        except ConnectionResetError:
            piece = b""
        except OSError as why:
            raise Fault(f"{self.transcript.client}: the daemon doesn't end the connection: {why}") from None
        if piece:
            raise Fault(f"{self.transcript.client}: {piece!r:.60} stands behind the last reply")
        self.socket.close()

    def send_pieces(self, pieces):
        """Sends these pieces one by one, until the daemon ends the connection."""
        try:
            for piece in pieces:
                self.send(piece)
        except OSError:
            pass

    def hear_all(self, pieces):
        """Sends these pieces and ends the input: all that comes until the daemon ends the connection."""
        def send():
            self.send_pieces(pieces)
            with contextlib.suppress(OSError):
                self.socket.shutdown(socket.SHUT_WR)

        sender, heard = threading.Thread(target=send, daemon=True), b""
        sender.start()
        # a connection that ends with bytes unread is reset
        with contextlib.suppress(ConnectionResetError):
            while piece := self.socket.recv(65536):
                heard += piece
        sender.join(LIMIT)
        return heard

    def bye(self):
        self.ask([b"BYE\n"])
        self.expect_end()

    def end_input(self):
        """Ends the input behind a whole request."""
        self.socket.shutdown(socket.SHUT_WR)
        self.expect_end()

    def cut(self, reset):
        """Breaks off: with a reset, which throws away what wasn't read, or by closing."""
        if reset:
            self.socket.setsockopt(socket.SOL_SOCKET, socket.SO_LINGER, struct.pack("ii", 1, 0))
        self.socket.close()


class Daemon:
    """A run of `serve`, which ends by itself once it has served as many connections as it is told."""

    def __init__(self, program, policy, keys, workers, connections, host=HOST, output=subprocess.PIPE, limit=None, environment=None):
        """A call of `limit` in the process of the run comes before the program starts, which has these variables besides."""
        self.left, self.total, self.lock, self.talks = connections, connections, threading.Lock(), []
        words = ["--policy", policy, *(["--keys", keys] if keys else []), *(["--workers", str(workers)] if workers else [])]
        for _ in range(STARTS):
            self.address = (host, free_port(host))
            spelled = f"[{host}]:{self.address[1]}" if ":" in host else f"{host}:{self.address[1]}"
            self.run = subprocess.Popen(
                [program, "serve", spelled, *words, "--connections", str(connections)],
                stdin=subprocess.DEVNULL, stdout=output, stderr=subprocess.PIPE, preexec_fn=limit,
                env={**os.environ, **(environment or {})},
            )
            if self.is_ready():
                return
            self.kill()
        raise Fault(f"the daemon doesn't come up on {spelled}")

    def is_ready(self):
        """Waits for the first connection, which says BYE; false where the program ended, nothing came, or somebody else
        was about to leave the port."""
        end = time.monotonic() + LIMIT
        while self.run.poll() is None and time.monotonic() < end:
            try:
                self.connect("first").bye()
                return True
            except Fault:
                return False
            except OSError:
                with self.lock:
                    self.left += 1
                time.sleep(0.02)
        return False

    def connect(self, client, receive=None):
        with self.lock:
            if self.left == 0:
                raise Fault(f"{client} wants a connection more than the {self.total} that are served")
            self.left -= 1
        talk = Talk(self.address, client, receive)
        with self.lock:
            self.talks.append(talk)
        return talk

    def transcripts(self):
        return [talk.transcript for talk in self.talks]

    def use_up(self):
        """Makes the connections that are left, short ones, a few at once."""
        def short():
            try:
                while True:
                    self.connect("last").bye()
            except (Fault, OSError):
                pass

        threads = [threading.Thread(target=short) for _ in range(4)]
        for thread in threads:
            thread.start()
        for thread in threads:
            thread.join(3 * LIMIT)

    def end(self):
        """Waits until the run ends by itself: its status, output and errors."""
        try:
            output, errors = self.run.communicate(timeout=LIMIT)
        except subprocess.TimeoutExpired:
            self.kill()
            raise Fault(f"the run doesn't end {LIMIT} s after its last connection, with {self.left} left") from None
        return self.run.returncode, output, errors

    def expect_end(self, version):
        """The run ends with status 0 and its one line."""
        ended = self.end()
        if ended != (0, b"served %d version %d\n" % (self.total, version), b""):
            raise Fault(f"the run ends with {ended}, and not with status 0 and served {self.total} version {version}")

    def close(self):
        """Ends what a fault has left."""
        for talk in self.talks:
            talk.socket.close()
        self.kill()

    def kill(self):
        if self.run.poll() is None:
            os.kill(self.run.pid, 9)
        self.run.wait()
        for pipe in (self.run.stdout, self.run.stderr):
            if pipe:
                pipe.close()
