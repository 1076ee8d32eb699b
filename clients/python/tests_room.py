"""What the tests of the client stand on: a folder with a policy, the built program, and a daemon that can fail."""

import contextlib
import io
import os
import re
import shutil
import socket
import subprocess
import sys
import tempfile
import threading
import time
import unittest

HERE = os.path.dirname(os.path.abspath(__file__))
sys.path.insert(0, HERE)
import keynoted.command  # noqa: E402
from keynoted import link  # noqa: E402

TOP = os.path.dirname(os.path.dirname(HERE))
PROGRAM = os.path.abspath(os.environ.get("KEYNOTED") or os.path.join(TOP, "crates", "keynoted", "out", "keynoted"))
POLICY = b'Authorizer: "POLICY"\nLicensees: "alice"\n'
CREDENTIAL = b'Authorizer: "alice"\nLicensees: "bob"\n'


class Room(unittest.TestCase):
    """A test in a folder of its own, with a policy p.kn and a key file keys."""

    def setUp(self):
        os.environ["KEYNOTED"] = PROGRAM
        self.room = tempfile.mkdtemp()
        self.addCleanup(shutil.rmtree, self.room)
        self.addCleanup(os.chdir, os.getcwd())
        os.chdir(self.room)
        self.write("p.kn", POLICY)
        self.write("keys", b"mac 0b0b alice\nsecret 733363726574\n")

    def write(self, name, text):
        with open(name, "wb") as file:
            file.write(text)

    def command(self, *words):
        """The status of a command of the client, and what it prints on both outputs."""
        out, errors = io.StringIO(), io.StringIO()
        with contextlib.redirect_stdout(out), contextlib.redirect_stderr(errors):
            status = keynoted.command.main(words)
        return status, out.getvalue(), errors.getvalue()

    def daemon_line(self, text):
        """The first line that the daemon prints over this policy."""
        self.write("policy.kn", text)
        run = subprocess.run([PROGRAM, "ask", "policy.kn"], stdin=subprocess.DEVNULL, stdout=subprocess.PIPE)
        return run.stdout.decode().rstrip("\n")

    def serve(self, port=0, workers=4):
        """A daemon that serves p.kn and keys over TCP on the loopback, and its address."""
        port = port or free_port()
        words = [PROGRAM, "serve", f"127.0.0.1:{port}", "--policy", "p.kn", "--keys", "keys", "--workers", str(workers),
                 "--connections", "1000000"]
        process = subprocess.Popen(words, stdin=subprocess.DEVNULL, stdout=subprocess.DEVNULL)
        self.addCleanup(process.wait)
        self.addCleanup(process.kill)
        deadline = time.monotonic() + 20
        while time.monotonic() < deadline:
            with contextlib.suppress(OSError), socket.create_connection(("127.0.0.1", port), 5) as first:
                first.sendall(b"BYE\n")
                if first.recv(3) == b"OK\n":
                    return process, f"127.0.0.1:{port}"
            time.sleep(0.02)
        self.fail("the daemon isn't up")

    def fake(self, **how):
        daemon = Fake(**how)
        self.addCleanup(daemon.stop)
        return daemon


def free_port():
    with socket.create_server(("127.0.0.1", 0)) as listener:
        return listener.getsockname()[1]


class Fake:
    """A daemon in this process: alice alone has the highest value. It can be slow, say other things, or end."""

    def __init__(self, delay=0.0, say=None, port=0, host="127.0.0.1", most=10**9):
        self.delay, self.say, self.most = delay, say or {}, most
        self.requests, self.links, self.accepted = [], [], 0
        family = socket.AF_INET6 if ":" in host else socket.AF_INET
        self.listener = socket.create_server((host, port), family=family)
        self.port = self.listener.getsockname()[1]
        self.address = f"[{host}]:{self.port}" if ":" in host else f"{host}:{self.port}"
        threading.Thread(target=self.accept, daemon=True).start()

    def accept(self):
        with contextlib.suppress(OSError):
            while True:
                link = self.listener.accept()[0]
                link.setsockopt(socket.IPPROTO_TCP, socket.TCP_NODELAY, 1)
                self.links.append(link)
                self.accepted += 1
                threading.Thread(target=self.answer_all, args=(link,), daemon=True).start()

    def stop(self):
        with contextlib.suppress(OSError):
            self.listener.shutdown(socket.SHUT_RDWR)
        self.listener.close()
        for link in self.links:
            with contextlib.suppress(OSError):
                link.shutdown(socket.SHUT_RDWR)

    def answer_all(self, link):
        with contextlib.suppress(OSError), link, link.makefile("rb") as lines:
            sessions, count = {}, 0
            for line in lines:
                line, count = line.rstrip(b"\r\n"), count + 1
                words, block = line.split(b" "), b""
                if words[0] in (b"ASSERT", b"ADD", b"BATCH"):
                    block = lines.read(int(words[-1]) + 1)[:-1]
                self.requests.append(line)
                reply = self.say.get(words[0]) or self.reply(sessions, words, line, block)
                if self.delay:
                    time.sleep(self.delay)
                link.sendall(reply + (b"\nerror link budget\n" if count == self.most else b"\n"))
                if words[0] == b"BYE" or count == self.most:
                    return

    def reply(self, sessions, words, line, _):
        if words[0] == b"OPEN":
            sessions[b"%d" % (len(sessions) + 1)] = {"who": set(), "made": 0, "private": set()}
            return b"OK %d 1" % len(sessions)
        if words[0] == b"BYE":
            return b"OK"
        session = sessions[words[1]]
        if words[0] == b"CLEAR":
            session["who"].clear()
        elif words[0] == b"PIN":
            return b"OK 1"
        elif words[0] == b"ASSERT":
            session["made"] += 1
            session["private"].add(b"p%d" % session["made"])
            return b"OK p%d" % session["made"]
        elif words[0] == b"RETRACT":
            if words[2] not in session["private"]:
                return b"NO 12 unknown"
            session["private"].remove(words[2])
        elif words[0] == b"AUTH":
            session["who"].add(line.split(b" ", 2)[2])
        elif words[0] == b"QUERY":
            values = words[2].split(b",")
            index = len(values) - 1 if b"alice" in session["who"] else 0
            return b"VALUE %d %b 1 0\nEND" % (index, values[index])
        return b"OK"


def talk(*replies):
    """A connection whose daemon answers each exchange by the next of these texts, and ends behind the last."""
    ours, theirs = socket.socketpair()

    def answer():
        with theirs:
            for reply in replies:
                if not theirs.recv(1 << 20):
                    return
                theirs.sendall(reply)

    threading.Thread(target=answer, daemon=True).start()
    return keynoted.Connection(link.Link(ours, ours))


def version_of_the_repository():
    with open(os.path.join(TOP, "CHANGELOG.md"), encoding="utf-8") as file:
        return re.search(r"^## (.*)$", file.read(), re.M)[1]
