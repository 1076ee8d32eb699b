"""A daemon that is started again and again, administrators who change its credentials, and files of its log."""

import os
import random
import re
import subprocess
import sys
import threading
import time

import protocol
from serving import talk
from serving.daemon import make_assertion

TOP = os.path.dirname(os.path.dirname(os.path.abspath(__file__)))
CLIENT = [sys.executable, "-B", os.path.join(TOP, "clients", "python", "keynoted.py")]
SECRET = b"733363726574"
KEY = b"\x0b\x0b"
POLICY = b'Authorizer: "POLICY"\nLicensees: "alice"\n\nAuthorizer: "POLICY"\nLicensees: "carol"\n'
LOG = re.compile(rb"LOG (\d+) (\d+) (\d+)\n")
UPDATE = re.compile(rb"UPDATE (\d+) (\d+)\n")
# the most seconds that anything may take on a busy machine
PATIENCE = 300


class Wrong(Exception):
    """What was seen isn't what it has to be."""


def credential(number):
    """A credential by alice, another one for each number."""
    return make_assertion("alice", f"friend {number}", [(number % 9, "yes")], f"number {number}", KEY).text


class Administrator(threading.Thread):
    """Changes credentials until `ends` is set, or the daemon is killed.

    `made` are the updates that it was answered, by version, each as the number of its changes and its items. Its
    credentials have the numbers of `supply`, which several share.
    """

    def __init__(self, address, seed, supply, mine):
        super().__init__(daemon=True)
        self.address, self.random, self.supply = address, random.Random(seed), supply
        # the numbers of live credentials that no other one drops
        self.made, self.mine, self.refused = {}, mine, ""
        self.ends, self.most = threading.Event(), float("inf")  # how many updates it may make by now

    def run(self):
        try:
            with talk.open_socket(self.address, None) as link:
                self.exchange(link, b"ADMIN %b\n" % SECRET)
                while not self.ends.is_set():
                    if len(self.made) < self.most:
                        self.change(link)
                    time.sleep(self.random.random() / 10)
        except OSError:
            pass  # the daemon was killed

    def change(self, link):
        items = [self.item() for _ in range(self.random.choice((1, 1, 1, 2, 5, 12)))]
        block = b"".join(items)
        if len(items) > 1:
            request = b"BATCH %d\n%b\n" % (len(block), block)
        else:
            request = block
        reply = self.exchange(link, request)
        words = reply.split()
        if words[0] != b"OK":
            self.refused = f"{reply!r} to {request!r}"
            raise OSError(self.refused)
        self.made[int(words[-1])] = (len(items), block)
        count = sum(it.startswith(b"ADD") for it in items)
        first = int(words[1][1:]) if count else 0
        self.mine += range(first, first + count)

    def item(self):
        if self.random.random() * 200 < min(150, len(self.mine)):
            return b"DROP a%d\n" % self.mine.pop(self.random.randrange(len(self.mine)))
        text = credential(next(self.supply))
        return b"ADD %d\n%b\n" % (len(text), text)

    def exchange(self, link, request):
        link.sendall(request)
        heard = b""
        while True:
            piece = link.recv(1 << 16)
            if not piece:
                raise OSError("the connection ended")
            heard += piece
            reply, heard = talk.take_reply(heard)
            if reply:
                return reply


class Daemon:
    """A daemon over the files of a folder, always at one address."""

    def __init__(self, program, room):
        self.room, self.port = room, talk.free_port()
        self.words = [program, "serve", f"127.0.0.1:{self.port}", "--policy", f"{room}/policy"]
        self.words += ["--keys", f"{room}/keys", "--workers", "6", "--connections", "100000"]
        self.address = ("127.0.0.1", self.port)
        self.process = None

    def start(self):
        self.process = subprocess.Popen(self.words, stdout=subprocess.DEVNULL)

    def kill(self):
        self.process.kill()
        self.process.wait()

    def run(self, *words):
        """Runs a command of the client, which has to end well."""
        run = subprocess.run(self.command(*words), capture_output=True, text=True, timeout=PATIENCE)
        if run.returncode:
            raise Wrong(f"{words[0]} ends with {run.returncode}: {run.stderr.strip()}")
        return run.stdout

    def command(self, *words):
        return [*CLIENT, *words, "--connect", f"127.0.0.1:{self.port}", "--keys", f"{self.room}/keys"]

    def follow(self, file):
        return subprocess.Popen(self.command("log", "--follow", file), stderr=subprocess.DEVNULL)


def updates_of(data):
    """The updates of replies to LOG, and where these end: each as its caller, how many changes, and its items."""
    updates, at = [], 0
    while True:
        end = protocol.end_of_reply(data, at)
        if not end:
            return updates, at
        head = LOG.match(data, at)
        if not head or int(head[1]) != len(updates):
            raise Wrong(f"the file has a gap at {at}")
        if not 0 < int(head[2]) == min(16, int(head[3]) - int(head[1])):
            raise Wrong(f"the reply at {at} tells {int(head[2])} updates")
        at = head.end()
        for _ in range(int(head[2])):
            line = UPDATE.match(data, at)
            _, after = protocol.split_items(data, line.end(), int(line[2]))
            updates.append((int(line[1]), int(line[2]), data[line.end():after]))
            at = after
        at = end


def read(name):
    if not os.path.exists(name):
        return b""
    with open(name, "rb") as file:
        return file.read()


def await_length(file, length, follower):
    """Waits until so many updates are in the file."""
    end = time.monotonic() + PATIENCE
    while len(updates_of(read(file))[0]) < length:
        if time.monotonic() > end or follower.poll() is not None:
            raise Wrong(f"the follower doesn't come to {length} updates")
        time.sleep(0.1)


def write_files(room):
    """A policy and the key file of its administrators."""
    for name, text in (("policy", POLICY), ("keys", b"mac 0b0b alice\nsecret %b\n" % SECRET)):
        with open(os.path.join(room, name), "wb") as file:
            file.write(text)
