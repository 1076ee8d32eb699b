"""What `serve` does where words, files, the address or the output are at fault, and how its connections end."""

import contextlib
import hashlib
import os
import random
import socket
import subprocess
import sys
import threading
import time

import streams
from serving import conduct
from serving.daemon import Fault
from serving.talk import HOST, LIMIT, Daemon, free_port

EXAMPLES = os.path.join(os.path.dirname(os.path.abspath(__file__)), "..", "..", "examples")

POLICY = b'Authorizer: "POLICY"\nLicensees: "alice"\n'
CREDENTIAL = b'Authorizer: "alice"\nLicensees: "bob"\n'
# requests of a connection
BUDGET = 1_000_000
# random streams
STREAMS = 40
WORDS = (b"error words\n", 1)
LISTENER = (b"error listener\n", 7)


class Room:
    """A folder with the files that the runs name."""

    def __init__(self, folder):
        self.folder = folder
        self.write("p.kn", POLICY)
        self.write("bad.kn", b'Authorizer: "POLICY"\nLicensees: 4-of("x","y","z")\n')
        self.write("keys", b"# the secret is s3cret\nsecret 733363726574\n")
        self.write("bad.keys", b"# keys\nsecret s3cret\n")
        self.write("listed.keys", b"digest %s\nsecret 733363726574\n" % hashlib.sha256(CREDENTIAL).hexdigest().encode())
        os.mkdir(os.path.join(folder, "folder"))
        with open(os.path.join(folder, "large.kn"), "wb") as file:
            file.truncate(16_777_217)

    def write(self, name, text):
        with open(os.path.join(self.folder, name), "wb") as file:
            file.write(text)

    def path(self, name):
        return os.path.join(self.folder, name)


def words_of(port, policy="p.kn", keys=None, workers=None, connections="1"):
    options = {"--policy": policy, "--keys": keys, "--workers": workers, "--connections": connections}
    return [f"127.0.0.1:{port}", *(word for name, value in options.items() if value is not None for word in (name, value))]


def faulty_words(port):
    """Words that are no form of `serve`."""
    good = words_of(port)
    yield "no word behind serve", []
    yield "no address", good[1:]
    yield "no policy", [good[0], "--connections", "1"]
    yield "no number of connections", good[:-2]
    yield "two addresses", [good[0], *good]
    yield "an unknown option", [*good, "--room", "1"]
    yield "an option twice", [*good, "--policy", "p.kn"]
    yield "an option without its value", good[:-1]
    yield "a word that isn't UTF-8", [*good, b"\xff"]
    for workers in ("0", "17", "x", "-1", "+4", "04", "4.0", ""):
        yield f"{workers or 'no'} workers", words_of(port, workers=workers)
    for connections in ("0", "1000001", "x", "-1", "+4", "04", "4294967297", ""):
        yield f"{connections or 'no'} connections", words_of(port, connections=connections)


def faulty_files(port):
    """Files at fault, in the order in which they are read, with the line and the status."""
    yield "the policy file is missing", words_of(port, "none.kn"), b"error file none.kn read\n", 2
    yield "the policy file is a folder", words_of(port, "folder"), b"error file folder read\n", 2
    yield "the policy file is too large", words_of(port, "large.kn"), b"error file large.kn large\n", 2
    yield "the policy is malformed", words_of(port, "bad.kn", "none.keys"), b"error policy bad.kn 1 18 5\n", 3
    yield "the key file is missing", words_of(port, keys="none.keys"), b"error file none.keys read\n", 2
    yield "a key line is malformed", words_of(port, keys="bad.keys"), b"error keys 2\n", 8


def faulty_addresses():
    for address in ("", "nowhere", "127.0.0.1", "127.0.0.1:", "127.0.0.1:65536", "127.0.0.1:x", "[::1]"):
        yield f"the address {address!r}", [address, *words_of(0)[1:]], *LISTENER


class Doors:
    def __init__(self, program, room):
        self.program, self.room = program, Room(room)

    def serve(self, *words, **options):
        return Daemon(self.program, self.room.path("p.kn"), self.room.path("keys"), *words, **options)

    def expect(self, words, output, status, to=subprocess.PIPE):
        """A run of `serve` that ends without a connection."""
        try:
            run = subprocess.run([self.program, "serve", *words], cwd=self.room.folder, stdin=subprocess.DEVNULL, stdout=to, stderr=subprocess.PIPE, timeout=LIMIT)
        except subprocess.TimeoutExpired:
            raise Fault(f"it serves, and {output!r} with status {status} is due") from None
        if (run.stdout or b"", run.returncode, run.stderr) != (output, status, b""):
            raise Fault(f"{run.stdout!r} with status {run.returncode} and {run.stderr!r}, and not {output!r} with {status}")

    # -- before it serves

    def faults(self):
        """Pairs of a name and what is to be tried."""
        port = free_port()
        for name, words in faulty_words(port):
            yield f"words: {name}", lambda words=words: self.expect(words, *WORDS)
        for name, *row in [*faulty_files(port), *faulty_addresses()]:
            yield name, lambda row=row: self.expect(*row)
        yield "the address is in use", self.try_address_in_use
        yield "files are read before the address is bound", lambda: self.try_address_in_use("none.kn", b"error file none.kn read\n", 2)
        yield "an output that is full", self.try_full_output

    def try_address_in_use(self, policy="p.kn", *told):
        with socket.socket() as taken:
            taken.bind(("127.0.0.1", 0))
            taken.listen()
            self.expect(words_of(taken.getsockname()[1], policy), *(told or LISTENER))

    def try_full_output(self):
        if not os.path.exists("/dev/full"):
            return
        with open("/dev/full", "wb") as full:
            self.expect([], b"", 9, full)
            run = self.serve(1, 1, output=full)
            if run.end()[0] != 9:
                raise Fault("the line served can't be written, and the status isn't 9")

    # -- how connections end

    def ends(self):
        yield "fewer connections than workers", lambda: self.try_numbers(16, 2)
        yield "more connections than workers", lambda: self.try_numbers(3, 10)
        yield "a connection has its worker to itself, and four workers are there unless said", self.try_waiting
        yield "the address is free again at once", self.try_again
        yield "without a key file nobody is an administrator", self.try_without_keys
        yield "credentials are added by examples/service/add.py", self.try_adding
        yield "localhost by its name", lambda: self.serve(1, 1, host="localhost").expect_end(1)
        if socket.has_ipv6 and os.path.exists("/proc/net/if_inet6"):
            yield "the loopback of IPv6", lambda: self.serve(1, 1, host="::1").expect_end(1)
        yield "each way in which a connection ends", self.try_ends
        yield "requests that come byte by byte", self.try_single_bytes
        yield "random streams are answered as ask answers them", self.try_streams
        yield "a million requests end a connection", self.try_budget

    def try_numbers(self, workers, connections):
        run = self.serve(workers, connections)
        with contextlib.closing(run):
            run.use_up()
            run.expect_end(1)

    def try_waiting(self):
        run = self.serve(None, 12)
        with contextlib.closing(run):
            held = [run.connect("held") for _ in range(4)]
            for one in held:
                one.ask([b"OPEN\n"])
            late = run.connect("late")
            late.send(b"OPEN\n")
            time.sleep(0.2)
            if not late.is_silent():
                raise Fault("a fifth connection is served beside four that go on")
            held[0].bye()
            if late.reply(b"OPEN\n") != b"OK 1 1\n":
                raise Fault("the fifth connection isn't served when one has ended")
            for one in [*held[1:], late]:
                one.bye()
            run.use_up()
            run.expect_end(1)

    def try_again(self):
        run = self.serve(2, 4)
        with contextlib.closing(run):
            run.use_up()
            run.expect_end(1)
        words = [*words_of(run.address[1], self.room.path("p.kn"))]
        again = subprocess.Popen([self.program, "serve", *words], stdin=subprocess.DEVNULL, stdout=subprocess.PIPE, stderr=subprocess.PIPE)
        run.run, run.left, run.total = again, 1, 1
        with contextlib.closing(run):
            if not run.is_ready():
                raise Fault(f"it isn't served on the same address again: {run.end()}")
            run.expect_end(1)

    def try_without_keys(self):
        run = Daemon(self.program, self.room.path("p.kn"), None, 1, 2)
        with contextlib.closing(run):
            one = run.connect("one")
            replies = one.ask([b"ADMIN 733363726574\n", b"ADMIN 00\n", b"ADMIN \n", conduct.block(b"ADD", POLICY)])
            if replies != [b"NO 4 admin\n", b"NO 4 admin\n", b"NO 1 syntax\n", b"NO 4 admin\n"]:
                raise Fault(f"they are answered {replies}")
            one.bye()
            run.expect_end(1)

    def try_adding(self):
        """The credentials of examples/keys, one of which is admitted by its code and one by its digest."""
        keys, add = os.path.join(EXAMPLES, "keys"), os.path.join(EXAMPLES, "service", "add.py")
        self.room.write("listed.kn", b'Authorizer: "alice"\nLicensees: "bob"\n')
        names = [os.path.join(keys, "signed.kn"), self.room.path("listed.kn"), os.path.join(keys, "policy.kn")]
        run = Daemon(self.program, os.path.join(keys, "policy.kn"), os.path.join(keys, "keys.txt"), 1, 2)
        with contextlib.closing(run):
            words = [sys.executable, add, HOST, str(run.address[1]), os.path.join(keys, "keys.txt"), *names]
            run.left -= 1
            added = subprocess.run(words, stdin=subprocess.DEVNULL, capture_output=True, text=True, timeout=LIMIT)
            replies = [line.rpartition(": ")[2] for line in added.stdout.splitlines()]
            if (replies, added.returncode) != (["OK a2 2", "OK a3 3", "NO 7 auth 1"], 1):
                raise Fault(f"{replies} with status {added.returncode} and {added.stderr!r}")
            run.expect_end(3)

    def try_ends(self):
        """The replies, and what ends the connection: the daemon by itself, or the end of the input."""
        run = self.serve(2, len(ENDS) + 1)
        with contextlib.closing(run):
            for sent, replies, by_itself in ENDS:
                one = run.connect("one")
                one.send(sent)
                heard = [one.reply(sent) for _ in replies]
                if heard != replies:
                    raise Fault(f"{sent!r:.60} is answered {heard}")
                (one.expect_end if by_itself else one.end_input)()
            run.expect_end(1)

    def try_single_bytes(self):
        """Each request is answered behind its last byte, and not before."""
        run = Daemon(self.program, self.room.path("p.kn"), self.room.path("listed.keys"), 1, 2)
        with contextlib.closing(run):
            one = run.connect("one")
            for request, due in BYTE_BY_BYTE:
                for at in range(len(request)):
                    if not one.is_silent():
                        raise Fault(f"{request[:at]!r} is answered before it is whole")
                    one.send(request[at:at + 1])
                reply = one.reply(request)
                if reply != due:
                    raise Fault(f"{request!r} is answered {reply!r}, and not {due!r}")
            one.end_input()
            run.expect_end(3)

    def try_streams(self):
        """Random streams in random pieces, each to a daemon of its own."""
        self.room.write("streamed", streams.KEYS.encode())
        policy, keys = self.room.path("p.kn"), self.room.path("streamed")
        for seed in range(STREAMS):
            rng = random.Random(seed)
            text = streams.stream(rng)
            asked = subprocess.run([self.program, "ask", policy, keys], input=text, capture_output=True, timeout=LIMIT).stdout
            # behind the replies ask tells how the connection ended
            due = b"".join(line for line in asked.splitlines(True) if not line.startswith(b"error link "))
            run = Daemon(self.program, policy, keys, 1, 2)
            with contextlib.closing(run):
                heard = run.connect("one").hear_all(streams.pieces(rng, text, rng.randrange(streams.CUTS)))
                if heard != due:
                    raise Fault(f"stream {seed}, {text!r:.100}, is answered {heard[-100:]!r}, and not {due[-100:]!r}")
                ended = run.end()
                if ended[0] != 0:
                    raise Fault(f"behind stream {seed} the run ends with {ended}")

    def try_budget(self):
        """Empty lines, each of which is refused, up to the last one that is answered."""
        run, reply = self.serve(1, 2), b"NO 2 command\n"
        with contextlib.closing(run):
            one = run.connect("one")
            sender = threading.Thread(target=one.send_pieces, args=([b"\n" * BUDGET],), daemon=True)
            sender.start()
            missing = BUDGET * len(reply)
            while missing > 0 and (piece := one.socket.recv(1 << 20)):
                if piece.strip(reply):
                    raise Fault(f"an empty line is answered {piece!r:.60}")
                missing -= len(piece)
            sender.join(LIMIT)
            if missing:
                raise Fault(f"the connection ends {missing} bytes before its last reply")
            one.expect_end()
            run.expect_end(1)


BYTE_BY_BYTE = [
    (b"OPEN\n", b"OK 1 1\n"),
    (b"ADMIN 733363726574\n", b"OK\n"),
    (b"AUTH 1 bob\n", b"OK\n"),
    (b"WATCH 1 no,yes\n", b"NEWS 0 no 1\n"),
    (b"ASSERT 1 37\n" + CREDENTIAL + b"\n", b"OK p1\n"),
    (b"CRITICAL 1 no,yes\n", b"CRITICAL 1 2\nNEED a1\nNEED p1\nEND\n"),
    (b"RETRACT 1 p1\n", b"OK\n"),
    (b"ADD 37\n" + CREDENTIAL + b"\n", b"OK a2 2\n"),
    (b"NEWS 1\n", b"NEWS 1 yes 2\n"),
    (b"DROP a1\r\n", b"OK 3\n"),
    (b"NEWS 1\r\n", b"NEWS 0 no 3\n"),
    (b"QUERY 1 no,yes\n", b"VALUE 0 no 1 0\nEND\n"),
    (b"UNWATCH 1\n", b"OK\n"),
    (b"NEWS 1\n", b"NO 12 unknown\n"),
]
ASK = b"OPEN\nAUTH 1 alice\nQUERY 1 no,yes\n"
TOLD = [b"OK 1 1\n", b"OK\n", b'VALUE 1 yes 1 1\nROW 1 a1 "POLICY"\nEND\n']
ENDS = [
    (ASK + b"BYE\n", [*TOLD, b"OK\n"], True),
    (ASK, TOLD, False),
    (b"", [], False),
    (b"OPEN\nQUERY 1 no", TOLD[:1], False),
    (b"OPEN\nASSERT 1 37\nAuthorizer: \"alice\"", TOLD[:1], False),
    (b"OPEN\nASSERT 1 16385\n", [*TOLD[:1], b"NO 15 block\n"], True),
    (b"OPEN\nASSERT 1 1\nab", [*TOLD[:1], b"NO 15 block\n"], True),
    (b"A" * 9000, [b"NO 14 long\n"], False),
    (b"A" * 9000 + b"\nOPEN\n", [b"NO 14 long\n", b"OK 1 1\n"], False),
]
