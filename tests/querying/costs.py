"""What a query costs: conditions that it doesn't reach are not evaluated, and what the workers of `serve` keep."""

import string
import subprocess
import threading
import time

from serving import talk
from serving.daemon import Fault

CREDENTIALS, TEXT_BYTES = 2048, 4096
# the most milliseconds of a query that reaches one condition, how many times as long one that reaches all has to take,
# how often the first is asked, and of how many connections
REACHED_MS, RATIO, ASKED, CONNECTIONS = 3, 100, 20, 5
# the longest value of an attribute, and so many times it is the longest text of a condition
VALUE_BYTES, JOINED = 4096, 16
WORKERS, MOST_MIB, ROUNDS = 16, 512, 5
# a base of more nodes isn't kept, and a query that builds one for itself takes so many bytes for each of its nodes
KEPT_NODES, BYTES_A_NODE = 262144, 20
ALPHABET = string.ascii_letters + string.digits


def fill(text):
    """The text with a comment that makes it as long as it may be."""
    room = TEXT_BYTES - len(text) - len("Comment: \n")
    return f"Comment: {'x' * room}\n{text}" if room >= 0 else text


# -- conditions


def slow_conditions(room):
    """Tests that each join a long text, compare it, and give nothing; so many as there is room for."""
    test = f"({'.'.join('v' * JOINED)})==_MIN_TRUST;"
    return "Conditions: " + test * ((room - len("Conditions: true;\n")) // len(test)) + "true;\n"


def slow_credential(authorizer, licensees):
    text = f'Authorizer: "{authorizer}"\nLicensees: {licensees}\n'
    return text + slow_conditions(TEXT_BYTES - len(text) - 1)


def slow_policy():
    """A credential that licenses `one` and `all`, and others that license `all`."""
    others = [slow_credential(f"b{i}", '"all"') for i in range(CREDENTIALS - 1)]
    return "\n".join([slow_credential("POLICY", '"one" || "all"'), *others])


class Asking:
    """A start of `ask` with a session of one requester, whose attribute is a long text."""

    def __init__(self, program, policy, requester):
        self.run = subprocess.Popen([program, "ask", policy], stdin=subprocess.PIPE, stdout=subprocess.PIPE, bufsize=0)
        self.asked = 0
        for request in ("OPEN", f"SET 1 v {'x' * VALUE_BYTES}", f"AUTH 1 {requester}"):
            self.exchange(request, b"OK")

    def exchange(self, request, wanted, ending=b"\n"):
        """The milliseconds until the whole reply was read."""
        begun = time.perf_counter()
        self.run.stdin.write(request.encode() + b"\n")
        reply = self.run.stdout.read(1 << 20)
        while reply and not reply.endswith(ending):
            reply += self.run.stdout.read(1 << 20)
        spent = 1000 * (time.perf_counter() - begun)
        if not reply.startswith(wanted):
            raise Fault(f"{request!r:.60} is answered {reply!r:.100}")
        return spent

    def query(self):
        """The milliseconds of a question that isn't the last one again."""
        self.asked += 1
        self.exchange(f"SET 1 turn {self.asked}", b"OK")
        return self.exchange("QUERY 1 no,yes", b"VALUE 1 yes ", b"END\n")

    def close(self):
        self.run.stdin.close()
        self.run.stdout.close()
        self.run.wait()


def least_times(program, policy, requester, before, asked, connections):
    """The least milliseconds of the first query of a connection, and of those after it."""
    firsts, nexts = [], []
    for _ in range(connections):
        asking = Asking(program, policy, requester)
        for request in before:
            asking.exchange(request, b"OK")
        firsts.append(asking.query())
        nexts += [asking.query() for _ in range(asked)]
        asking.close()
    return min(firsts), min(nexts)


def try_conditions(program, put):
    """Prints what queries take that reach one slow condition and all of them, and gives what is wrong, or None."""
    policy, private = put("slow.kn", slow_policy().encode()), slow_credential("c", '"all"')
    first, one = least_times(program, policy, "one", [], ASKED, CONNECTIONS)
    _, beside = least_times(program, policy, "one", [f"ASSERT 1 {len(private)}\n{private}"], 3, 1)
    _, whole = least_times(program, policy, "all", [], 1, 1)
    print(f"conditions: {CREDENTIALS} slow ones: a query that reaches one takes {one:.2f} ms at least, the first of a "
          f"connection {first:.2f}, one beside a private assertion {beside:.2f}; one that reaches all {whole:.0f}, "
          f"{whole / CREDENTIALS:.2f} for each")
    if max(one, beside) >= REACHED_MS or whole < RATIO * one:
        return f"what reaches one has to take less than {REACHED_MS} ms, and a {RATIO}th of what reaches all"
    return None


# -- what workers keep


def spell_name(number):
    """A name of four letters and digits for each number."""
    return "".join(ALPHABET[number // len(ALPHABET) ** i % len(ALPHABET)] for i in range(4))


def chain_of(leaves, start=None, last=None):
    """A chain of credentials with so many licensees each: of one name, or of different ones where a start is given. The
    authorizer of the last one may have another name."""
    texts, names = [], ["POLICY"] + [f"b{i}" for i in range(1, CREDENTIALS + 1)]
    names[-2] = last or names[-2]
    for at, (name, after) in enumerate(zip(names, names[1:])):
        others = ["a" if start is None else spell_name(start + at * leaves + i) for i in range(leaves - 1)]
        licensees = "||".join(f'"{other}"' for other in [*others, after])
        texts.append(fill(f'Authorizer: "{name}"\nLicensees: {licensees}\n'))
    return texts


def chain_of_constants():
    """A chain of credentials with as many licensees as there is room for: a local constant, which takes two bytes."""
    texts, names = [], ["POLICY"] + [f"b{i}" for i in range(1, CREDENTIALS - 1)] + ["a", f"b{CREDENTIALS}"]
    for name, after in zip(names, names[1:]):
        front = f'Local-Constants: A="a"\nAuthorizer: "{name}"\nLicensees: 1-of('
        texts.append(front + "A," * ((TEXT_BYTES - len(front) - len(f'"{after}")\n')) // 2) + f'"{after}")\n')
    return texts


def chain_with_conditions():
    names = ["POLICY"] + [f"b{i}" for i in range(1, CREDENTIALS + 1)]
    return [slow_credential(name, f'"{after}"') for name, after in zip(names, names[1:])]


# The texts of each policy, and about how many nodes a text has: chains that are filled by a comment, by conditions, by
# licensees of one name (about as many as a base may have that is kept, and as many as there is room for, also where the
# name is an authorizer's and so has a level), and by licensees of different names (likewise).
SHAPES = {
    "a comment": (1, lambda: chain_of(1)),
    "conditions": (1, chain_with_conditions),
    "120 licensees": (121, lambda: chain_of(120)),
    "800 licensees": (801, lambda: chain_of(800)),
    "800 authorizers": (801, lambda: chain_of(800, last="a")),
    "2,000 constants": (2030, chain_of_constants),
    "30 names": (31, lambda: chain_of(30, 0)),
    "500 names": (501, lambda: chain_of(500, 0)),
}


def peak_mib(pid):
    with open(f"/proc/{pid}/status", encoding="ascii") as file:
        return next(int(line.split()[1]) for line in file if line.startswith("VmHWM:")) / 1024


def ask_rounds(link, wanted):
    for number in range(ROUNDS):
        # the last question again wouldn't look at a base
        _, reply = link.ask([b"SET 1 turn %d\n" % number, b"QUERY 1 no,yes\n"])
        if not reply.startswith(wanted):
            raise Fault(f"QUERY is answered {reply!r:.100}")


def measure_bases(program, policy):
    """The peak in MiB of `serve` behind its start, when each worker has asked, one after another, and all at once."""
    # each worker has a share of the connections
    daemon, faults = talk.Daemon(program, policy, None, WORKERS, 8 * WORKERS), []

    def ask(link):
        try:
            ask_rounds(link, b"VALUE 1 yes ")
        except (Fault, OSError) as fault:
            faults.append(str(fault))

    try:
        started, links = peak_mib(daemon.run.pid), [daemon.connect(f"c{i}") for i in range(WORKERS)]
        for link in links:
            link.ask([b"OPEN\n", b"AUTH 1 b%d\n" % CREDENTIALS])
            ask(link)
        by_turns, threads = peak_mib(daemon.run.pid), [threading.Thread(target=ask, args=[link]) for link in links]
        for thread in threads:
            thread.start()
        for thread in threads:
            thread.join()
        if faults:
            raise Fault(faults[0])
        return started, by_turns, peak_mib(daemon.run.pid)
    finally:
        daemon.close()


def most_mib(nodes, started):
    """The most MiB of a daemon whose workers all have asked: those of bases that are kept, or where the nodes are too many
    for that, beside the credentials what sixteen queries at once build for themselves."""
    if nodes <= KEPT_NODES:
        return MOST_MIB
    return started + WORKERS * nodes * BYTES_A_NODE / 2 ** 20


def try_bases(program, put):
    """Prints the memory of a daemon whose workers all have asked over the most bytes that are live."""
    wrong = []
    for name, (nodes, texts_of) in SHAPES.items():
        texts = texts_of()
        longest = max(len(text) for text in texts)
        started, by_turns, at_once = measure_bases(program, put("bases.kn", "\n".join(texts).encode()))
        most = most_mib(nodes * CREDENTIALS, started)
        print(f"bases: {CREDENTIALS} texts of up to {longest} bytes with {name}: {started:.0f} MiB at the start, "
              f"{by_turns:.0f} when {WORKERS} workers have asked by turns, {at_once:.0f} at once, at most {most:.0f}",
              flush=True)
        wrong += [name] if max(by_turns, at_once) > most else []
    return f"more than that with {', '.join(wrong)}" if wrong else None
