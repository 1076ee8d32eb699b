"""Programs that are wrong: each passes requests to the right one, but for what its fault changes.

Usage: python3 planted.py FAULT PROGRAM ask POLICY KEYS, over standard input. Other commands are the right program's.
"""

import os
import re
import subprocess
import sys

sys.path.insert(0, os.path.dirname(os.path.dirname(os.path.abspath(__file__))))
sys.dont_write_bytecode = True
import protocol  # noqa: E402
from querying.histories import RETAINED  # noqa: E402


class Right:
    """Nothing is wrong."""

    def __init__(self, words):
        self.run = subprocess.Popen(words, stdin=subprocess.PIPE, stdout=subprocess.PIPE, bufsize=0)
        # the version of each session, what the update that made a version was, and the newest version
        self.versions, self.made, self.newest = {}, {}, 0

    def say(self, request):
        """The reply of the right program."""
        self.run.stdin.write(request)
        heard = b""
        while not protocol.end_of_reply(heard, 0):
            piece = self.run.stdout.read(1 << 16)
            if not piece:
                sys.exit(f"the right program ends at {request!r:.60}")
            heard += piece
        return heard

    def follow(self, words, reply):
        """Keeps what the reply tells of versions."""
        told = reply.split()
        if told[0] != b"OK":
            return
        if words[0] == b"OPEN":
            self.versions[told[1]] = int(told[2])
        elif words[0] == b"PIN":
            self.versions[words[1]] = int(told[1])
        elif words[0] in (b"ADD", b"DROP", b"BATCH"):
            self.made[int(told[-1])] = words[0]
        if words[0] in (b"OPEN", b"PIN", b"ADD", b"DROP", b"BATCH"):
            self.newest = max(self.newest, int(told[-1]))

    def answer(self, request):
        words = request.split(b"\n", 1)[0].split(b" ")
        reply = getattr(self, "answer_" + words[0].decode().lower(), self.pass_on)(request, words)
        self.follow(words, reply)
        return reply

    def pass_on(self, request, _):
        return self.say(request)

    def ask_at(self, version, request, words):
        """The reply to a query of a session as if it stood at this version, if both are kept."""
        own = self.versions.get(words[1])
        if own in (None, version) or min(own, version) <= self.newest - RETAINED:
            return self.say(request)
        self.say(b"PIN %b %d\n" % (words[1], version))
        reply = self.say(request)
        self.say(b"PIN %b %d\n" % (words[1], own))
        return re.sub(rb"^(VALUE \d+ \S+) %d " % version, rb"\1 %d " % own, reply)


class ForgetsRemoval(Right):
    """A credential that was dropped last is still there."""

    def answer_query(self, request, words):
        own = self.versions.get(words[1], 0)
        return self.ask_at(own - (self.made.get(own) == b"DROP"), request, words)


class MissesAddition(Right):
    """A credential that was added last isn't there yet."""

    def answer_query(self, request, words):
        own = self.versions.get(words[1], 0)
        return self.ask_at(own - (self.made.get(own) == b"ADD"), request, words)


class OtherVersion(Right):
    """A query is answered by the version of the query before it."""

    last = None

    def answer_query(self, request, words):
        own, last = self.versions.get(words[1]), self.last
        self.last = own
        return self.say(request) if last is None else self.ask_at(last, request, words)


class KeepsPrivate(Right):
    """A private assertion that was taken away is still there."""

    def answer_retract(self, _request, _words):
        return b"OK\n"


class KeepsRequester(Right):
    """A requester that was taken away still asks."""

    def answer_unauth(self, _request, _words):
        return b"OK\n"


class KeepsAttribute(Right):
    """An attribute has the value that it had at the session's first query, where it had one."""

    def __init__(self, words):
        super().__init__(words)
        self.asked, self.set = set(), set()

    def answer_query(self, request, words):
        self.asked.add(words[1])
        return self.say(request)

    def answer_set(self, request, words):
        if words[1] in self.asked and (words[1], words[2]) in self.set:
            return b"OK\n"
        self.set.add((words[1], words[2]))
        return self.say(request)


class LosesRow(Right):
    """The last row of a proof of two or more is another principal's."""

    def answer_query(self, request, _):
        rows = self.say(request).split(b"\n")
        if len(rows) > 4:
            rows[-3] = rows[-3].replace(b' "', b' "x')
        return b"\n".join(rows)


class Lowers(Right):
    """A value is the one below it."""

    def answer_query(self, request, _):
        return re.sub(rb"^VALUE 1 yes ", rb"VALUE 0 no ", self.say(request))


class TurnsRows(Right):
    """The rows of a proof have another order, which is no fault."""

    def answer_query(self, request, _):
        head, *rows = self.say(request).split(b"\n")
        return b"\n".join([head, *rows[:-2][::-1], *rows[-2:]])


# those that differ from the right program by a reply of a history; the one that `check` alone tells from it where both
# programs are this one; and the one that differs by no more than may
FAULTS = [ForgetsRemoval, MissesAddition, OtherVersion, KeepsPrivate, KeepsRequester, KeepsAttribute, LosesRow, Lowers]
UNPROVED, HARMLESS = Lowers, TurnsRows


def main():
    name, program, *words = sys.argv[1:]
    if words[0] != "ask":
        os.execv(program, [program, *words])
    fault, given = globals()[name]([program, *words]), sys.stdin.buffer.read()
    start = 0
    for end in protocol.split_requests(given):
        sys.stdout.buffer.write(fault.answer(given[start:end]))
        start = end
    sys.stdout.buffer.flush()
    fault.run.stdin.close()
    return fault.run.wait()


if __name__ == "__main__":
    sys.exit(main())
