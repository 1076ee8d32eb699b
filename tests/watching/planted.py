"""Programs whose standing queries are wrong: each passes requests to the right one, but for what its fault changes.

Usage: python3 planted.py FAULT PROGRAM ask POLICY KEYS, over standard input. Other commands are the right program's.
"""

import os
import sys

sys.path.insert(0, os.path.dirname(os.path.dirname(os.path.abspath(__file__))))
sys.dont_write_bytecode = True
import protocol  # noqa: E402
from querying.planted import Right  # noqa: E402


class Keeps(Right):
    """Nothing is wrong, and what each session's standing query told last is kept."""

    def __init__(self, words):
        super().__init__(words)
        # of each session the words of the last NEWS, and the names of its WATCH
        self.told, self.names = {}, {}

    def answer_watch(self, request, words):
        reply = self.say(request)
        if reply.startswith(b"NEWS "):
            self.told[words[1]], self.names[words[1]] = reply.split(), words[2]
        return reply

    def answer_news(self, request, words):
        reply = self.say(request)
        if reply.startswith(b"NEWS "):
            reply = self.tell(words[1], reply.split(), self.told[words[1]])
            self.told[words[1]] = reply.split()
        return reply

    def tell(self, _session, told, _last):
        return b" ".join(told) + b"\n"


class OnlyRises(Keeps):
    """A value that a removal lowers stays."""

    def tell(self, session, told, last):
        value = max(told, last, key=lambda words: int(words[1]))
        return b" ".join([*value[:3], told[3]]) + b"\n"


class StaysBehind(Keeps):
    """NEWS tells the version that it told before."""

    def tell(self, session, told, last):
        return b" ".join([*told[:3], last[3]]) + b"\n"


class MissesAddition(Keeps):
    """A credential that an ADD made the newest isn't there yet."""

    def tell(self, session, told, last):
        value = last if self.made.get(int(told[3])) == b"ADD" else told
        return b" ".join([*value[:3], told[3]]) + b"\n"


class ForgetsRemoval(Keeps):
    """What a DROP made the newest is still there."""

    def tell(self, session, told, last):
        value = last if self.made.get(int(told[3])) == b"DROP" else told
        return b" ".join([*value[:3], told[3]]) + b"\n"


class AsksPresent(Keeps):
    """A standing query has what its session has now, and not what it had at WATCH."""

    def tell(self, session, told, last):
        self.say(b"PIN %b\n" % session)
        value = self.say(b"QUERY %b %b\n" % (session, self.names[session])).split()
        self.say(b"PIN %b %b\n" % (session, self.versions[session]))
        return b" ".join([b"NEWS", *value[1:4]]) + b"\n"

    def follow(self, words, reply):
        super().follow(words, reply)
        if reply.startswith(b"OK") and words[0] == b"OPEN":
            self.versions[reply.split()[1]] = reply.split()[2]
        elif reply.startswith(b"OK") and words[0] == b"PIN":
            self.versions[words[1]] = reply.split()[1]


FAULTS = [OnlyRises, StaysBehind, MissesAddition, ForgetsRemoval, AsksPresent]
HARMLESS = Keeps


def main():
    name, program, *words = sys.argv[1:]
    if words[0] != "ask":
        os.execv(program, [program, *words])
    fault, given = globals()[name]([program, *words]), sys.stdin.buffer.read()
    start = 0
    for end in protocol.split_requests(given):
        sys.stdout.buffer.write(fault.answer(given[start:end]))
        start = end
    sys.stdout.buffer.flush()
    fault.run.stdin.close()
    return fault.run.wait()


if __name__ == "__main__":
    sys.exit(main())
