"""Wrong readers and replicas, each with one fault: what the program tells of logs has to be unlike what they tell."""

from modelling.daemon import LOGGED
from modelling.logs import MOST_CHANGES, Departs, Fault, Followed, Follower


class TakesZeros(Follower):
    """a number may have leading zeros"""

    def begins_some(self, digits, numbers):
        return super().begins_some(digits.lstrip(b"0") or b"0", numbers)


class TakesTenDigits(Follower):
    """a number may have ten digits"""

    highest = 9_999_999_999


class LooksLate(Follower):
    """whether a number is one that may stand there is seen at its end"""

    def take_number(self, numbers, end):
        number = super().take_number(range(self.highest + 1), end)
        if number not in numbers:
            raise Departs(self.at - 1)
        return number


class TakesAnyCount(Follower):
    """the count isn't held against the places"""

    def places(self, start, count):
        return range(self.highest + 1)


class TakesLongReplies(Follower):
    """a reply may have more than 16 updates"""

    def counts(self, start):
        return range(self.highest + 1 - start)


class TakesShortReplies(Follower):
    """a reply of fewer than 16 updates may be followed by others"""

    def places(self, start, count):
        return range(start + count, self.highest + 1)


class TakesCountsPastTheLast(Follower):
    """a reply may end behind version 999999999, as far as its count goes"""

    def counts(self, start):
        return range(LOGGED + 1)


class TakesNoChanges(Follower):
    """an update may have no changes"""

    changes = range(MOST_CHANGES + 1)


class TakesManyChanges(Follower):
    """an update may have more than 256 changes"""

    changes = range(1, Follower.highest + 1)


class CutsTexts(Follower):
    """a text that isn't whole departs at its first byte"""

    def take_text(self, length):
        first = self.at
        try:
            return super().take_text(length)
        except Departs:
            raise Departs(first) from None


class CountsFromTheFile(Follower):
    """the place of a fault counts from the file's first byte"""

    def follow(self, file):
        self.begin = 0
        told = super().follow(file)
        return Fault(1, told.place + self.begin) if isinstance(told, Fault) and told.number == 1 else told

    def apply(self, reply):
        self.begin += reply.end
        return super().apply(reply)


class LooksForGapsFirst(Follower):
    """a gap is told before the form of what is behind it"""

    def counts(self, start):
        if start != len(self.updates):
            raise Departs(None)
        return super().counts(start)

    def follow(self, file):
        told = super().follow(file)
        return told if told != Fault(1, None) else Fault(2, int(self.text.split(b" ")[1]))


class TakesGaps(Follower):
    """a reply to a client that holds more updates is applied"""

    def gap(self, reply):
        return None if reply.start > len(self.updates) else super().gap(reply)


class TakesOlder(Follower):
    """a reply to a client that holds fewer updates is applied"""

    def gap(self, reply):
        return None if reply.start < len(self.updates) else super().gap(reply)


class TellsWhatItHas(Follower):
    """the place of a gap is the number of updates that the replica has"""

    def gap(self, reply):
        return super().gap(reply) and Fault(2, len(self.updates))


class CountsFromZero(Follower):
    """the place of a refused update counts from 0"""

    def apply(self, reply):
        fault = super().apply(reply)
        return fault and Fault(3, fault.place - 1)


class CountsInTheReply(Follower):
    """the place of a refused update counts from the first of its reply"""

    def apply(self, reply):
        fault = super().apply(reply)
        return fault and Fault(3, fault.place - reply.start)


class SkipsRefused(Follower):
    """an update that is refused is left out"""

    def apply(self, reply):
        self.updates += [changes if self.may_take(changes) else [] for changes in reply.updates]


class ReadsNoTexts(Follower):
    """a text need not be an assertion"""

    def __init__(self, is_assertion):
        super().__init__(lambda text: True)


class JudgesRemovalsBefore(Follower):
    """a removal in an update is judged by what was there before it"""

    def may_take(self, changes):
        live = self.store().live
        return super().may_take(changes) and all(isinstance(it, bytes) or it in live for it in changes)


class ReadsFileFirst(Follower):
    """the form of all replies is read before the first is applied"""

    def follow(self, file):
        begin = 0
        while begin < len(file):
            try:
                begin += self.read_reply(file[begin:]).end
            except Departs as why:
                return Fault(1, why.args[0])
        return super().follow(file)


class LeavesTheRest(Follower):
    """what breaks off behind a whole reply is passed over"""

    def follow(self, file):
        told = super().follow(file)
        if isinstance(told, Fault) and told.number == 1 and self.updates and told.place == len(self.text):
            return Followed(len(self.updates), len(self.store().live))
        return told


class NeedsNoLastNewline(Follower):
    """the last newline may be missing"""

    def follow(self, file):
        return super().follow(file + b"\n" if file.endswith(b"END") else file)


class CountsChanges(Follower):
    """the version is the number of changes"""

    def follow(self, file):
        told = super().follow(file)
        return told if isinstance(told, Fault) else Followed(self.store().changes, told.live)


class CountsAdditions(Follower):
    """what was dropped counts as live"""

    def follow(self, file):
        told = super().follow(file)
        return told if isinstance(told, Fault) else Followed(told.version, self.store().additions)


FAULTS = Follower.__subclasses__()
