"""Files of replies to LOG: where such a text departs from its form, and what it makes of a replica.

A reply is read from its first byte on. A byte is taken where some reply begins with it and those before it, so the
first one that isn't taken is the place of the fault. Nothing is kept of a replica but the list of its updates.
"""

import collections

from modelling.daemon import LOGGED, Store

MOST_CHANGES, REPLY_BYTES = 256, 300_000

Reply = collections.namedtuple("Reply", "start updates end")
# the fault of a log and its place, or the version of the replica and how many credentials are live
Fault = collections.namedtuple("Fault", "number place")
Followed = collections.namedtuple("Followed", "version live")


class Departs(Exception):
    """No reply begins with the bytes through this one, or the text breaks off there."""


class Follower:
    """A replica to which the replies of a file are applied; `is_assertion` says which texts are assertions."""

    # the highest number, and how many changes an update may have
    highest, changes = 999_999_999, range(1, MOST_CHANGES + 1)

    def __init__(self, is_assertion):
        self.is_assertion = is_assertion
        self.text, self.at, self.updates = b"", 0, []

    def follow(self, file):
        """What is told of a file."""
        self.updates, begin = [], 0
        while begin < len(file):
            try:
                reply = self.read_reply(file[begin:begin + REPLY_BYTES])
            except Departs as why:
                return Fault(1, why.args[0])
            fault = self.gap(reply) or self.apply(reply)
            if fault:
                return fault
            begin += reply.end
        return Followed(len(self.updates), len(self.store().live))

    # -- the form

    def read_reply(self, text):
        """The reply with which a text begins."""
        self.text, self.at = text, 0
        self.take(b"LOG ")
        start = self.take_number(range(self.highest + 1), b" ")
        count = self.take_number(self.counts(start), b" ")
        self.take_number(self.places(start, count), b"\n")
        updates = [self.take_update() for _ in range(count)]
        self.take(b"END\n")
        return Reply(start, updates, self.at)

    def counts(self, start):
        """How many updates a reply may have."""
        return range(min(LOGGED, self.highest - start) + 1)

    def places(self, start, count):
        """How many updates there may be in all, where the reply has so many."""
        return range(start + count, (start + count if count < LOGGED else self.highest) + 1)

    def next_byte(self):
        """It is empty at the end."""
        return self.text[self.at:self.at + 1]

    def take(self, bytes_due):
        for due in bytes_due:
            if self.next_byte() != bytes([due]):
                raise Departs(self.at)
            self.at += 1

    def take_number(self, numbers, end):
        """One of these consecutive numbers, and the byte behind it."""
        digits = b""
        while not (self.next_byte() == end and digits and int(digits) in numbers):
            digits += self.next_byte()
            if not (self.next_byte().isdigit() and self.begins_some(digits, numbers)):
                raise Departs(self.at)
            self.at += 1
        self.at += 1
        return int(digits)

    def begins_some(self, digits, numbers):
        """Whether one of these consecutive numbers begins with these digits, without leading zeros."""
        if digits.startswith(b"0"):
            return digits == b"0" and 0 in numbers
        powers = (10**more for more in range(10))
        return any(int(digits) * it <= numbers[-1] and numbers[0] < (int(digits) + 1) * it for it in powers)

    def take_update(self):
        """Its changes, each as the text that is added or the number of the id that is dropped."""
        self.take(b"UPDATE ")
        self.take_number(range(self.highest + 1), b" ")
        return [self.take_change() for _ in range(self.take_number(self.changes, b"\n"))]

    def take_change(self):
        if self.next_byte() == b"D":
            self.take(b"DROP a")
            return self.take_number(range(self.highest + 1), b"\n")
        self.take(b"ADD ")
        return self.take_text(self.take_number(range(self.highest + 1), b"\n"))

    def take_text(self, length):
        """A text of so many bytes, and the newline behind it."""
        text = self.text[self.at:self.at + length]
        self.at += len(text)
        if len(text) < length:
            raise Departs(self.at)
        self.take(b"\n")
        return text

    # -- the replica

    def store(self):
        return Store(change for changes in self.updates for change in changes)

    def gap(self, reply):
        """The fault of a reply to a client that holds another number of updates, or None."""
        return None if reply.start == len(self.updates) else Fault(2, reply.start)

    def apply(self, reply):
        """Takes the updates of a reply, and answers the fault of the first that is refused, or None."""
        for changes in reply.updates:
            if not self.may_take(changes):
                return Fault(3, len(self.updates) + 1)
            self.updates.append(changes)
        return None

    def may_take(self, changes):
        store = self.store()
        for change in changes:
            if (isinstance(change, bytes) and not self.is_assertion(change)) or store.fault(change):
                return False
            store.make(change)
        return True
