"""A plain verifier of transcripts, which are what a client sent on a whole connection and what it got.

It plays the plain daemon (`daemon.py`) by what the replies tell: an ADMIN is right where its reply says so, and an
authenticator says of a text what the reply says of it. So one reply is due to each request, beside NOMEM, and a VALUE
reply is tried by its rows. Where the assertions that it goes by aren't of the small part of the language that is read
here, the reply that was recorded is known to be right, and no other value can be.
"""

import collections
import copy
import functools
import re

from modelling import reading, wire
from modelling.daemon import Daemon, Refusal, Store
from modelling.replies import end_of_reply, read_value

REQUESTS = 1_000_000
FOREIGN = ("watch", "news", "unwatch", "critical", "log")
# what may be answered NOMEM, and then nothing has changed
MAY_LACK_MEMORY = ("open", "pin", "pin_at", "assert", "set", "setx", "auth", "query", "add", "drop", "batch")
VERDICT = re.compile(rb"NO (?:17 item ([0-9]+) )?7 auth ([1-5])\n")

# how many VALUE replies there are, and the number of updates at the end; or the fault and its place
Verified = collections.namedtuple("Verified", "answers version")
Fault = collections.namedtuple("Fault", "number place")
MISSING, TEXT, WRONG, REST, IS_FOREIGN = 1, 2, 3, 4, 5


class Undecided(Exception):
    """Whether rows are a proof can't be said here."""


class Contradicted(Exception):
    """A reply that is known to be right is no proof."""


@functools.lru_cache(None)
def requests_of(script):
    """The requests that are meant: up to BYE or a block that is refused, and as many as a connection has."""
    requests, at = [], 0
    while len(requests) < REQUESTS:
        taken = wire.take_request(script, at)
        if not taken:
            break
        request, at = taken
        requests.append(request)
        if request.kind in ("bye", "block"):
            break
    return requests


def copy_store(store):
    other = copy.copy(store)
    other.live = dict(store.live)
    return other


class Asked:
    """What a session asks. Those replies are right that prove a value of it."""

    def __init__(self, verifier, session, values):
        self.verifier, self.session, self.values = verifier, session, values

    def key(self):
        """Where it is the same, so are the right replies."""
        live = tuple(self.verifier.store(self.session.version).live.items())
        parts = self.session.private.items(), self.session.attributes.items(), self.session.requesters, self.values
        return (self.session.version, live, *map(tuple, parts))

    def why_no_proof(self, rows, index):
        try:
            equations = self.verifier.equations(self.session, self.values, self.session.version)
            return equations.why_no_proof(rows, index)
        except (reading.Unreadable, RecursionError):
            raise Undecided from None

    def proves(self, index, rows, told):
        """Whether the rows of this reply prove that POLICY has this value."""
        known = self.verifier.known.get(self.key())
        if told == known:
            return True
        # each proof has the levels of the least solution, and may have other ids and another order
        if known and outline(known) != outline(told):
            return False
        return self.why_no_proof(rows, index) is None

    def is_version(self, version):
        return version == self.session.version

    def is_name(self, index, name):
        return index < len(self.values) and self.values[index] == name

    def is_right(self, told):
        if not told.startswith(b"VALUE "):
            return False
        index, name, version, rows = read_value(told)
        return self.is_version(version) and self.is_name(index, name) and self.proves(index, rows, told)


def outline(told):
    """What all proofs of one question have alike."""
    index, _, _, rows = read_value(told)
    return index, sorted((principal, level) for level, _, principal in rows)


class Verifier(Daemon):
    """A connection as its replies tell it, over a policy, which is a list of texts.

    `readings` answers what a text is read as: its fault and the place, or its authorizer. `known` are replies that are
    right, by what is asked.
    """

    def __init__(self, policy, readings, known):
        self.updates, self.kept, self.kept_version = [[text] for text in policy], Store(), 0
        self.opened, self.sessions, self.is_admin = 0, {}, False
        self.readings, self.known = readings, known
        # what the reply at hand tells of a secret, and of texts
        self.is_secret, self.verdicts = False, {}
        # how many requests were answered, the place behind their replies, and how many of these are VALUE
        self.answered, self.at, self.answers = 0, 0, 0

    def fork(self):
        other = copy.copy(self)
        other.updates, other.sessions = list(self.updates), copy.deepcopy(self.sessions)
        other.kept = copy_store(self.kept)
        return other

    # -- a transcript

    def verify(self, script, replies):
        return self.go_on(self.requests(script), replies)

    def requests(self, script):
        return requests_of(script)

    def go_on(self, requests, replies):
        """Verifies what is behind the requests that were answered already."""
        while self.answered < len(requests):
            fault = self.step(requests[self.answered], replies)
            if fault:
                return fault
        return self.end(replies)

    def end(self, replies):
        return Fault(REST, self.at) if self.at < len(replies) else Verified(self.answers, self.newest())

    def step(self, request, replies):
        """Takes the reply to this request, or answers the fault."""
        number = self.answered + 1
        if self.is_foreign(request):
            return Fault(IS_FOREIGN, number)
        if self.at == len(replies):
            return Fault(MISSING, number)
        end = self.end_of_reply(replies)
        if end is None:
            return Fault(TEXT, number)
        told = replies[self.at:end]
        if not self.permits(request, told):
            return Fault(WRONG, number)
        self.answered, self.at = number, end
        self.answers += told.startswith(b"VALUE ")
        return None

    def is_foreign(self, request):
        return request.kind in FOREIGN

    def end_of_reply(self, replies):
        return end_of_reply(replies, self.at)

    # -- a reply

    def permits(self, request, told):
        """Whether this reply is permitted; then the state is the one behind it."""
        if told == b"NOMEM\n":
            return self.may_lack_memory(request)
        self.believe(request, told)
        due = self.reply(request)
        return due.is_right(told) if isinstance(due, Asked) else due == told

    def may_lack_memory(self, request):
        return request.kind in MAY_LACK_MEMORY

    def believe(self, request, told):
        """Reads off the reply whether a secret was right and what an authenticator said."""
        self.is_secret, self.verdicts = told == b"OK\n", {}
        found = VERDICT.fullmatch(told)
        if not found:
            return
        if request.kind == "add" and not found[1]:
            self.verdicts = {request.parts[0]: int(found[2])}
        if request.kind == "batch" and found[1]:
            items = changes_of(request.parts[0])
            self.verdicts = {text: int(found[2]) for text in items[max(0, int(found[1]) - 1):][:1]}

    def answer_admin(self, digits):
        if not self.is_secret:
            raise Refusal(b"4 admin")
        self.is_admin = True
        return b"OK\n"

    def read(self, text):
        found = self.readings(text)
        if found.fault:
            raise Refusal(b"5 read %d %d" % found.fault)
        return found

    def refuse_unadmitted(self, text):
        self.read(text)
        if text in self.verdicts:
            raise Refusal(b"7 auth %d" % self.verdicts[text])

    def answer_query(self, s, names):
        session = self.session(s)
        return Asked(self, session, self.values(names))

    # -- the store

    def store(self, version=None):
        """As the plain daemon's, but that the newest one is kept."""
        version = self.newest() if version is None else version
        if version < self.kept_version:
            return super().store(version)
        for changes in self.updates[self.kept_version:version]:
            for change in changes:
                self.kept.make(change)
        self.kept_version = version
        return copy_store(self.kept)


def changes_of(block):
    try:
        return wire.split_items(block)
    except wire.BatchFault:
        return []


class Learner(Verifier):
    """A verifier of a transcript that is right: it keeps the VALUE replies as known."""

    def permits(self, request, told):
        if request.kind == "query" and told.startswith(b"VALUE "):
            self.learn(request, told)
        return super().permits(request, told)

    def learn(self, request, told):
        due = self.reply(request)
        if not isinstance(due, Asked):
            return
        index, _, _, rows = read_value(told)
        try:
            why = due.why_no_proof(rows, index)
        except Undecided:
            why = None
        if why:
            raise Contradicted(f"{told!r:.200}: {why}")
        self.known[due.key()] = told
