"""Out of memory: runs in which an allocation of a random number is refused, or a stretch of them."""

import collections
import random

import protocol
from querying.histories import History
from querying.programs import LIMIT, is_same
from refusing import NEVER, run_refused

NOMEM = b"NOMEM\n"
# the requests that may be answered by it, and those of them that change nothing
MAY_WANT = set(b"OPEN PIN ASSERT SET SETX AUTH QUERY WATCH NEWS CRITICAL ADD DROP BATCH LOG".split())
QUESTIONS = set(b"QUERY NEWS CRITICAL".split())
# the queries that a history has at least, each of them asked once more
QUERIES = 25
# in so many of a hundred runs one allocation is refused, in the others up to so many
ONE_OF_HUNDRED, STRETCH = 70, 40


def word_of(request):
    return request.split(None, 1)[0]


def twice(steps):
    """The steps, of which each query is said once more behind itself."""
    return [step for it in steps for step in ([it, it] if it.sort == "query" else [it])]


class Wanting:
    """A history whose runs want memory, with the replies of the reference."""

    def __init__(self, seed, room_of, program, reference, library):
        self.history = History(seed, QUERIES, is_served=False)
        self.room, self.program, self.reference, self.library = room_of(self.history), program, reference, library
        self.steps = twice(self.history.steps)
        self.due = self.room.run(reference, self.steps)
        self.input = self.room.put("input", b"".join(step.text for step in self.steps))
        empty = self.run(self.room.put("empty", b""), 0, 0)
        self.loading, self.made = empty.made, self.run(self.input, 0, 0).made

    def run(self, path, first, last):
        words = [self.program, "ask", self.room.policy, self.room.keys]
        return run_refused(self.library, words, path, first, last, LIMIT)

    def without(self, places):
        """The replies of the reference to the other steps, with NOMEM at these."""
        words = {word_of(self.steps[at].text) for at in places}
        if words <= QUESTIONS:
            return [NOMEM if at in places else reply for at, reply in enumerate(self.due)]
        others = iter(self.room.run(self.reference, [step for at, step in enumerate(self.steps) if at not in places]))
        return [NOMEM if at in places else next(others, b"") for at in range(len(self.steps))]

    def judge(self, replies):
        """What is wrong with the replies of a run: each is NOMEM where it may be, or what the others make it."""
        if len(replies) != len(self.steps):
            return f"{len(replies)} replies to {len(self.steps)} requests"
        places = {at for at, reply in enumerate(replies) if reply == NOMEM}
        for at in places:
            if word_of(self.steps[at].text) not in MAY_WANT:
                return f"{self.steps[at].text!r:.60} is answered by NOMEM"
        due = self.without(places) if places else self.due
        for step, reply, wanted in zip(self.steps, replies, due):
            if not is_same(reply, wanted):
                told = f"{step.text!r:.60} is answered {reply!r:.200}, and not {wanted!r:.200}"
                return f"{told}, with NOMEM at {sorted(places)}"
        return None

    def try_at(self, first, last):
        """How a run with these allocations refused ended, and what is wrong with it, or None."""
        ran = self.run(self.input, first, last)
        replies = protocol.split_replies(ran.output)
        if ran.status == 5 and ran.output == b"error memory\n" and not ran.read and not ran.errors:
            return "none", None
        if ran.status or ran.errors or b"".join(replies) != ran.output:
            return "", f"status {ran.status}, {ran.output[-200:]!r}, {ran.errors[-200:]!r}"
        words = {word_of(step.text) for step, reply in zip(self.steps, replies) if reply == NOMEM}
        sort = "as ever" if not words else "a question" if words <= QUESTIONS else "another request"
        return sort, self.judge(replies)

    def try_some(self, runs):
        """Tries so many runs that came to replies: how often they ended in each way, and what was wrong."""
        rng, ends, wrong = random.Random(self.history.seed), collections.Counter(), []
        first_due = self.run(self.input, 0, 0)
        if self.judge(protocol.split_replies(first_due.output)):
            return ends, [f"with ample memory {self.judge(protocol.split_replies(first_due.output))}"]
        while sum(ends.values()) - ends["none"] < runs and ends["none"] <= runs:
            first = rng.randint(self.loading + 1, max(self.loading + 1, self.made))
            last = first if rng.randrange(100) < ONE_OF_HUNDRED else min(NEVER, first + rng.randint(1, STRETCH))
            end, fault = self.try_at(first, last)
            ends[end] += 1
            wrong += [f"seed {self.history.seed}, allocations {first} to {last}: {fault}"] if fault else []
        return ends, wrong
