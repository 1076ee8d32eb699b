"""The search: what else may be chosen of a family at a small size, and then its growth up to the limit."""

import collections

from costing.measuring import Slow, measure

# what is known of a family: the choices that cost most, and its sizes with the times of each
Found = collections.namedtuple("Found", "family choices sizes")
# how much more a choice has to take to be taken
MORE = 1.03
# the seconds below which a growth isn't told, since other things weigh more
LEAST = 0.0005


class Search:
    """A search: nothing larger is tried behind a request of `enough` seconds, and each is measured so many times."""

    def __init__(self, program, enough, runs, searches):
        self.program, self.enough, self.runs, self.searches = program, enough, runs, searches

    def time(self, family, size, choices, runs=None):
        """The times of a size, or None where it takes longer than anybody waits."""
        try:
            trial, patience = family.build(size, **choices), max(60, 8 * self.enough)
            return measure(self.program, trial, runs or self.runs, patience, self.enough)
        except Slow:
            return None

    def cost(self, family, size, choices):
        times = self.time(family, size, choices, 2)
        return times.processor if times else float("inf")

    def choose(self, family):
        """The choices that cost most at a small size, changed one by one."""
        choices = {name: each[0] for name, each in family.choices.items()}
        if not self.searches:
            return choices
        size = self.small_size(family, choices)
        best, changed = self.cost(family, size, choices), True
        while changed:
            changed = False
            for name, each in family.choices.items():
                for other in each:
                    if other == choices[name]:
                        continue
                    cost = self.cost(family, size, {**choices, name: other})
                    if cost > MORE * best:
                        choices, best, changed = {**choices, name: other}, cost, True
        return choices

    def small_size(self, family, choices):
        """The largest power of two below the limit at which a request takes at most a twentieth of what is enough."""
        size = family.limit
        while size > 64 and size > family.limit / 64:
            size //= 2
        while 2 * size < family.limit and self.cost(family, size, choices) < self.enough / 100:
            size *= 2
        return size

    def grow(self, family, choices):
        """The times of sizes that double up to the limit, or as far as they take no longer than is enough."""
        steps, sizes = [family.limit], []
        while steps[0] >= 4 and len(steps) < 12:
            steps.insert(0, steps[0] // 2)
        for place, size in enumerate(steps, 1):
            times = self.time(family, size, choices, self.runs if place > len(steps) - 2 else 1)
            if times is None:
                break
            sizes.append((size, times))
            if times.processor > self.enough:
                break
        return Found(family, choices, sizes)


def growth(found):
    """How many times as long the largest size takes the processor as the half of it."""
    if len(found.sizes) < 2 or found.sizes[-2][1].processor < LEAST:
        return None
    (_, before), (_, last) = found.sizes[-2:]
    return last.processor / max(before.processor, 1e-9)


def at_limit(found):
    """The seconds of the processor at the limit: as measured, or as the growth goes on."""
    size, times = found.sizes[-1]
    seconds, times_larger = times.processor, growth(found) or 2.0
    while size < found.family.limit:
        size, seconds = 2 * size, seconds * times_larger
    return seconds


def is_at_limit(found):
    return found.sizes[-1][0] >= found.family.limit
