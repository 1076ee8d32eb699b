"""The rules of `lint` on clauses: those that never decide, tests that are always one thing, and refusals that refuse
nothing."""

from __future__ import annotations

from typing import Iterator, Optional, Sequence, Tuple

from .logic import always_true, implies, is_steady, never_true, tokens_of, truth_of
from .parts import SPECIAL, Found, Part, Script, words
from .trees import COMPARISONS, Clause, Node
from .vocabulary import OWNERS

NO = {"no", "false", "deny", "denied", "refuse", "refused", "reject", "rejected", "forbid", "none", "closed", "drop"}
LOWEST = NO | {
    "block", "blocked", "disallow", "disallowed", "prohibit", "ban", "banned", "off", "nothing", "stop", "halt", "0",
    "never",
}
# the orders that names of values have where no script has a query
SCALES = [it.split() for it in (
    b"no log yes", b"false true", b"deny log allow", b"deny ask allow", b"refuse log approve", b"reject log accept",
    b"none list read append write admin", b"none view read edit write full", b"none low medium high",
    b"none guest user operator admin", b"none read comment write own",
)]


def lint_program(part: Part, clauses: Sequence[Clause], script: Script,
                 before: Tuple[Node, ...] = ()) -> Iterator[Found]:
    for at, clause in enumerate(clauses):
        found = never_decides(part, clause, clauses, script, before)
        if found:
            yield ("never", *found)
        else:
            yield from lint_within(part, clause.test)
        is_rest = at > 0 and at == len(clauses) - 1 and bool(truth_of(part, clause.test))
        if clause.value and is_lowest(part, clause.value, script) and not is_rest:
            value = part.source(clause.value)
            what = f"{value} is the lowest value, which refuses nothing: what another clause or assertion gives holds"
            yield "deny", clause.value.start, what
        if clause.program:
            yield from lint_program(part, clause.program, script, (*before, clause.test))
    yield from lint_valueless(part, clauses, script)


def never_decides(part: Part, clause: Clause, clauses: Sequence[Clause], script: Script,
                  before: Tuple[Node, ...]) -> Optional[Tuple[int, str]]:
    """Why a clause, or its test, decides nothing among these clauses, and where; nothing where it may."""
    truth = truth_of(part, clause.test)
    if truth is False:
        return culprit(part, clause.test), "this test is never true"
    if clause.program == ():
        return clause.test.start, "this clause gives nothing: no clause stands in its braces"
    if before and never_true(part, (*before, clause.test)):
        return clause.test.start, f"this test is never true behind that at {part.spot(before[-1].start)}"
    for it in clauses:
        if it is not clause and is_over(part, it, clause, script):
            more = f"the clause at {part.spot(it.test.start)} gives as much wherever this one gives anything"
            return clause.test.start, f"this clause never decides: {more}"
    always = truth and clause.test.sign != "truth"
    return (culprit(part, clause.test), "this test is always true") if always else None


def culprit(part: Part, test: Node) -> int:
    """Where the first part of a test stands that is always one thing, or the first of two that make it so."""
    for node in test.walk():
        if node.sign in COMPARISONS and truth_of(part, node) is not None:
            return node.start
    for node in reversed([it for it in test.walk() if it.sign in ("&&", "||")]):
        for at, one in enumerate(node.parts):
            if any(truth_of(part, node._replace(parts=(one, it))) is not None for it in node.parts[at + 1:]):
                return one.start
    return test.start


def lint_within(part: Part, test: Node) -> Iterator[Found]:
    """Parts of a test that are always true or never are, while the test hangs on more."""
    for it in test.parts if test.sign in ("&&", "||", "!") else ():
        if it.sign == "||" and is_steady(it) and always_true(part, it):
            yield "never", culprit(part, it), "this part of the test is always true: && was meant, or another value"
        elif it.sign == "&&" and never_true(part, [it]):
            yield "never", culprit(part, it), "this part of the test is never true: || was meant, or another value"
        else:
            yield from lint_within(part, it)
    same = test.sign in COMPARISONS and tokens_of(part, test.parts[0]) == tokens_of(part, test.parts[1])
    if same and any(it.sign == "name" and it.text not in part.constants for it in test.walk()):
        yield "never", test.start, "both sides of this comparison are the same"


def lint_valueless(part: Part, clauses: Sequence[Clause], script: Script) -> Iterator[Found]:
    """Clauses without a value beside others with one, where the highest value is one that no clause names."""
    highest = {order[-1] for order in script.scales}
    given = {part.value(it.value) for it in clauses if it.value}
    if not given or not script.scales or highest & set(script.named) or any(len(it) < 3 for it in script.scales):
        return
    for it in clauses:
        texts = {part.value(node) for node in it.test.walk()}
        if it.value is None and it.program is None and not texts & OWNERS:
            what = f"no value stands behind this clause, so it gives the highest, {words(min(highest))}"
            yield "valueless", it.test.start, what


def is_over(part: Part, one: Clause, other: Clause, script: Script) -> bool:
    """Whether one clause makes the other needless; of two that do so for each other, the earlier one stays."""
    if not (holds_with(part, one, other) and gives_as_much(part, one, part, other, script)):
        return False
    both = holds_with(part, other, one) and gives_as_much(part, other, part, one, script)
    return not both or one.test.start < other.test.start


def holds_with(part: Part, one: Clause, other: Clause) -> bool:
    """Whether the test of one clause is true wherever that of the other is, by their form."""
    return bool(truth_of(part, one.test)) or implies(part, [other.test], part, [one.test])


def gives_as_much(part: Part, one: Clause, at: Part, other: Clause, script: Script) -> bool:
    """Whether a clause gives at least what the other, of the second assertion, may give, in each query."""
    first, second = level_of(part, one), level_of(at, other)
    if first == b"_MAX_TRUST" or second == b"_MIN_TRUST":
        return True
    if first is None or second is None or second == b"_MAX_TRUST" or first == b"_MIN_TRUST":
        return False
    named = [[it for it in orders if first in it and second in it] for orders in (script.told, SCALES)]
    orders = script.orders or named[0] or named[1]
    indices = [[order.index(it) if it in order else 0 for it in (first, second)] for order in orders]
    return first == second or bool(indices) and all(left >= right for left, right in indices)


def level_of(part: Part, clause: Clause) -> Optional[bytes]:
    """The value that a clause gives by name; nothing where that hangs on more."""
    if clause.program is not None:
        return None
    if clause.value is None:
        return b"_MAX_TRUST"
    return clause.value.text if clause.value.text in SPECIAL[:2] else part.value(clause.value)


def is_lowest(part: Part, node: Node, script: Script) -> bool:
    value = part.value(node)
    if value is None:
        return node.text == b"_MIN_TRUST"
    if script.scales:
        lowest = [order[0] for order in script.scales if value in order]
        return bool(lowest) and all(it == value for it in lowest)
    return words(value).lower() in LOWEST
