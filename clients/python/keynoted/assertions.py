"""The rules of `lint` on assertions beside others: those that add nothing, that no trust reaches, or that hold for more
than their neighbours."""

from __future__ import annotations

import re
from typing import Dict, FrozenSet, Iterator, List, NamedTuple, Sequence, Tuple

from .clauses import gives_as_much, is_lowest
from .licensing import enough_alone, remark_of
from .logic import Atom, Way, impossible, implies, truth_of, ways_of, ways_to_hold
from .near import near_in
from .parts import Found, Part, Script, words
from .texts import value_of
from .trees import Clause, Node
from .vocabulary import FIRST

Placed = Tuple[Part, str, int, str]  # the assertion, the rule's word, the place in it, and what is wrong
PATHS = 64  # ways of trust to a principal that are looked at
DEPTH = 8  # how far trust is followed
LABEL = re.compile(rb"(?i)(licensees|conditions):[ \t]*(\S.*)?")
CODE = re.compile(rb"[=!<>]=|->|\"|&&|\|\||@[A-Za-z]|;\s*$")
DOMAIN = b"app_domain"


def lint_beside(own: Sequence[Part], parts: Sequence[Part], script: Script) -> Iterator[Placed]:
    """What is surely not meant in the assertions of a file beside each other, and beside those of scripts."""
    yield from lint_reach(parts)
    others: Dict[FrozenSet[bytes], List[Part]] = {}
    licensing: Dict[bytes, List[Part]] = {}
    for part in own:
        others.setdefault(by(part), []).append(part)
    for part in parts:
        for who in part.who(5):
            licensing.setdefault(who, []).append(part)
    for part in own:
        yield from lint_narrowing(part, others[by(part)], script)
        yield from lint_chain(part, licensing, script)
        for rule, at, what in [*lint_labels(part), *lint_domain(part, script), *lint_order(part, script)]:
            yield part, rule, at, what
    yield from lint_domains(own)


def by(part: Part) -> FrozenSet[bytes]:
    return part.who(1)


def lint_reach(parts: Sequence[Part]) -> Iterator[Placed]:
    """The assertions whose authorizer has no trust from POLICY."""
    reached, licensed = {b"POLICY"}, {who for part in parts for _, who in part.principals(5)}
    count = 0
    while count < len(reached):
        count = len(reached)
        for part in parts:
            if reached & by(part):
                reached |= {who for _, who in part.principals(5)}
    for part in parts:
        for at, who in part.principals(1):
            near = near_in(who, licensed | {b"POLICY"}) if who not in licensed and who != b"POLICY" else None
            more = f": is {words(near)} meant?" if near else ""
            if any(it == b"POLICY" for _, it in part.principals(5)):
                what = "POLICY is licensed here, and licenses nobody: Authorizer and Licensees are exchanged"
                yield part, "reach", at, what
            elif who not in reached:
                why = "isn't reached from POLICY" if who in licensed else "is licensed by nobody"
                yield part, "reach", at, f"{words(who)} {why}, so this assertion grants nothing{more}"
            elif who != b"POLICY" and {who} == {it for _, it in part.principals(5)}:
                yield part, "reach", at, f"{words(who)} licenses nobody but {words(who)}, which grants nothing"


def lint_narrowing(part: Part, own: Sequence[Part], script: Script) -> Iterator[Placed]:
    """An assertion that another of the same authorizer makes needless: it was meant to take something away."""
    for other in own:
        if other is part or not covers(other, part, script):
            continue
        if covers(part, other, script) and own.index(other) > own.index(part):
            continue
        at = part.clauses[0].test.start if part.clauses else 0
        what = f"this assertion adds nothing, and takes nothing away: {other.place(0)} gives as much to the same"
        if contents(part) != contents(other):
            yield part, "narrow", at, what
        return


def covers(one: Part, other: Part, script: Script) -> bool:
    """Whether an assertion gives all that the other may give, by their form."""
    if not one.formula or not other.formula or by(one) != by(other) or not by(one):
        return False
    if not other.who(5) <= one.who(5) or not other.who(5) <= enough_alone(one, one.formula):
        return False
    if not one.clauses:
        field = one.field(3)
        return not field or not field.tokens
    ways = [it for it in ways_of(other.clauses) if not (it.clause.value and is_lowest(other, it.clause.value, script))]
    return bool(ways) and all(any(is_under(other, it, one, way, script) for way in ways_of(one.clauses)) for it in ways)


def is_under(part: Part, way: Way, other: Part, over: Way, script: Script) -> bool:
    gives = gives_as_much(other, over.clause, part, way.clause, script)
    return gives and implies(part, way.tests, other, over.tests)


class Path(NamedTuple):
    """A way of trust from POLICY to a principal: what has to hold, and the values by name that it goes through."""

    atoms: List[Atom]
    values: Tuple[bytes, ...]


def lint_chain(part: Part, licensing: Dict[bytes, List[Part]], script: Script) -> Iterator[Placed]:
    """Clauses that hold only where their authorizer has no trust, and values above what it ever has there."""
    paths = [it for who in by(part) for it in trusted(who, licensing, frozenset())]
    if b"POLICY" in by(part) or not paths or len(paths) > PATHS:
        return
    who = words(min(by(part)))
    for way in ways_of(part.clauses):
        own = ways_to_hold(part, way.tests)
        if not own or all(impossible(it) for it in own):
            continue
        open_paths = [path for path in paths if not all(impossible([*it, *path.atoms]) for it in own)]
        value = part.value(way.clause.value) if way.clause.value else None
        if not open_paths:
            what = f"{who} is never trusted where this holds: what licenses {who} demands something else"
            yield part, "chain", way.clause.test.start, what
        elif way.clause.value and value and all(is_below(path, value, script) for path in open_paths):
            what = f"{who} never has {words(value)} here, and so hands on less"
            yield part, "chain", way.clause.value.start, what


def is_below(path: Path, value: bytes, script: Script) -> bool:
    """Whether a way of trust gives less than this value, in all orders of values."""
    orders = [it for it in script.scales if value in it]
    return bool(orders) and all(any(it in order and order.index(it) < order.index(value) for it in path.values)
                                for order in orders)


def trusted(who: bytes, licensing: Dict[bytes, List[Part]], seen: FrozenSet[bytes]) -> List[Path]:
    """The ways of trust to a principal; of those that are many, more than are looked at."""
    if who == b"POLICY":
        return [Path([], ())]
    found: List[Path] = []
    for part in licensing.get(who, ()):
        if by(part) & seen or len(found) > PATHS:
            continue
        if len(seen) > DEPTH:
            return [Path([], ())]  # what is farther may demand anything
        above = [it for one in by(part) for it in trusted(one, licensing, seen | {who})][:PATHS + 1]
        found += [Path([*path.atoms, *it.atoms], path.values + it.values) for path in above for it in steps(part)]
    return found


def steps(part: Part) -> List[Path]:
    """What one assertion demands of those whom it licenses, and what it gives them, in each way."""
    found = [] if part.clauses else [Path([], ())]
    for way in ways_of(part.clauses):
        value = part.value(way.clause.value) if way.clause.value else None
        holds = ways_to_hold(part, way.tests)
        found += [Path(it, (value,) if value is not None else ()) for it in (holds if holds is not None else [[]])]
    return found


def lint_labels(part: Part) -> Iterator[Found]:
    """Fields that stand within a comment, where the assertion has none of this name."""
    for match in re.finditer(rb"(?m)^([ \t]+#?|#)[ \t]*(?=(?i:licensees|conditions):)(.*)", part.text):
        found = LABEL.match(match[2])
        inside = any(it.number == 2 and it.label.start < match.start() < it.label.end for it in part.fields)
        number = 5 if match[2][:1] in b"lL" else 3
        if not found or part.field(number) or not CODE.search(found[2] or b"") or not (inside or b"#" in match[1]):
            continue
        name = words(found[1]).title()
        what = f"this line belongs to a comment, so the assertion has no {name}: a label begins its line"
        yield "label", match.start(2), what


def lint_domain(part: Part, script: Script) -> Iterator[Found]:
    """Clauses that don't ask for the application's domain beside others that do."""
    asking = [it for it in part.clauses if names_domain(it.test) or it.program and asks_within(it)]
    if not asking or b"POLICY" not in by(part) or DOMAIN in part.constants:
        return
    clauses = list(part.clauses)
    for at, clause in enumerate(clauses):
        lowest = clause.value is not None and is_lowest(part, clause.value, script)
        if clause in asking or lowest or truth_of(part, clause.test) is False:
            continue
        before = clauses[at - 1] if at else clause
        if before.value is None and before.program is None and is_domain_alone(before.test):
            what = "this semicolon ends a clause, which gives the highest value to the whole domain: && was meant"
            yield "domain", before.test.start, what
        else:
            what = f"this clause holds in each app_domain, unlike that at {part.spot(asking[0].test.start)}"
            yield "domain", clause.test.start, what


def lint_domains(own: Sequence[Part]) -> Iterator[Placed]:
    """The one assertion by POLICY that asks for no app_domain, where the conditions of all others do."""
    parts = [it for it in own if b"POLICY" in by(it) and it.clauses]
    lacking = [it for it in parts if not any(names_domain(one.test) or one.program for one in it.clauses)]
    asking = [it for it in parts if all(names_domain(one.test) for one in it.clauses)]
    authors = {who for part in own for who in by(part)}
    for part in lacking if len(lacking) == 1 and len(asking) > 1 and len(asking) + 1 == len(parts) else ():
        is_end = not authors & {who for _, who in part.principals(5)}
        names = {it.text for one in part.clauses for it in one.test.walk() if it.sign == "name"}
        if is_end and names and DOMAIN not in part.constants:
            what = f"this holds in each app_domain, unlike all other assertions by POLICY, as {asking[0].place(0)}"
            yield part, "domain", part.clauses[0].test.start, what


def lint_order(part: Part, script: Script) -> Iterator[Found]:
    """Clauses of which a comment says that the first one decides."""
    if not FIRST.search(remark_of(part)) or len(part.clauses) + sum(len(it.program or ()) for it in part.clauses) < 2:
        return
    for clauses in [part.clauses, *(it.program for top in part.clauses for it in top.walk() if it.program)]:
        for at, clause in enumerate(clauses):
            over = any(gives_as_much(part, it, part, clause, script) for it in clauses[at + 1:])
            if clause.value and over and not is_lowest(part, clause.value, script):
                what = "clauses have no order: the highest value of those that are true is given, not the first"
                yield "order", clause.test.start, what
                return


def names_domain(test: Node) -> bool:
    return any(it.sign == "name" and it.text == DOMAIN for it in test.walk())


def asks_within(clause: Clause) -> bool:
    return all(names_domain(it.test) for it in clause.program or ())


def is_domain_alone(test: Node) -> bool:
    return test.sign == "==" and names_domain(test)


def contents(part: Part) -> Tuple[object, ...]:
    """What an assertion says: constants in their places, normal forms of principals, joined parts in one order."""
    field = part.field(3)
    tokens = [part.constants.get(it.text, it) for it in field.tokens] if field else []
    while tokens and tokens[-1].text == b";":
        tokens.pop()
    conditions = tuple((it.sort, value_of(it) if it.sort == "text" else it.text) for it in tokens)
    formula = form_of(part, part.formula) if part.formula else None
    return (tuple(who for _, who in part.principals(1)), formula, conditions)


def form_of(part: Part, node: Node) -> Tuple[object, ...]:
    if not node.parts:
        return (part.principal(node),)
    return (node.sign, node.threshold, *sorted((form_of(part, it) for it in node.parts), key=repr))


def lint_twice(parts: Sequence[Part]) -> Iterator[Placed]:
    """Assertions that stand twice in a file, but for comments, constants and the order of their fields."""
    seen: Dict[Tuple[object, ...], Part] = {}
    for part in parts:
        first = seen.setdefault(contents(part), part)
        if first is not part:
            yield part, "duplicate", 0, f"this assertion stands before, in {first.place(0)}"
