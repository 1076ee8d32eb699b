"""What tests say by their form: which can't hold together, and which follow from others. A fault isn't true."""

from __future__ import annotations

import re
from typing import Dict, Iterator, List, NamedTuple, Optional, Sequence, Set, Tuple, Union

from .parts import Part
from .texts import value_of
from .trees import COMPARISONS, Clause, Node

# what a comparison says where it doesn't hold, and with its sides exchanged
OPPOSITES = {"==": "!=", "!=": "==", "<": ">=", ">": "<=", "<=": ">", ">=": "<"}
TURNED = {"<": ">", ">": "<", "<=": ">=", ">=": "<="}
# the least and the greatest number of which a comparison holds, counted from the one behind it
BOUNDS: Dict[str, Tuple[Optional[int], Optional[int]]] = {
    "==": (0, 0), "<": (None, -1), ">": (1, None), "<=": (None, 0), ">=": (0, None),
}
LEAST, GREATEST = -2147483648, 2147483647
MOST = 64  # alternatives of one test that are looked at
LEADING = re.compile(rb"-?[0-9]+")


class Atom(NamedTuple):
    """A test without && and ||: a comparison of an attribute with a fixed value, or any other by its tokens alone."""

    sign: str
    name: bytes  # with @ before it where its number is compared
    value: Union[bytes, int, None]
    tokens: Tuple[bytes, ...]


class Way(NamedTuple):
    """A way through a program: the tests that have to hold, and the clause that gives the value."""

    tests: Tuple[Node, ...]
    clause: Clause


def ways_of(clauses: Sequence[Clause], before: Tuple[Node, ...] = ()) -> Iterator[Way]:
    for clause in clauses:
        tests = (*before, clause.test)
        if clause.program is None:
            yield Way(tests, clause)
        else:
            yield from ways_of(clause.program, tests)


def alternatives(part: Part, node: Node, holds: bool = True) -> Optional[List[List[Atom]]]:
    """The ways in which a test is true, or false, each as atoms that hold together; nothing where these are many."""
    if node.sign == "truth":
        return [[]] if (node.text.lower() == b"true") == holds else []
    if node.sign == "!":
        return alternatives(part, node.parts[0], not holds)
    if node.sign not in ("&&", "||"):
        return [[atom_of(part, node, holds)]]
    members = [alternatives(part, it, holds) for it in node.parts]
    return all_of(members) if (node.sign == "&&") == holds else any_of(members)


def any_of(members: Sequence[Optional[List[List[Atom]]]]) -> Optional[List[List[Atom]]]:
    found: List[List[Atom]] = []
    for member in members:
        if member is None or len(found) + len(member) > MOST:
            return None
        found += member
    return found


def all_of(members: Sequence[Optional[List[List[Atom]]]]) -> Optional[List[List[Atom]]]:
    found: List[List[Atom]] = [[]]
    for member in members:
        if member is None or len(found) * len(member) > MOST:
            return None
        found = [[*one, *other] for one in found for other in member]
    return found


def ways_to_hold(part: Part, tests: Sequence[Node]) -> Optional[List[List[Atom]]]:
    return all_of([alternatives(part, it) for it in tests])


def atom_of(part: Part, node: Node, holds: bool) -> Atom:
    sign, name, value = compared(part, node)
    tokens = tokens_of(part, node)
    return Atom(sign if holds else OPPOSITES.get(sign, ""), name, value, tokens if holds else (b"!", *tokens))


def tokens_of(part: Part, node: Node) -> Tuple[bytes, ...]:
    """The tokens of a test without brackets, and constants by their values."""
    found = []
    for token in (it for field in part.fields for it in field.tokens if node.start <= it.start < node.end):
        literal = part.constants.get(token.text, token)
        if token.text not in (b"(", b")"):
            found.append(b'"' + value_of(literal) if literal.sort == "text" else token.text)
    return tuple(found)


def compared(part: Part, node: Node) -> Tuple[str, bytes, Union[bytes, int, None]]:
    """A comparison of an attribute with a text, or of its number with a number: the sign, the name and the value."""
    turned = TURNED.get(node.sign, node.sign)
    for sign, (one, other) in ((node.sign, node.parts), (turned, node.parts[::-1])) if node.sign in COMPARISONS else ():
        name = one.parts[0] if one.sign == "@" else one
        if name.sign != "name" or part.value(name) is not None:
            continue
        number = number_of(part, other)
        if one.sign == "@" and number is not None:
            return sign, b"@" + name.text, number
        if one.sign == "name" and part.value(other) is not None:
            return sign, name.text, part.value(other)
    return "", b"", None


def number_of(part: Part, node: Node) -> Optional[int]:
    """The number of digits, or of a text that is fixed; nothing where that hangs on more."""
    if node.sign == "number":
        return int(node.text)
    value = part.value(node.parts[0]) if node.sign == "@" else None
    return read_number(value) if value is not None else None


def read_number(text: bytes) -> int:
    """What @ reads of a text."""
    match = LEADING.match(text)
    return int(match[0]) if match else 0


def impossible(atoms: Sequence[Atom]) -> bool:
    """Whether no values of the attributes meet all these atoms."""
    texts: Dict[bytes, Tuple[Set[bytes], Set[bytes]]] = {}
    numbers: Dict[bytes, Tuple[int, int]] = {}
    for sign, name, value, _ in atoms:
        if isinstance(value, bytes) and sign in ("==", "!="):
            texts.setdefault(name, (set(), set()))[sign == "!="].add(value)
        elif isinstance(value, int) and sign in BOUNDS:
            low, high = numbers.get(name, (LEAST, GREATEST))
            least, greatest = BOUNDS[sign]
            low = low if least is None else max(low, value + least)
            numbers[name] = (low, high if greatest is None else min(high, value + greatest))
    if any(len(same) > 1 or same & others for same, others in texts.values()):
        return True
    if any(low > high for low, high in numbers.values()):
        return True
    fixed = ((name, read_number(it)) for name, (same, _) in texts.items() for it in same)
    ranges = ((numbers.get(b"@" + name, (LEAST, GREATEST)), number) for name, number in fixed)
    return any(not low <= number <= high for (low, high), number in ranges)


def never_true(part: Part, tests: Sequence[Node]) -> bool:
    """Whether these tests can't all be true, by their form."""
    ways = ways_to_hold(part, tests)
    return ways is not None and all(impossible(it) for it in ways)


def always_true(part: Part, node: Node) -> bool:
    """Whether a test can't be false, by its form; it may be a fault."""
    ways = alternatives(part, node, False)
    return ways is not None and all(impossible(it) for it in ways)


def follows(atom: Atom, given: Sequence[Atom]) -> bool:
    """Whether an atom holds wherever the given ones do."""
    if any(it.tokens == atom.tokens for it in given):
        return True
    near = [it for it in given if it.name == atom.name and it.name]
    if atom.sign == "!=" and isinstance(atom.value, bytes):
        return any(it.sign == "==" and it.value != atom.value for it in near)
    opposite = atom._replace(sign=OPPOSITES.get(atom.sign, ""))
    return isinstance(atom.value, int) and opposite.sign in BOUNDS and bool(near) and impossible([*near, opposite])


def implies(part: Part, tests: Sequence[Node], other: Part, required: Sequence[Node]) -> bool:
    """Whether the tests of the second assertion hold wherever those of the first do, by their form."""
    given, wanted = ways_to_hold(part, tests), ways_to_hold(other, required)
    if given is None or wanted is None:
        return False
    return all(any(all(follows(atom, it) for atom in way) for way in wanted) for it in given)


def is_steady(node: Node) -> bool:
    """Whether a test can't be a fault: it computes nothing. A number that is read is taken for one in range."""
    steady = ("truth", "text", "name", "number", "@", "!", "&&", "||", *COMPARISONS)
    return all(it.sign in steady for it in node.walk())


def truth_of(part: Part, node: Node) -> Optional[bool]:
    """Whether a test is true whatever the action, or never is; nothing where it hangs on that."""
    if node.sign == "truth":
        return node.text.lower() == b"true"
    if node.sign == "!":
        inner = truth_of(part, node.parts[0])
        return not inner if inner or inner is False and is_steady(node) else None
    if node.sign in ("&&", "||"):
        return truth_of_joined(part, node)
    if node.sign in ("==", "!="):
        values = [it.text if it.sign == "number" else part.value(it) for it in node.parts]
        return (values[0] == values[1]) == (node.sign == "==") if None not in values else None
    return None


def truth_of_joined(part: Part, node: Node) -> Optional[bool]:
    """The same for && and ||; a fault before the part that decides makes one."""
    truths = [truth_of(part, it) for it in node.parts]
    if node.sign == "&&" and False in truths or never_true(part, [node]):
        return False
    if node.sign == "||" and True in truths and all(is_steady(it) for it in node.parts[:truths.index(True)]):
        return True
    if is_steady(node) and always_true(part, node):
        return True
    if None in truths:
        return None
    return all(truths) if node.sign == "&&" else any(truths)
