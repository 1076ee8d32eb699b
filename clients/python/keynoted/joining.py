"""The rule of `lint` on `||` beside `&&` without brackets: where `||` was surely taken for the closer one.

`a && b || c` is `(a && b) || c`. That is taken for meant, but where something says otherwise: lines that group the
tests so, an app_domain that holds for one part alone, or behind a test an attribute with one text or another.
"""

from __future__ import annotations

from typing import Iterator, NamedTuple, Sequence, Tuple

from .logic import compared, implies, never_true
from .parts import Found, Part
from .trees import Node, nodes_of


class Seam(NamedTuple):
    """An `||` between two tests, and what stands before and behind these within `&&` without brackets."""

    before: Tuple[Node, ...]
    left: Node
    right: Node
    behind: Tuple[Node, ...]

    @property
    def others(self) -> Tuple[Node, ...]:
        return (*self.before, *self.behind)


def lint_joined_tests(part: Part) -> Iterator[Found]:
    """For each `||` the first place at which the other reading is meant, or as likely."""
    formula, tests = list(part.formula.walk()) if part.formula else [], list(nodes_of(part.clauses))
    if any(brackets_alternatives(it) for it in (*formula, *tests)):
        return  # who brackets || in && knows which is closer
    for nodes, doubtful in ((formula, is_doubtful_formula), (tests, is_doubtful)):
        for node in (it for it in nodes if it.sign == "||"):
            seams = (it for it in seams_of(node) if not is_shown(part, node, it))
            for seam in [it for it in seams if doubtful(part, node, it)][:1]:
                yield "brackets", seam.left.start, "&& binds closer than ||: put brackets around what belongs together"


def brackets_alternatives(node: Node) -> bool:
    return node.sign == "&&" and any(it.sign == "||" for it in node.parts)


def seams_of(node: Node) -> Iterator[Seam]:
    """The places of an `||` beside which an `&&` without brackets stands."""
    for one, other in zip(node.parts, node.parts[1:]):
        first, second = members(one), members(other)
        if len(first) + len(second) > 2:
            yield Seam(first[:-1], first[-1], second[0], second[1:])


def members(node: Node) -> Tuple[Node, ...]:
    return node.parts if node.sign == "&&" and not node.bracketed else (node,)


# how lines and spaces group the text


def breaks(part: Part, one: Node, other: Node) -> bool:
    """Whether a line ends between two nodes."""
    return b"\n" in part.text[one.end:other.start]


def indent(part: Part, at: int) -> int:
    """Where the text of a line begins, in columns: of the line of a label, where this place is."""
    start = part.text.rfind(b"\n", 0, at) + 1
    line = part.text[start:at]
    return len(line) if line[:1].isalpha() else len(line) - len(line.lstrip())


def goes_deeper(part: Part, node: Node, other: Node) -> bool:
    """Whether the line on which a later node begins stands deeper than that of the first one."""
    return indent(part, other.start) > indent(part, node.start)


def is_shown(part: Part, node: Node, seam: Seam) -> bool:
    """Whether lines or spaces group the tests as the language does: an && on one line, or deeper, or closer."""
    both = [it for it in node.parts if it.sign == "&&" and not it.bracketed]
    pairs = [(it, one, other) for it in both for one, other in zip(it.parts, it.parts[1:])]
    if breaks(part, seam.left, seam.right):
        return all(not breaks(part, one, other) or goes_deeper(part, it, other) for it, one, other in pairs)
    between = part.text[seam.left.end:seam.right.start]
    return between != between.strip() and all(part.text[one.end:other.start] == b"&&" for _, one, other in pairs)


def is_hidden(part: Part, seam: Seam) -> bool:
    """Whether lines group the tests otherwise: || alone on a line, with what && joins on others that aren't deeper."""
    if breaks(part, seam.left, seam.right):
        return False
    front = not seam.before or breaks(part, seam.before[-1], seam.left)
    if not seam.behind:
        return front
    behind = seam.behind[0]
    return front and breaks(part, seam.right, behind) and not goes_deeper(part, seam.left, behind)


# what the other reading would say


def is_doubtful_formula(part: Part, _: Node, seam: Seam) -> bool:
    """Whether a formula may be read otherwise: `a && b || c` is, where two groups in && are two ways."""
    return bool(seam.before) and not seam.behind or is_hidden(part, seam)


def is_doubtful(part: Part, node: Node, seam: Seam) -> bool:
    """Whether the other reading of tests is meant, by their form: it says something else, and nothing in vain."""
    if is_same(part, seam) or is_vain(part, seam):
        return False
    alternatives = bool(seam.before) and not seam.behind and are_alternatives(part, seam)
    return alternatives or lacks_domain(node) or is_hidden(part, seam)


def is_same(part: Part, seam: Seam) -> bool:
    """Whether both readings say the same."""
    first, second = (*seam.before, seam.left), (seam.right, *seam.behind)
    return implies(part, first, part, seam.behind) and implies(part, second, part, seam.before)


def is_vain(part: Part, seam: Seam) -> bool:
    """Whether a side of the || would never count by the other reading."""
    return any(never_true(part, [*seam.others, it]) for it in (seam.left, seam.right))


def are_alternatives(part: Part, seam: Seam) -> bool:
    """Whether an attribute is compared with one text and another, which one reads as one test."""
    (sign, name, value), (sign2, name2, value2) = (compared(part, it) for it in (seam.left, seam.right))
    return sign == sign2 == "==" and name == name2 != b"" and value != value2


def lacks_domain(node: Node) -> bool:
    """Whether app_domain is tested in && without brackets, and a part of the || holds in each domain."""
    joined = [it for it in node.parts if it.sign == "&&" and not it.bracketed]
    return any(names_domain(it) for it in joined) and not all(names_domain(it) for it in node.parts)


def names_domain(node: Node) -> bool:
    return any(it.sign == "name" and it.text == b"app_domain" for it in node.walk())
