"""The rules of `lint` on numbers: those out of range, divisions that cut off too early, texts that are no numbers."""

from __future__ import annotations

import re
from typing import Iterator, List, Optional

from .logic import GREATEST, LEAST, read_number, tokens_of
from .parts import Found, Part, words
from .trees import COMPARISONS, Node, nodes_of

SIGNS = ("+", "-", "*", "/", "%", "^")


class Fault(Exception):
    """A number that can't be computed, and why."""


def lint_numbers(part: Part) -> Iterator[Found]:
    seen = set()
    for node in nodes_of(part.clauses):
        if node.start in seen:
            continue
        try:
            value_in(part, node)
        except Fault as why:
            seen |= {it.start for it in node.walk()}
            yield "range", node.start, f"{why}, so this test is a fault and never true"
        if node.sign in COMPARISONS:
            yield from lint_remainder(node)
        if node.sign == "*" or node.sign == "/":
            yield from lint_division(part, node)
        if node.sign == "@":
            yield from lint_reading(part, node)


def lint_remainder(node: Node) -> Iterator[Found]:
    """A remainder that is compared with a number which it never is."""
    for side, other in (node.parts, node.parts[::-1]):
        if node.sign == "==" and side.sign == "%" and len(side.parts) == 2 and other.sign == "number":
            if side.parts[1].sign == "number" and int(other.text) >= int(side.parts[1].text) > 0:
                yield "never", node.start, f"a remainder of {words(side.parts[1].text)} is below it: this is never true"


def signs_of(part: Part, node: Node) -> List[str]:
    """The signs between the parts of a sum, a product or a power."""
    gaps = [part.text[one.end:other.start] for one, other in zip(node.parts, node.parts[1:])]
    return [re.sub(rb"#[^\n]*|\s", b"", it).decode("ascii", "replace") for it in gaps]


def value_in(part: Part, node: Node) -> Optional[int]:
    """The number of what is fixed; nothing where attributes come in."""
    if node.sign == "number":
        return int(node.text)
    if node.sign == "@":
        text = part.value(node.parts[0])
        return checked(read_number(text), f"@ of {words(text)}") if text is not None else None
    if node.sign == "-" and len(node.parts) == 1:
        value = value_in(part, node.parts[0])
        return None if value is None else checked(-value, part.source(node))
    return fixed_value(part, node) if node.sign in SIGNS else None


def fixed_value(part: Part, node: Node) -> Optional[int]:
    values = [value_in(part, it) for it in node.parts]
    total = values[0]
    for sign, value in zip(signs_of(part, node), values[1:]):
        if value == 0 and sign in ("/", "%"):
            raise Fault(f"{part.source(node)} divides by zero")
        total = None if total is None or value is None else applied(total, sign, value, part.source(node))
    return total


def applied(one: int, sign: str, other: int, source: str) -> int:
    if sign == "^":
        if other < 0:
            raise Fault(f"{source} has a negative exponent")
        return checked(one ** other if abs(one) < 2 or other < 64 else GREATEST + 1, source)
    if sign in ("/", "%"):
        quotient = abs(one) // abs(other) * (1 if (one < 0) == (other < 0) else -1)
        return checked(quotient, source) if sign == "/" else one - quotient * other
    return checked(one + other if sign == "+" else one - other if sign == "-" else one * other, source)


def checked(value: int, source: str) -> int:
    if not LEAST <= value <= GREATEST:
        raise Fault(f"{source} is out of range: numbers go to {GREATEST}")
    return value


def lint_division(part: Part, node: Node) -> Iterator[Found]:
    """A quotient of attributes that is multiplied again, and a quotient of numbers that is 0."""
    signs = ["*", *signs_of(part, node)]
    inner = [it for it, sign in zip(node.parts, signs) if sign == "*" and it.sign == "/" and has_names(it.parts[-1])]
    for at, sign in enumerate(signs):
        factors = [it for it, more in zip(node.parts[at + 1:], signs[at + 1:]) if more == "*"]
        if sign != "/" or not factors:
            continue
        divisor, percent = node.parts[at], any(it.sign == "number" and it.text in (b"100", b"1000") for it in factors)
        same = any(tokens_of(part, it) == tokens_of(part, divisor) for it in factors)
        if not same and (has_names(divisor) or percent or is_zero(part, node, at)):
            yield "division", node.start, "division cuts off, and what is lost isn't multiplied: multiply first"
            return
    is_nothing = node.sign == "/" and node.bracketed and is_zero(part, node, len(node.parts) - 1)
    if inner and len(node.parts) > 1 or is_nothing:
        yield "division", node.start, "division cuts off, and what is lost isn't multiplied: multiply first"


def is_zero(part: Part, node: Node, at: int) -> bool:
    """Whether a product up to this part is fixed, and 0."""
    try:
        return value_in(part, node._replace(parts=node.parts[:at + 1], end=node.parts[at].end)) == 0
    except Fault:
        return False


def has_names(node: Node) -> bool:
    return any(it.sign == "name" for it in node.walk())


def lint_reading(part: Part, node: Node) -> Iterator[Found]:
    """@ of a text that is fixed and no number."""
    text = part.value(node.parts[0])
    if text is None or re.fullmatch(rb"-?[0-9]+", text):
        return
    number = read_number(text)
    more = f": write @{words(text)}" if re.fullmatch(rb"[A-Za-z_][A-Za-z_0-9]*", text) else ""
    yield "reading", node.start, f"@ reads {number} in the text \"{words(text)}\"{more}"
