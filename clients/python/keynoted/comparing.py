"""The rules of `lint` on comparisons: numbers as texts, null, patterns, and texts without quotes."""

from __future__ import annotations

import re
from typing import Iterator, Optional, Set

from .parts import Found, Part, Script, words
from .trees import COMPARISONS, Node, nodes_of
from .vocabulary import ADDRESS, ALGORITHM, COUNTED, DATE, DATED, HOLDERS, HOLDING, HOSTS, HOUR, KINDS, LIST, MEASURE
from .vocabulary import NETS, NETWORK, NULLS, NUMERIC, PADDED, PATTERN, RANGE, RANKS, SPAN, VERSION

ORDERINGS = ("<", ">", "<=", ">=")
GREATEST = 2147483647


def lint_comparisons(part: Part, script: Script) -> Iterator[Found]:
    for node in (it for it in nodes_of(part.clauses) if it.sign in COMPARISONS):
        for side, other in (node.parts, node.parts[::-1]):
            found = lint_order(part, node, side, other, script)
            found = found or lint_null(part, side, other, script) or lint_pattern(part, side, script)
            if not found and node.sign in ("==", "!="):
                found = lint_text(part, side, other, script)
            if found:
                yield found
                break


def lint_order(part: Part, node: Node, side: Node, other: Node, script: Script) -> Optional[Found]:
    """Numbers that are compared as texts."""
    value = part.value(side)
    if node.sign not in ORDERINGS or other.sign not in ("name", "text", "$", "."):
        return None
    if value is None:
        are_names = side.sign == "name" and other.sign == "name"
        given = script.settings.get(side.text, set()) if are_names else set()
        what = in_numbers(part, node) if given and all(NUMERIC.fullmatch(it) for it in given) else ""
    else:
        what = unlike_numbers(part, node, value, other, script)
    return ("numbers", node.start, what) if what else None


def unlike_numbers(part: Part, node: Node, value: bytes, other: Node, script: Script) -> str:
    """How a text of digits is to be compared; empty where texts are right."""
    if ADDRESS.fullmatch(value) and not PADDED.fullmatch(value):
        return f"addresses are compared as texts: write each number of {words(value)} with three digits"
    if DATED.fullmatch(value):
        return f"texts are compared, byte by byte: write dates as 2026-01-31 or 20260131, and not {words(value)}"
    if VERSION.fullmatch(value) and not ADDRESS.fullmatch(value):
        return f"texts are compared, byte by byte, in which 1.10.0 is below 1.9.0: {words(value)} is no number"
    if MEASURE.fullmatch(value):
        return f"texts are compared, byte by byte: compare the number alone, as @{part.source(other)}"
    if value.lower() in RANKS:
        return f"texts are compared, byte by byte, and not by rank: name each text beside {words(value)} that will do"
    if HOUR.fullmatch(value):
        return f"times are compared as texts: write 0{words(value)}, and two digits for each hour"
    if not NUMERIC.fullmatch(value) or is_padded(part, value, other, script):
        return ""
    if b"." in value or abs(int(value)) > GREATEST:
        return f"texts are compared, byte by byte, and {words(value)} is no number of KeyNote: take another unit"
    return in_numbers(part, node)


def in_numbers(part: Part, node: Node) -> str:
    sides = []
    for it in node.parts:
        value = part.value(it)
        sides.append(f"@{part.source(it)}" if value is None or it.sign == "name" else words(value))
    return f"texts are compared, byte by byte: write {sides[0]} {node.sign} {sides[1]} to compare numbers"


def is_padded(part: Part, value: bytes, other: Node, script: Script) -> bool:
    """Whether digits stand for texts of one length: a date, or zeros stand before them, here or in another
    comparison of this name."""
    if any(len(it) != len(value) for it in script.settings.get(other.text, ()) if NUMERIC.fullmatch(it)):
        return False
    if DATE.fullmatch(value) or PADDED.fullmatch(value):
        return True
    orders = [it for it in nodes_of(part.clauses) if it.sign in ORDERINGS]
    near = [it for it in orders if any((side.sign, side.text) == (other.sign, other.text) for side in it.parts)]
    values = [part.value(side) or b"" for it in near for side in it.parts]
    return any(PADDED.fullmatch(it) and len(it) == len(value) for it in values)


def lint_null(part: Part, side: Node, other: Node, script: Script) -> Optional[Found]:
    """A comparison with what is no null in KeyNote."""
    value, name = part.value(side), words(side.text)
    if side.sign == "name" and value is None and side.text.lower() in NULLS and side.text not in script.settings:
        return "null", side.start, f"{name} is an attribute's name here: compare with \"\" for one that isn't set"
    if value is None or value.lower() not in (b"null", b"nil", b"undefined") or script.has_value(value):
        return None
    if any(ALGORITHM.search(it.text) for it in other.walk() if it.sign == "name"):
        return None
    return "null", side.start, f"\"{words(value)}\" is a text as any other: an attribute that isn't set is \"\""


def lint_pattern(part: Part, side: Node, script: Script) -> Optional[Found]:
    """A text with a wildcard, which is compared as it stands."""
    value = part.value(side)
    if value is None or script.has_value(value):
        return None
    if b"*" in value or value.lower() == b"any" or PATTERN.search(value):
        return "wildcard", place_in(part, side), f"\"{words(value)}\" stands for itself alone: there are no patterns"
    return None


def lint_text(part: Part, side: Node, other: Node, script: Script) -> Optional[Found]:
    """Texts that no single value of an attribute is equal to: networks, ranges, lists, and spaces at an end."""
    value, name = part.value(side), attribute_of(part, other)
    if value is None or not name or value in script.settings.get(name, ()):
        return None
    told, at, given = words(value), place_in(part, side), script.settings.get(name, set())
    hosts = HOSTS.search(name) and not NETS.search(name) or any(ADDRESS.fullmatch(it) for it in given)
    if hosts and (NETWORK.fullmatch(value) or RANGE.fullmatch(value)):
        what = f"\"{told}\" is a text, which no single address is equal to: compare bounds with three digits each"
        return "network", at, what
    if SPAN.fullmatch(value) and (COUNTED.search(name) or any(NUMERIC.fullmatch(it) for it in given)):
        return "list", at, f"\"{told}\" is a text, and no range: compare @{words(name)} with both ends"
    if LIST.fullmatch(value) and (is_kind(name, value) or is_listed(value, given)):
        return "list", at, f"\"{told}\" is one text: compare with each, and join the comparisons by ||"
    if value != value.strip(b" ") and value.strip() and b"\n" not in value:
        return "spaces", at, f"each space counts, and this text has one at an end: {told!r}"
    return None


def place_in(part: Part, side: Node) -> int:
    """Where a text stands: that of a constant where the constant has it."""
    return part.constants[side.text].start if side.sign == "name" else side.start


def is_kind(name: bytes, value: bytes) -> bool:
    """Whether an attribute has single words of a short list, or somebody's name."""
    return has_kind(name) or b"||" in value or name.lower() in HOLDERS and value == value.lower()


def has_kind(name: bytes) -> bool:
    return name.lower() in KINDS or name.lower().rpartition(b"_")[2] in KINDS


def is_listed(value: bytes, given: Set[bytes]) -> bool:
    """Whether requests set a part of a list."""
    return any(it.strip() in given for it in re.split(rb"[,|;]", value))


def attribute_of(part: Part, node: Node) -> bytes:
    return node.text if node.sign == "name" and part.value(node) is None else b""


def lint_bare(part: Part, script: Script) -> Iterator[Found]:
    """Texts that stand without quotes where an attribute is compared, as `role == admin`."""
    for node in (it for it in nodes_of(part.clauses) if it.sign in ("==", "!=")):
        names = [attribute_of(part, it) for it in node.parts]
        if not all(names) or names[0] == names[1]:
            continue
        for at, side in reversed(list(enumerate(node.parts))):
            bare = names[at]
            if is_bare(names[1 - at], bare, script):
                what = f"this is an attribute, and empty where it isn't set: write \"{words(bare)}\" for the text"
                yield "bare", side.start, what
                break


def is_bare(name: bytes, bare: bytes, script: Script) -> bool:
    """Whether a name is surely a text of which the quotes are missing."""
    is_used = bare in script.settings or bare in script.constants or script.names[bare] > script.paired[bare]
    if is_used or bare.lower() in NULLS or b"_" in (name[:1], bare[:1]):
        return False
    if bare in script.texts.get(name, ()) or bare in script.settings.get(name, ()):
        return True
    ends, others = segments(name), segments(bare)
    known = HOLDERS | KINDS | HOLDING
    return has_kind(name) and not ends & others and not others & known and bare.lower() not in known


def segments(name: bytes) -> Set[bytes]:
    return {it.lower() for it in re.findall(rb"[A-Z]?[a-z0-9]+|[A-Z]+", name)}


def lint_joined(part: Part, script: Script) -> Iterator[Found]:
    """A dot between two names as for a field of a record, and $ before a name as in a shell."""
    for node in (it for it in nodes_of(part.clauses) if it.sign in COMPARISONS):
        for side, other in (node.parts, node.parts[::-1]):
            text, source = part.value(other), part.text[side.start:side.end]
            is_path = side.sign == "." and re.fullmatch(rb"[A-Za-z]\w*(?:\.[A-Za-z]\w*)+", source)
            if is_path and text and not text.isdigit() and not is_joined(part, side, text, script):
                names = ", ".join(words(it.text) for it in side.parts)
                yield "dot", side.start, f"the dot joins the texts of {names}: it reaches no field"
            name = words(attribute_of(part, side.parts[0])) if side.sign == "$" else ""
            if name and other.sign != "$" and is_variable(part, name.encode(), script):
                what = f"$ gives the attribute that the text of {name} names: write {name} for its own text"
                yield "dollar", side.start, what


def is_variable(part: Part, name: bytes, script: Script) -> bool:
    """Whether the text of an attribute surely is no attribute's name."""
    given = script.settings.get(name, set())
    if given:
        return not any(it in script.settings or it in part.constants for it in given)
    return name.lower() in KINDS | HOLDERS - {b"name"}


def is_joined(part: Part, node: Node, text: bytes, script: Script) -> bool:
    """Whether values that requests set make this text together."""
    texts = {b""}
    for it in node.parts:
        value = part.value(it)
        given = {value} if value is not None else script.settings.get(it.text, set())
        texts = {one + more for one in list(texts)[:50] for more in given}
    return text in texts
