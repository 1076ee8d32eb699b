"""The rules of `lint` on names and words: constants in the wrong place, attributes that no request sets, and words that
are nearly others."""

from __future__ import annotations

import re
from collections import Counter
from typing import Iterator, List, Sequence, Set, Tuple

from .comparing import attribute_of
from .near import near_in, nearly
from .parts import SPECIAL, Found, Part, Script, words
from .trees import COMPARISONS, Node, nodes_of
from .vocabulary import NULLS

ORDER = re.compile(r"(?i)\bvalues?\b[^:\n]{0,40}:\s*([\w-]+(?:(?:\s*[,<]\s*(?:and )?|\s+and\s+)[\w-]+)+)")


def orders_in(data: bytes) -> List[List[bytes]]:
    """The orders of values that the comments of a file say, as `Values, the lowest first: none, read, write`."""
    remarks = words(re.sub(rb"\n#[ \t]*", b" ", data[:65536])).split("\n")
    lines = [it for it in remarks if it.lstrip().startswith("#") or it.lower().startswith("comment:")]
    found = [re.split(r"\s*[,<]\s*(?:and )?|\s+and\s+", match[1]) for line in lines for match in ORDER.finditer(line)]
    return [[it.encode() for it in order] for order in found if len(set(order)) == len(order)]


def take_parts(own: Sequence[Part], parts: Sequence[Part], script: Script) -> None:
    """Keeps what all assertions name, and the order of values that a comment says where it has most of them."""
    for part in parts:
        values = (part.value(it.value) for top in part.clauses for it in top.walk() if it.value)
        script.named.update(it for it in values if it is not None)
        script.authors |= part.who(1)
        script.licensed |= part.who(5)
        script.constants.update((it, part) for it in part.constants if it not in script.constants)
        for name, text, _ in compared_texts(part):
            script.texts.setdefault(name, Counter())[text] += 1
        script.tested.update((it, part) for names in tested(part) for it in names if it not in script.tested)
        for node in nodes_of(part.clauses):
            script.names.update([node.text] if node.sign == "name" else ())
            sides = [attribute_of(part, it) for it in node.parts] if node.sign in ("==", "!=") else []
            script.paired.update(sides if all(sides) else ())
    told = orders_in(own[0].data) if own else []
    script.told = [it for it in told if len(set(it) & set(script.named)) * 2 >= len(script.named) > 0]


def lint_constants(part: Part, script: Script) -> Iterator[Found]:
    """Constants that nothing uses, and those in whose place an attribute was meant."""
    tokens = [it for field in part.fields if field.number in (1, 3, 5) for it in field.tokens]
    used = {it.text for it in tokens if it.sort == "name"}
    quoted = {it.text[1:-1] for it in tokens if it.sort == "text"}
    near = {near_in(it, set(part.constants) - used) for it in used - set(part.constants)}
    for token in (it for field in part.fields if field.number == 6 for it in field.tokens):
        if token.sort != "name" or token.text not in part.constants:
            continue
        name = words(token.text)
        if token.text not in used | quoted | near and all(it.text != b"$" for it in tokens):
            yield "unused", token.start, f"the constant {name} isn't used"
        why = hidden_by(part, token.text, script)
        if why:
            yield "hidden", token.start, f"the constant {name} hides the attribute of this name: {why}"


def hidden_by(part: Part, name: bytes, script: Script) -> str:
    """Why the attribute was meant where a condition has a constant's name; empty where it wasn't."""
    nodes = list(nodes_of(part.clauses))
    if all(it.text != name or it.sign != "name" for it in nodes):
        return ""
    for node in nodes:
        leaves = [it for it in node.walk() if not it.parts] if node.sign in COMPARISONS else []
        is_fixed = all(it.sign == "number" or part.value(it) is not None for it in leaves)
        if is_fixed and any(it.text == name and it.sign == "name" for it in leaves):
            return f"the comparison at {part.spot(node.start)} has no attribute"
    if name in script.settings:
        return "a request sets it"
    return f"{script.tested[name].place(0)} has a condition on it" if name in script.tested else ""


def tested(part: Part) -> Iterator[Set[bytes]]:
    """The attributes that a comparison tests by themselves: those of one with two names aren't told apart."""
    for node in (it for it in nodes_of(part.clauses) if it.sign in COMPARISONS):
        names = {it.text for it in node.walk() if it.sign == "name" and it.text not in part.constants}
        if len(names) == 1:
            yield names


def lint_words(part: Part, script: Script) -> Iterator[Found]:
    """Names in conditions that are constants of another place, or nearly a constant or another attribute, and texts
    that are nearly others of their attribute."""
    behind = {it.value.start for top in part.clauses for it in top.walk() if it.value}
    nodes = [it for it in nodes_of(part.clauses) if it.sign == "name" and it.start not in behind]
    passed = {*part.constants, *script.settings}
    for node in nodes:
        if node.text in passed or node.text.startswith(b"_") or node.text.lower() in NULLS:
            continue
        passed.add(node.text)
        what = meant_name(part, node.text, script)
        if what:
            yield "unset", node.start, what
    yield from lint_texts(part, script)
    yield from lint_quoted(part, script)


def lint_quoted(part: Part, script: Script) -> Iterator[Found]:
    """Constants' names in quotes in conditions."""
    used = {it.text for field in part.fields if field.number in (1, 3, 5) for it in field.tokens if it.sort == "name"}
    for name, text, side in compared_texts(part):
        is_name = side.sign == "text" and text in part.constants and text not in script.settings.get(name, set())
        if is_name and (text not in used or text.isupper()):
            what = f"this is the text {words(text)}, and not the constant of this name: write it without quotes"
            yield "quoted", side.start, what


def meant_name(part: Part, name: bytes, script: Script) -> str:
    """What was meant by the name of an attribute that no request sets; empty where it may be itself."""
    told = words(name)
    if name in script.constants and name not in script.tested:
        at = script.constants[name].place(0)
        return f"{told} is a constant of the assertion at {at} alone: here it is an attribute, which is empty"
    used = {it.text for field in part.fields if field.number in (1, 3, 5) for it in field.tokens}
    near = near_in(name, [it for it in part.constants if it not in script.settings and it not in used])
    if near:
        return f"this is an attribute, and no constant: is {words(near)} meant?"
    if name not in script.near:
        script.near[name] = near_name(name, script)
    return script.near[name]


def near_name(name: bytes, script: Script) -> str:
    """The attribute that a name is nearly, in words."""
    settings = script.settings if script.orders else {}
    given = [it for it in settings if nearly(it, name) or it.lower() == name.lower()]
    if given:
        return f"no request sets {words(name)}: is {words(min(given))} meant?"
    counts = script.names
    often = [it for it in counts if counts[it] > 1 and it[:1] != b"_"] if counts[name] == 1 else []
    near = near_in(name, often)
    return f"{words(name)} stands here alone: is {words(near)} meant?" if near else ""


def lint_texts(part: Part, script: Script) -> Iterator[Found]:
    """Texts that one attribute is compared with, and that are nearly what other comparisons or requests have."""
    for name, text, side in compared_texts(part):
        given, compared = script.settings.get(name, set()), script.texts[name]
        if text in given or not text:
            continue
        often = [it for it in compared if compared[it] > 1] if compared[text] == 1 else []
        near = near_in(text, [*often, *(it for it in given if it not in compared)]) if compared[text] == 1 else None
        if near:
            yield "text", side.start, f"\"{words(text)}\" stands here alone: is \"{words(near)}\" meant?"
        elif name == b"_ACTION_AUTHORIZERS" and b"," not in text and b":" in text and part.principal(side) != text:
            what = f"requesters are named in their normal form: write \"{words(part.principal(side))}\""
            yield "text", side.start, what


def compared_texts(part: Part) -> Iterator[Tuple[bytes, bytes, Node]]:
    for node in (it for it in nodes_of(part.clauses) if it.sign in ("==", "!=")):
        for side, other in (node.parts, node.parts[::-1]):
            name, text = attribute_of(part, side), part.value(other)
            if name and text is not None:
                yield name, text, other


def lint_special(part: Part) -> Iterator[Found]:
    for node in nodes_of(part.clauses):
        if node.sign == "name" and node.text.startswith(b"_") and node.text not in SPECIAL:
            yield "special", node.start, f"{words(node.text)} is always empty: no attribute begins with _"


def lint_values_behind(part: Part, script: Script) -> Iterator[Found]:
    """Values behind `->` that are attributes' values, or values of no query."""
    for node in (it.value for top in part.clauses for it in top.walk() if it.value):
        value, name = part.value(node), words(node.text)
        if value is None:
            if node.sign == "name" and node.text not in SPECIAL:
                what = f"this is the value of the attribute {name}: write \"{name}\" for the value of that name"
                yield "value", node.start, what
            continue
        if script.orders and all(value not in order for order in script.orders):
            yield "value", node.start, f"no query has the value {words(value)}, so this gives the lowest"
            continue
        known = {it for order in script.scales for it in order}
        near = near_in(value, known or {it for it in script.named if script.named[it] > script.named[value]})
        if value in SPECIAL[:2]:
            yield "value", node.start, f"this is a text: write {words(value)} without quotes"
        elif near and value not in known:
            yield "value", node.start, f"no other clause gives {words(value)}: is \"{words(near)}\" meant?"
