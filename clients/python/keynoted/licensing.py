"""The rules of `lint` on who is licensed: principals that stand twice, lists in one pair of quotes, wildcards,
constants' names in quotes, and groups of which the comment or the script says something else."""

from __future__ import annotations

import re
from typing import FrozenSet, Iterator, Set

from .near import nearly, plain
from .parts import Found, Part, Script, words
from .trees import Node
from .vocabulary import ALONE, EVERYBODY, NOT, NUMBERS, OF, TOGETHER

TITLES = re.compile(rb"[=:\"\\]")
LISTED = re.compile(rb"[ ]*(?:,|;|\|\|?|&&)[ ]*")
HEX = re.compile(rb"[a-z0-9-]*-hex:(.*)")


def lint_licensees(part: Part, script: Script) -> Iterator[Found]:
    yield from lint_spelling(part, script)
    field, conditions, by = part.field(5), part.field(3), part.field(1)
    if conditions and conditions.tokens and by and not (field and field.tokens):
        yield "licensees", (field or by).label.start, "the conditions grant nothing: Licensees is missing or empty"
    known = script.authors
    for node in part.formula.walk() if part.formula else ():
        yield from lint_repeated(part, node)
        who = part.principal(node) if not node.parts else b""
        at = part.constants[node.text].start if node.sign == "name" and node.text in part.constants else node.start
        if (b"*" in who or who.lower() in EVERYBODY) and who not in known and not script.asks(who):
            yield "wildcard", at, f"\"{words(who)}\" is one principal's name: there are no wildcards"
        elif who not in known and not script.asks(who) and is_list(who, script):
            yield "list", at, f"\"{words(who)}\" is one principal's name: put each into quotes of its own"
    if part.formula:
        yield from lint_said(part, part.formula)
        yield from lint_asked(part, part.formula, script)


def lint_spelling(part: Part, script: Script) -> Iterator[Found]:
    """Principals that are surely spelled wrong, or that are constants' names in quotes."""
    known = {1: script.licensed, 5: script.authors}
    for number in (1, 5):
        tokens = {it.start: it for field in part.fields if field.number == number for it in field.tokens}
        for start, who in part.principals(number):
            at = part.constants.get(tokens[start].text, tokens[start]).start
            hexadecimal = HEX.fullmatch(who)
            if len(who) > 1 and who[:1] == who[-1:] == b'"':
                yield "quotes", at, "this principal has quotes within"
            elif who != who.strip(b" "):
                yield "spaces", at, f"each space counts, and this principal has one too many: {words(who)!r}"
            elif hexadecimal and re.search(rb"[^0-9a-f]", hexadecimal[1]):
                yield "hex", at, f"{words(who)} isn't hexadecimal"
            elif who in known[number] or script.asks(who):
                continue
            elif tokens[start].sort == "text" and who in script.constants:
                what = f"\"{words(who)}\" is a principal, and not the constant of this name: write it without quotes"
                yield "quoted", at, what
            elif number == 5:
                asked = unasked(who, script)
                if asked:
                    what = f"no requester is {words(who)}: is {words(asked)} meant, who requests and isn't licensed?"
                    yield "asked", at, what


def unasked(who: bytes, script: Script) -> bytes:
    """A requester whom nobody licenses and whose name is nearly that of a licensee who never requests."""
    strangers = {it for _, it in script.requesters if it not in script.licensed and not it.startswith(b'"')}
    return next((it for it in sorted(strangers) if plain(it) == plain(who) or nearly(it, who)), b"")


def is_list(who: bytes, script: Script) -> bool:
    """Whether a text is several principals: plain names with commas between, and no title or name with its parts."""
    names = [it for it in LISTED.split(who) if it]
    if TITLES.search(who) or len(names) < 2:
        return False
    single = all(b" " not in it for it in names)
    is_joined = bool(re.search(rb"\|\||&&", who))
    is_known = any(it in script.authors or it in script.licensed or script.asks(it) for it in names)
    return is_joined or is_known or single and (len(names) > 2 or who.lower() == who)


def lint_repeated(part: Part, node: Node) -> Iterator[Found]:
    """Principals that stand twice where parts are joined, or are enough for two parts of a threshold."""
    seen: Set[bytes] = set()
    for it in node.parts:
        if node.sign == "of":
            alone = enough_alone(part, it)
        else:
            alone = {part.principal(it)} if not it.parts else set()
        for who in sorted(alone & seen):
            counts = ", and counts twice: one requester does for two" if node.sign == "of" else ""
            yield "repeated", it.start, f"{words(who)} stands here twice{counts}"
        seen |= alone


def enough_alone(part: Part, node: Node) -> Set[bytes]:
    """The principals each of which alone meets a formula, by its form."""
    if not node.parts:
        return {part.principal(node)}
    if node.threshold > 1:
        return set()
    return {who for it in node.parts for who in enough_alone(part, it)}


def remark_of(part: Part) -> str:
    """What an assertion's own comments say."""
    text = b" ".join(it.label.text.partition(b":")[2] for it in part.fields if it.number == 2)
    remarks = re.match(rb"(?:#[^\n]*\n)*", part.text)
    return words(b" ".join(((remarks[0] if remarks else b"") + b" " + text).replace(b"#", b" ").split()))


def number_in(word: str) -> int:
    return NUMBERS.get(word.lower()) or int(word)


def lint_said(part: Part, formula: Node) -> Iterator[Found]:
    """Groups of principals of which the assertion's comment says something else."""
    said = remark_of(part)
    thresholds = [it for it in formula.walk() if it.sign == "of"]
    counts = {(number_in(one), number_in(members)) for one, members in OF.findall(said)}
    if len(thresholds) == 1 and len(counts) == 1:
        wanted, members = min(counts)
        found = thresholds[0]
        if members == len(found.parts) and wanted != found.threshold and 1 < wanted <= members:
            what = f"the comment says {wanted} of {members}, and here {found.threshold} of {members} are asked for"
            yield "said", found.start, what
    if NOT.search(said) or any(it.parts for it in formula.parts):
        return
    if formula.sign == "&&" and ALONE.search(said):
        what = "&& asks that all request together, and the comment says that one is enough: write ||"
        yield "said", formula.start, what
    if formula.sign == "||" and len(formula.parts) == 2 and TOGETHER.search(said):
        what = "|| lets one request alone, and the comment says that they have to together: write &&"
        yield "said", formula.start, what


def lint_asked(part: Part, formula: Node, script: Script) -> Iterator[Found]:
    """Groups whose members all request in the scripts, but never so that the group is complete."""
    members = {part.principal(it) for it in formula.walk() if not it.parts}
    asking = [it for it in script.asking if it & members]
    if len(members) < 2 or enough_alone(part, formula) or any(is_met(part, formula, it) for it in asking):
        return
    if all(frozenset((who,)) in asking for who in members):
        what = "each of these requests alone in the script, and no request is of as many as are asked for here"
        yield "alone", formula.start, what


def is_met(part: Part, node: Node, present: FrozenSet[bytes]) -> bool:
    """Whether requesters complete a group by themselves."""
    if not node.parts:
        return part.principal(node) in present
    return sum(is_met(part, it, present) for it in node.parts) >= node.threshold
