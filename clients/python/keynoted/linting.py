"""Warnings of what is accepted and surely not meant, in policies, scripts of requests and key files."""

from __future__ import annotations

from typing import Dict, Iterable, Iterator, List, NamedTuple, Optional, Sequence, Set, Tuple

from .assertions import Placed, lint_beside, lint_twice
from .clauses import NO
from .keyfiles import lint_keys
from .near import plain
from .naming import take_parts
from .parts import QUESTIONS, Part, Script, normal, parts_of, requests_of, texts_in, words
from .rules import lint_part
from .texts import place_of, read_file
from .trials import Trials, lint_unmet, lint_unset

YES = {"yes", "true", "ok", "allow", "allowed", "approve", "accept", "permit", "grant", "granted", "open"}


class Finding(NamedTuple):
    """A warning: the word of its rule, where it stands, and what is wrong."""

    rule: str
    place: str
    what: str

    def __str__(self) -> str:
        return f"{self.place}: {self.what}"


def lint(policy: Optional[str], scripts: Sequence[str] = (), keys: Optional[str] = None,
         program: Optional[str] = None) -> List[str]:
    """What is surely not meant in a policy that is accepted, in scripts of requests for it, and in a key file."""
    return [str(it) for it in findings(policy, scripts, keys, program)]


def findings(policy: Optional[str], scripts: Sequence[str] = (), keys: Optional[str] = None,
             program: Optional[str] = None) -> List[Finding]:
    """The same as findings. With a program, it is asked what hangs on attributes that no request sets."""
    own, script, found = parts_of(policy) if policy else [], Script(), []
    parts = list(own)
    if policy and not any(who == b"POLICY" for part in own for _, who in part.principals(1)):
        found.append(Finding("policy", f"{policy}:1:1", "no assertion is by POLICY, so nobody is ever authorized"))
    for name in scripts:
        found += read_script(name, script, parts)
    take_parts(own, parts, script)
    found += lint_requesters(script, script.licensed)
    placed = [*lint_beside(own, parts, script)]
    placed += [(part, *it) for part in parts for it in lint_part(part, script)]
    trials = Trials(policy, scripts, keys, program) if policy and script.orders and program else None
    placed += lint_unset(own, script, trials) if trials else ()
    placed += lint_unmet(own, script, trials) if trials and not placed else ()
    found += in_order(parts, placed)
    found += lint_signatures(own)
    found += in_order(own, lint_twice(own))
    return found + ([Finding(*it) for it in lint_keys(keys, script)] if keys else [])


def in_order(parts: Sequence[Part], placed: Iterable[Placed]) -> Iterator[Finding]:
    """Warnings in the order of their places, one of each rule at a place."""
    told: Dict[Tuple[int, int, str], str] = {}
    numbers = {id(part): number for number, part in enumerate(parts)}
    for part, rule, at, what in placed:
        told.setdefault((numbers[id(part)], at, rule), what)
    for number, at, rule in sorted(told, key=lambda it: it[:2]):
        yield Finding(rule, parts[number].place(at), told[number, at, rule])


def lint_signatures(parts: Sequence[Part]) -> Iterator[Finding]:
    for part in parts:
        for field in (it for it in part.fields if it.number == 7):
            what = "a signature isn't verified in a policy file, whose assertions are all trusted"
            yield Finding("signature", part.place(field.label.start), what)


def read_script(name: str, script: Script, parts: List[Part]) -> List[Finding]:
    """Takes up what a script says, and the assertions that it brings; and warns of its queries."""
    data, found = read_file(name), []
    for at, line, start, end in requests_of(data):
        word, _, rest = line.partition(b" ")
        session, _, rest = rest.partition(b" ")
        place = f"{name}:{place_of(data, at)}"
        script.take(session, word, normal(rest))
        if word in (b"ADD", b"ASSERT"):
            parts.append(Part(name, data, start, end))
        elif word == b"BATCH":
            parts += [Part(name, data, *span) for span in texts_in(data, start, end)]
        elif word in QUESTIONS:
            script.orders.append(rest.split(b","))
            found += [Finding("order", place, it) for it in lint_values(words(rest).split(","))]
        elif word == b"AUTH":
            script.requesters.append((place, normal(rest)))
        elif word in (b"SET", b"SETX"):
            attribute, _, value = rest.partition(b" ")
            script.settings.setdefault(attribute, set()).add(value if word == b"SET" else bytes_of_digits(value))
    return found


def bytes_of_digits(digits: bytes) -> bytes:
    try:
        return bytes.fromhex(digits.decode("ascii"))
    except ValueError:
        return digits  # the daemon refuses it


def lint_values(values: Sequence[str]) -> Iterator[str]:
    lower = [it.lower() for it in values]
    if lower[0] in YES or lower[0] not in NO and set(lower[1:]) & NO:
        yield f"the first value, {values[0]}, is what a refusal gives: put the lowest first"


def lint_requesters(script: Script, licensed: Set[bytes]) -> Iterator[Finding]:
    """Requesters that nobody licenses, where no requester is licensed, or their names are nearly licensed ones."""
    strangers_alone = not any(who in licensed for _, who in script.requesters)
    known = {plain(it) for it in licensed}
    for place, who in script.requesters:
        if who not in licensed and (strangers_alone or plain(who) in known):
            quoted = "; nothing stands in quotes in a request" if who.startswith(b'"') else ""
            yield Finding("requester", place, f"no assertion licenses {words(who)}" + quoted)
