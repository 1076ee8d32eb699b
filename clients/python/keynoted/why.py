"""Which assertions stand nearest to a higher answer, and what each of them lacks.

Nothing is decided here: each fact is an answer of the program to a hypothetical question. A private assertion by a new
principal, which nobody licenses, changes nothing else; its level stands in the rows of the proof, which name whoever
has a value above the lowest. So the program says what the conditions of an assertion give by themselves, what its
licensees have, whether a test is true, and what the answer would be if what lacks were there.
"""

from __future__ import annotations

import argparse
from typing import Dict, Iterable, Iterator, List, Mapping, NamedTuple, Optional, Sequence, Tuple

from .answers import Answer
from .arguments import Text
from .connection import Connection, start
from .errors import Refusal
from .parts import Part, normal, parts_of, words
from .trees import Clause, Node

PROBES = 48  # private assertions of one question: a session has at most 64
PROBE_BYTES = 131072  # of their texts: a session has at most 262,144
TEXT_BYTES = 16384
ROOM = 1000  # requests that one question has at most
COUNTS = ("no", "one", "two", "three", "four", "five", "six", "seven", "eight", "nine")


class Lack(NamedTuple):
    """An assertion by its number in the file, and what it lacks: requesters, tests, and both in words."""

    number: int
    part: Part
    principals: Tuple[bytes, ...]
    tests: Tuple[Node, ...]
    what: str


class Near(NamedTuple):
    """What an assertion lacks, and the index that the answer would have with that."""

    lack: Lack
    reached: int


class Way(NamedTuple):
    """A way to a value of a program: the parts of the tests before it, and the value."""

    tests: Tuple[Node, ...]
    value: Optional[Node]


class Inquiry:
    """Hypothetical questions about one query, by its requesters, attributes and values, over a policy's assertions."""

    def __init__(self, policy: str, requesters: Sequence[str], attributes: Mapping[Text, Text],
                 values: Sequence[str]) -> None:
        self.policy, self.attributes, self.values = policy, attributes, tuple(values)
        parts = parts_of(policy)
        self.requesters = [normal(it.encode("utf-8", "surrogateescape")) for it in requesters]
        known = {who for part in parts for number in (1, 5) for _, who in part.principals(number)}
        self.prefix = b"why"
        while any(who.startswith(self.prefix) for who in known):
            self.prefix += b"?"
        # the assertions by their numbers, but those whose copies with other principals might be too long
        longest = max((4 * len(it) for it in self.requesters), default=0)
        self.parts = {at: it for at, it in enumerate(parts, 1) if len(it.text) + longest + 64 <= TEXT_BYTES}
        self.known: Dict[bytes, int] = {}
        self.daemon: Connection = start(policy, loading=None)

    def __enter__(self) -> Inquiry:
        return self

    def __exit__(self, *_: object) -> None:
        self.daemon.close()

    def ask(self, private: Sequence[bytes] = (), requesters: Sequence[bytes] = ()) -> Answer:
        """The program's answer with these private assertions and further requesters."""
        if self.daemon.left() < ROOM:
            self.daemon.close()
            self.daemon = start(self.policy, loading=None)
        return self.daemon.ask([*self.requesters, *requesters], self.attributes, self.values, private)

    def level(self, body: bytes) -> int:
        """What an assertion is worth whose fields are these, but for its authorizer."""
        if body not in self.known:
            self.prepare([body])
        return self.known[body]

    def prepare(self, bodies: Iterable[bytes]) -> None:
        """Asks what assertions of these fields are worth, many at once."""
        batch: List[bytes] = []
        for body in dict.fromkeys(it for it in bodies if it not in self.known):
            if len(batch) == PROBES or sum(map(len, batch)) + len(body) > PROBE_BYTES:
                self.ask_levels(batch)
                batch = []
            batch.append(body)
        if batch:
            self.ask_levels(batch)

    def ask_levels(self, batch: Sequence[bytes]) -> None:
        names = [self.prefix + b" %d" % at for at in range(len(batch))]
        held = {row.principal: row.level for row in self.ask([assertion(*it) for it in zip(names, batch)]).rows}
        self.known.update({body: held.get(name, 0) for name, body in zip(names, batch)})

    def conditions(self, part: Part, text: bytes) -> bytes:
        """The fields of conditions by themselves: what a requester has who is licensed under them."""
        return self.licensees(part, quoted(self.requesters[0])) + b"Conditions: " + text + b"\n"

    @staticmethod
    def licensees(part: Part, text: bytes) -> bytes:
        """The fields of licensees by themselves, with the constants of their assertion."""
        field = part.field(6)
        constants = b""
        if field and field.tokens:
            constants = part.text[field.label.start:field.tokens[-1].end] + b"\n"
        return constants + b"Licensees: " + text + b"\n"


def quoted(principal: bytes) -> bytes:
    """The literal of a principal."""
    spelled = (bytes([it]) if 32 <= it < 127 and it not in b'"\\' else b"\\%03o" % it for it in principal)
    return b'"' + b"".join(spelled) + b'"'


def assertion(authorizer: bytes, body: bytes) -> bytes:
    return b"Authorizer: " + quoted(authorizer) + b"\n" + body


def source(part: Part, node: Node) -> bytes:
    return part.text[node.start:node.end]


def nearest(inquiry: Inquiry, index: int, most: int) -> Tuple[List[Near], int]:
    """The assertions that stand nearest to more than this value, at most so many, and how many lack something.

    Those come first with which the answer would be more, of these those that lack the fewest requesters, then tests.
    """
    lacks = sorted(lacks_of(inquiry, index), key=lambda it: (len(it.principals), len(it.tests)))
    enough: List[Near] = []
    others: List[Near] = []
    for lack in lacks:
        near = Near(lack, hypothetical(inquiry, lack))
        (enough if near.reached > index else others).append(near)
        if len(enough) == most:
            break
    return (enough + others)[:most], len(lacks)


def lacks_of(inquiry: Inquiry, index: int) -> Iterator[Lack]:
    """What each assertion lacks that lacks something which might be there."""
    prepare(inquiry, index)
    for number, part in inquiry.parts.items():
        tests, told = lacking_tests(inquiry, part, index)
        who, named = lacking_licensees(inquiry, part, index)
        if tests is not None and (tests or who):
            yield Lack(number, part, who, tests, "; ".join(it for it in (told, named) if it))


def prepare(inquiry: Inquiry, index: int) -> None:
    """Asks beforehand, in few questions, what the parts of all assertions are worth."""
    parts = list(inquiry.parts.values())
    inquiry.prepare(whole_conditions(inquiry, it) for it in parts)
    inquiry.prepare(inquiry.licensees(it, source(it, it.formula)) for it in parts if it.formula)
    short = [it for it in parts if inquiry.level(whole_conditions(inquiry, it)) <= index]
    ways = [(part, way) for part in short for way in ways_of(part.clauses)]
    inquiry.prepare(value_behind(inquiry, part, way.value) for part, way in ways if way.value)
    tests = [(part, test) for part, way in ways if gives(inquiry, part, way) > index for test in way.tests]
    inquiry.prepare(inquiry.conditions(part, source(part, test)) for part, test in tests)
    away = [it for it in parts if it.formula and not has(inquiry, it, it.formula, index)]
    nodes = [(part, node) for part in away if part.formula for node in part.formula.walk()]
    inquiry.prepare(inquiry.licensees(part, source(part, node)) for part, node in nodes)


def whole_conditions(inquiry: Inquiry, part: Part) -> bytes:
    field = part.field(3)
    text = part.text[field.tokens[0].start:field.tokens[-1].end] if field and field.tokens else b""
    return inquiry.conditions(part, text)


def value_behind(inquiry: Inquiry, part: Part, value: Node) -> bytes:
    return inquiry.conditions(part, b"true -> " + source(part, value))


def gives(inquiry: Inquiry, part: Part, way: Way) -> int:
    """The index of the value to which a way leads."""
    return inquiry.level(value_behind(inquiry, part, way.value)) if way.value else len(inquiry.values) - 1


def has(inquiry: Inquiry, part: Part, node: Node, index: int) -> bool:
    """Whether a formula has more than this value."""
    return inquiry.level(inquiry.licensees(part, source(part, node))) > index


def hypothetical(inquiry: Inquiry, lack: Lack) -> int:
    """The index of the answer if the missing principals requested too, and the missing tests weren't there."""
    part = lack.part
    if not part.formula:
        return 0
    authorizer = next(it for _, it in part.principals(1))
    # a private assertion can't be by POLICY, which has what its assertion is worth
    stand_in = inquiry.prefix if authorizer == b"POLICY" else authorizer
    text = assertion(stand_in, inquiry.licensees(part, source(part, part.formula)))
    try:
        answer = inquiry.ask([text] if lack.tests else [], lack.principals)
    except Refusal:
        return 0  # so many can't request, or POLICY would
    worth = max((row.level for row in answer.rows if row.principal == inquiry.prefix), default=0)
    return max(answer.index, worth)


def lacking_licensees(inquiry: Inquiry, part: Part, index: int) -> Tuple[Tuple[bytes, ...], str]:
    """Principals with whom the licensees have more than this, the fewest, and all ways to that in words."""
    if not part.formula or has(inquiry, part, part.formula, index):
        return (), ""
    who, told, several = lacking(inquiry, part, part.formula, index)
    return who, f"{told} {'are' if several else 'is'} missing"


def lacking(inquiry: Inquiry, part: Part, node: Node, index: int) -> Tuple[Tuple[bytes, ...], str, bool]:
    """The fewest principals that lack for a formula, what lacks in words, and whether that is more than one."""
    if not node.parts:
        principal = part.principal(node)
        return (principal,), words(principal), False
    away = [lacking(inquiry, part, it, index) for it in node.parts if not has(inquiry, part, it, index)]
    need = node.threshold - (len(node.parts) - len(away))
    fewest = sorted(away, key=lambda it: len(it[0]))[:need]
    who = tuple(dict.fromkeys(principal for it in fewest for principal in it[0]))
    if need == len(away):
        return who, " and ".join(it[1] for it in away), len(away) > 1 or away[0][2]
    count = COUNTS[need] if need < len(COUNTS) else str(need)
    more = " more" if len(away) < len(node.parts) else ""
    return who, f"{count}{more} of " + ", ".join(f"({it[1]})" if it[2] else it[1] for it in away), need > 1


def lacking_tests(inquiry: Inquiry, part: Part, index: int) -> Tuple[Optional[Tuple[Node, ...]], str]:
    """The tests that lack for a value above this, by the way with the fewest, and in words; none where no way is."""
    given = inquiry.level(whole_conditions(inquiry, part))
    if given > index:
        return (), ""
    ways = [it for it in ways_of(part.clauses) if gives(inquiry, part, it) > index]
    if not ways:
        return None, ""
    fewest = min((untrue(inquiry, part, it) for it in ways), key=len)
    told = dict.fromkeys(it for test in fewest for it in failing(inquiry, part, test))
    return fewest, "; ".join([f"its conditions give {inquiry.values[given]} with these attributes", *told])


def untrue(inquiry: Inquiry, part: Part, way: Way) -> Tuple[Node, ...]:
    """The tests of a way that aren't true."""
    return tuple(it for it in way.tests if not inquiry.level(inquiry.conditions(part, source(part, it))))


def ways_of(clauses: Sequence[Clause], before: Tuple[Node, ...] = ()) -> Iterator[Way]:
    """The ways through a program, each to one value."""
    for clause in clauses:
        tests = before + (clause.test.parts if clause.test.sign == "&&" else (clause.test,))
        if clause.program is None:
            yield Way(tests, clause.value)
        else:
            yield from ways_of(clause.program, tests)


def failing(inquiry: Inquiry, part: Part, test: Node) -> List[str]:
    """Why a test isn't true, by the attributes that it names: those that aren't set, or what they are."""
    leaves = [it.text for it in test.walk() if it.sign == "name" and it.text not in part.constants]
    names = [words(it) for it in dict.fromkeys(leaves) if not it.startswith(b"_")]
    unset = [f"{it} isn't set" for it in names if it not in inquiry.attributes]
    if unset:
        return unset
    known = ", ".join(f"{it} is {inquiry.attributes[it]!s}" for it in names)
    return [f"{part.source(test)} isn't true" + (f" where {known}" if known else "")]


def tell(inquiry: Inquiry, index: int, most: int) -> Iterator[str]:
    """The assertions that stand nearest to more than this value, in words."""
    found, count = nearest(inquiry, index, most)
    for lack, reached in found:
        more = "that alone isn't enough"
        if reached > index:
            more = f"with that the answer would be {inquiry.values[reached]}"
        yield f"a{lack.number}, {lack.part.place(0)}: {lack.what}; {more}"
    if not count:
        yield "no assertion gives more to whoever requests"
    if count > len(found):
        yield f"{count - len(found)} more are as far or farther: --most {count} tells all"


def run_why(args: argparse.Namespace) -> int:
    """Asks once, and tells what lacks where the answer is below the value that is wanted."""
    values = args.values.split(",")
    attributes: Dict[Text, Text] = dict(pair.partition("=")[::2] for pair in args.set)
    with Inquiry(args.policy, args.auth, attributes, values) as inquiry:
        answer = inquiry.ask()
        print(f"answer: {answer.name}, which is {answer.index} of {args.values}")
        enough = answer.at_least(args.at_least or values[-1])
        if not enough and not args.auth:
            raise ValueError("nobody asks: name a requester by --auth")
        below = values.index(args.at_least) - 1 if args.at_least else answer.index
        for line in tell(inquiry, below, args.most) if not enough else ():
            print(line)
    return 0 if enough else 1


def add_commands(commands: argparse._SubParsersAction[argparse.ArgumentParser]) -> None:
    why = commands.add_parser("why", help="tells what lacks for a higher answer: 0 nothing, 1 something, 2 an error")
    why.add_argument("policy", help="the policy file")
    why.add_argument("--auth", action="append", default=[], metavar="PRINCIPAL", help="who asks")
    why.add_argument("--set", action="append", default=[], metavar="NAME=VALUE", help="an attribute of the action")
    why.add_argument("--values", required=True, help="the values, the lowest first, with commas between")
    why.add_argument("--at-least", metavar="VALUE", help="the value that is wanted (else the highest)")
    why.add_argument("--most", type=int, default=3, metavar="N", help="how many assertions are told (3)")
    why.set_defaults(run=run_why)
