"""The assertions of policies and scripts in their parts, and what scripts say: what lint, why and pictures speak of."""

from __future__ import annotations

import re
from collections import Counter
from typing import Dict, FrozenSet, Iterator, List, Optional, Set, Tuple

from .answers import NUMBER
from .texts import Field, Token, constants_of, fields_of, place_of, read_file, split_file, value_of
from .trees import Clause, Node, clauses_of, formula_of

SPECIAL = (b"_MIN_TRUST", b"_MAX_TRUST", b"_VALUES", b"_ACTION_AUTHORIZERS")
Found = Tuple[str, int, str]  # a warning: the rule's word, the place in the assertion, and what is wrong
BLOCK = re.compile(rb"(?:ADD|BATCH|ASSERT %b) %b" % (NUMBER, NUMBER))
QUESTIONS = (b"QUERY", b"WATCH", b"CRITICAL")
ITEM = re.compile(rb"ADD %b\n|DROP a%b\n" % (NUMBER, NUMBER))


class Part:
    """An assertion of a file: the file's name and bytes, and where in it the assertion begins."""

    def __init__(self, name: str, data: bytes, start: int, end: int) -> None:
        self.name, self.data, self.start, self.text = name, data, start, data[start:end]
        self.fields = fields_of(self.text)
        self.named: Dict[int, List[Tuple[int, bytes]]] = {}
        self.constants: Dict[bytes, Token] = constants_of(self.fields)
        self.formula: Optional[Node] = formula_of(self.field(5))
        self.clauses: Tuple[Clause, ...] = clauses_of(self.field(3))

    def field(self, number: int) -> Optional[Field]:
        return next((it for it in self.fields if it.number == number), None)

    def place(self, at: int) -> str:
        return f"{self.name}:{self.spot(at)}"

    def spot(self, at: int) -> str:
        """A place without the file's name."""
        return place_of(self.data, self.start + at)

    def source(self, node: Node) -> str:
        """A part of the assertion as it is written, on one line."""
        return " ".join(self.text[node.start:node.end].decode("utf-8", "replace").split())

    def value(self, node: Node) -> Optional[bytes]:
        """The text of a literal, or of a name that is a local constant's."""
        if node.sign == "name":
            return value_of(self.constants[node.text]) if node.text in self.constants else None
        return value_of(Token("text", node.start, node.end, node.text)) if node.sign == "text" else None

    def principal(self, node: Node) -> bytes:
        """A principal of a formula in normal form."""
        value = self.value(node)
        return normal(value) if value is not None else node.text

    def principals(self, number: int) -> List[Tuple[int, bytes]]:
        """The principals of this field in normal form, with their places."""
        if number not in self.named:
            self.named[number] = list(self.find_principals(number))
        return self.named[number]

    def who(self, number: int) -> FrozenSet[bytes]:
        return frozenset(who for _, who in self.principals(number))

    def find_principals(self, number: int) -> Iterator[Tuple[int, bytes]]:
        for token in (it for field in self.fields if field.number == number for it in field.tokens):
            literal = self.constants.get(token.text, token)
            if literal.sort == "text":
                yield token.start, normal(value_of(literal))
            elif token.text == b"POLICY":
                yield token.start, b"POLICY"


class Script:
    """What scripts of requests say: the values of their queries, what they set, and who requests; and what a policy
    says of its values."""

    def __init__(self) -> None:
        self.orders: List[List[bytes]] = []
        self.told: List[List[bytes]] = []  # an order of values in a comment
        self.named: Counter[bytes] = Counter()  # the values behind `->`
        self.authors: Set[bytes] = set()  # of all assertions, as what follows
        self.licensed: Set[bytes] = set()
        self.constants: Dict[bytes, Part] = {}  # each with an assertion that has it
        self.names: Counter[bytes] = Counter()  # in conditions
        self.paired: Counter[bytes] = Counter()  # of these, the two of == and !=
        self.texts: Dict[bytes, Counter[bytes]] = {}  # that attributes are compared with
        self.tested: Dict[bytes, Part] = {}  # attributes that a comparison tests alone, with an assertion that does
        self.near: Dict[bytes, str] = {}  # what a name of an attribute is nearly
        self.asking: List[FrozenSet[bytes]] = []  # the requesters of each query
        self.present: Dict[bytes, Set[bytes]] = {}  # of each session, as the script is read
        self.settings: Dict[bytes, Set[bytes]] = {}
        self.requesters: List[Tuple[str, bytes]] = []

    @property
    def scales(self) -> List[List[bytes]]:
        """The orders of values: of the queries, or of a comment where there are none."""
        return self.orders or self.told

    def take(self, session: bytes, word: bytes, principal: bytes) -> None:
        """Keeps who requests in a session."""
        present = self.present.setdefault(session, set())
        if word == b"AUTH":
            present.add(principal)
        elif word == b"UNAUTH":
            present.discard(principal)
        elif word in QUESTIONS:
            self.asking.append(frozenset(present))
        elif word in (b"OPEN", b"CLEAR", b"CLOSE"):
            present.clear()

    def asks(self, principal: bytes) -> bool:
        return any(who == principal for _, who in self.requesters)

    def has_value(self, value: bytes) -> bool:
        return any(value in values for values in self.settings.values())


def normal(principal: bytes) -> bytes:
    """The normal form of a principal."""
    head, colon, rest = principal.partition(b":")
    return principal if not colon else head.lower() + b":" + (rest.lower() if head.lower().endswith(b"-hex") else rest)


def words(text: bytes) -> str:
    return text.decode("utf-8", "replace")


def requests_of(script: bytes) -> Iterator[Tuple[int, bytes, int, int]]:
    """The lines of a script, each with its place, and where its block begins and ends."""
    at = 0
    while at < len(script):
        end = script.find(b"\n", at) % (len(script) + 1)
        line = script[at:end]
        line = line[:-1] if line.endswith(b"\r") else line
        block = BLOCK.fullmatch(line)
        size = int(block[2]) if block else 0
        yield at, line, end + 1, end + 1 + size
        at = end + 1 + (size + 1 if block else 0)


def texts_in(script: bytes, at: int, end: int) -> Iterator[Tuple[int, int]]:
    """Where in the block of a batch the texts begin and end that it adds."""
    while True:
        item = ITEM.match(script, at, end)
        if not item:
            return
        at = item.end()
        if item[1]:
            yield at, min(at + int(item[1]), end)
            at += int(item[1]) + 1


def parts_of(policy: str) -> List[Part]:
    """The assertions of a policy file."""
    data = read_file(policy)
    return [Part(policy, data, start, end) for start, end in split_file(data)]
