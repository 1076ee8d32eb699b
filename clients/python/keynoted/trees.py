"""The trees of licensees and conditions that the daemon has accepted: only to speak of their parts, never to decide."""

from __future__ import annotations

from typing import Callable, Iterator, List, NamedTuple, Optional, Sequence, Tuple

from .texts import Field, Token

COMPARISONS = ("==", "!=", "<", ">", "<=", ">=")
SUMS, PRODUCTS, POWERS = ("+", "-", "."), ("*", "/", "%"), ("^",)


class Node(NamedTuple):
    """A part of a formula or of a test: a leaf, whose sign is its token's sort, or an operator over parts."""

    sign: str  # text, name, number, truth; && || ! == .. @ $ - + . and so on; K-of has the sign "of"
    start: int
    end: int
    parts: Tuple[Node, ...]
    text: bytes  # of a leaf, or the K of a threshold
    bracketed: bool

    def walk(self) -> Iterator[Node]:
        yield self
        for part in self.parts:
            yield from part.walk()

    @property
    def threshold(self) -> int:
        """How many parts have to hold: of &&, || and K-of."""
        return int(self.text) if self.sign == "of" else 1 if self.sign == "||" else len(self.parts)


class Clause(NamedTuple):
    """A clause of a program: its test, and behind `->` a value or a program, or neither."""

    test: Node
    value: Optional[Node]
    program: Optional[Tuple[Clause, ...]]

    def walk(self) -> Iterator[Clause]:
        yield self
        for clause in self.program or ():
            yield from clause.walk()


class Unread(Exception):
    """The tokens aren't those of a field that the daemon accepts."""


class Parser:
    """Reads the tokens of one field."""

    def __init__(self, tokens: Sequence[Token]) -> None:
        self.tokens, self.at = tokens, 0

    def token(self) -> Token:
        return self.tokens[self.at] if self.at < len(self.tokens) else Token("end", 0, 0, b"")

    def next(self) -> Token:
        token = self.token()
        if token.sort == "end":
            raise Unread("the field ends")
        self.at += 1
        return token

    def take(self, *signs: str) -> str:
        token = self.token()
        if token.sort != "sign" or token.text.decode() not in signs:
            return ""
        self.at += 1
        return token.text.decode()

    def need(self, sign: str) -> Token:
        if not self.take(sign):
            raise Unread(f"no {sign}")
        return self.tokens[self.at - 1]

    def joined(self, sign: str, part: Callable[[], Node]) -> Node:
        """Parts joined by one sign, as one node; a part alone is itself."""
        parts = [part()]
        while self.take(sign):
            parts.append(part())
        return parts[0] if len(parts) == 1 else Node(sign, parts[0].start, parts[-1].end, tuple(parts), b"", False)

    def chain(self, signs: Sequence[str], part: Callable[[], Node]) -> Node:
        """Parts joined by signs of one precedence, as one node of the first sign: these are all of one kind."""
        parts, first = [part()], ""
        sign = self.take(*signs)
        while sign:
            first = first or sign
            parts.append(part())
            sign = self.take(*signs)
        return parts[0] if len(parts) == 1 else Node(first, parts[0].start, parts[-1].end, tuple(parts), b"", False)

    def bracket(self, whole: Callable[[], Node]) -> Node:
        start = self.need("(").start
        inner = whole()
        return inner._replace(start=start, end=self.need(")").end, bracketed=True)

    def leaf(self) -> Node:
        token = self.next()
        if token.sort not in ("text", "number", "name"):
            raise Unread("no value")
        sort = "truth" if token.sort == "name" and token.text.lower() in (b"true", b"false") else token.sort
        return Node(sort, token.start, token.end, (), token.text, False)

    # licensees

    def formula(self) -> Node:
        return self.joined("||", lambda: self.joined("&&", self.member))

    def member(self) -> Node:
        if self.token().text == b"(":
            return self.bracket(self.formula)
        first = self.leaf()
        if first.sign != "number":
            return first._replace(sign="text" if first.sign == "text" else "name")
        self.need("-")
        self.next()
        self.need("(")
        parts = [self.formula()]
        while self.take(","):
            parts.append(self.formula())
        return Node("of", first.start, self.need(")").end, tuple(parts), first.text, False)

    # conditions

    def program(self) -> Tuple[Clause, ...]:
        clauses: List[Clause] = []
        while True:
            while self.take(";"):
                pass
            if self.token().sort == "end" or self.token().text == b"}":
                return tuple(clauses)
            clauses.append(self.clause())

    def clause(self) -> Clause:
        test = self.either()
        if not self.take("->"):
            return Clause(test, None, None)
        if self.take("{"):
            program = self.program()
            self.need("}")
            return Clause(test, None, program)
        return Clause(test, self.either(), None)

    def either(self) -> Node:
        return self.joined("||", lambda: self.joined("&&", self.negated))

    def negated(self) -> Node:
        start = self.token().start
        if not self.take("!"):
            return self.comparison()
        part = self.negated()
        return Node("!", start, part.end, (part,), b"", False)

    def comparison(self) -> Node:
        left = self.sum()
        sign = self.take(*COMPARISONS)
        if not sign:
            return left
        right = self.sum()
        return Node(sign, left.start, right.end, (left, right), b"", False)

    def sum(self) -> Node:
        return self.chain(SUMS, lambda: self.chain(PRODUCTS, lambda: self.chain(POWERS, self.unary)))

    def unary(self) -> Node:
        start = self.token().start
        sign = self.take("-", "@", "$")
        if not sign:
            return self.bracket(self.either) if self.token().text == b"(" else self.leaf()
        part = self.unary()
        return Node(sign, start, part.end, (part,), b"", False)


def formula_of(field: Optional[Field]) -> Optional[Node]:
    """The formula of a Licensees field; nothing where it is missing, empty, or not of its form."""
    if not field or not field.tokens:
        return None
    parser = Parser(field.tokens)
    try:
        node = parser.formula()
    except Unread:
        return None
    return node if parser.token().sort == "end" else None


def clauses_of(field: Optional[Field]) -> Tuple[Clause, ...]:
    """The clauses of a Conditions field; none where it is missing, empty, or not of its form."""
    if not field:
        return ()
    parser = Parser(field.tokens)
    try:
        clauses = parser.program()
    except Unread:
        return ()
    return clauses if parser.token().sort == "end" else ()


def nodes_of(clauses: Sequence[Clause]) -> Iterator[Node]:
    """All nodes of the tests and values of these clauses."""
    for top in clauses:
        for clause in top.walk():
            yield from clause.test.walk()
            if clause.value:
                yield from clause.value.walk()
