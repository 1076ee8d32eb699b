"""Reads a field of an assertion by its grammar, to find where in it a fault of the daemon's stands."""

from __future__ import annotations

from typing import Callable, Dict, NoReturn

from .texts import FIELDS, Field, Token, value_of

LEVELS = ((b"+", b"-", b"."), (b"*", b"/", b"%"), (b"^",))
COMPARISONS = (b"==", b"!=", b"<", b">", b"<=", b">=")
INSTEAD = {
    b"=": "==", b"or": "||", b"and": "&&", b"not": "!", b"in": "== with ||", b"is": "==", b"then": "->", b"else": ";",
}


class Wrong(Exception):
    """What is wrong at this byte of an assertion."""

    def __init__(self, at: int, what: str) -> None:
        super().__init__(what)
        self.at, self.what = at, what


class Reader:
    """Reads the tokens of a field by its grammar, and raises `Wrong` at the first place that has the fault."""

    def __init__(self, field: Field, fault: int, constants: Dict[bytes, Token]) -> None:
        self.field, self.fault, self.constants, self.at = field, fault, constants, 0

    def token(self) -> Token:
        if self.at < len(self.field.tokens):
            return self.field.tokens[self.at]
        last = self.field.tokens[-1] if self.field.tokens else self.field.label
        return Token("end", last.end, last.end, b"")

    def take(self, *signs: bytes) -> bytes:
        token = self.token()
        if token.sort != "sign" or token.text not in signs:
            return b""
        self.at += 1
        return token.text

    def need(self, sign: str) -> None:
        if not self.take(sign.encode()):
            self.wrong(f"expected '{sign}'")

    def wrong(self, expected: str) -> NoReturn:
        token, name = self.token(), FIELDS[self.field.number - 1]
        before = self.field.tokens[self.at - 1] if self.at else token
        after = self.field.tokens[self.at + 1] if self.at + 1 < len(self.field.tokens) else token
        if token.text == b"=" and after.start == token.end and after.text == b">":
            raise Wrong(token.start, "write '->' in place of '=>'")
        for it in (before, token):
            if it.sort in ("name", "sign") and it.text.lower() in INSTEAD:
                raise Wrong(it.start, f"write '{INSTEAD[it.text.lower()]}' in place of '{it.text.decode()}'")
        if self.field.number in (1, 5) and token.sort == "sign" and before.sort == "name" and before.end == token.start:
            raise Wrong(before.start, f"a principal with '{token.text.decode()}' must stand in quotes")
        raise Wrong(token.start, f"{expected} in {name}" if token.sort != "end" else f"{expected} at the end of {name}")

    def kind(self, found: str, wanted: str, at: int, what: str) -> None:
        if self.fault == 17 and found != wanted:
            raise Wrong(at, what)

    def read(self) -> None:
        if self.field.number == 3:
            self.program("")
        elif self.field.number == 5 and self.field.tokens:
            self.formula()
        elif self.field.number in (1, 7):
            self.one("a text in quotes" if self.field.number == 7 else "a principal")
        if self.token().sort != "end":
            self.wrong("expected '&&', '||' or the end" if self.field.number == 5 else "expected the end")

    def one(self, what: str) -> None:
        token = self.token()
        if token.sort not in ("text", "name"):
            self.wrong(f"expected {what}")
        self.at += 1
        if self.fault != 19:
            return
        known = token.sort == "text" or token.text in self.constants
        value = value_of(self.constants.get(token.text, token)) if known else b"?"
        if token.sort == "name" and token.text != b"POLICY" and token.text not in self.constants:
            name = token.text.decode()
            raise Wrong(token.start, f"{name} is no local constant: a principal stands in quotes, \"{name}\"")
        if not 0 < len(value) <= 4096:
            raise Wrong(token.start, f"a principal has 1 to 4,096 bytes, and this one {len(value)}")

    def formula(self) -> None:
        self.member()
        while self.take(b"||", b"&&"):
            self.member()

    def member(self) -> None:
        number = self.token()
        if self.take(b"("):
            self.formula()
            return self.need(")")
        if number.sort != "number":
            return self.one("a principal")
        self.at += 1
        self.need("-")
        if self.token().text != b"of":
            self.wrong("expected 'of'")
        self.at += 1
        self.need("(")
        self.formula()
        count = 1
        while self.take(b","):
            self.formula()
            count += 1
        self.need(")")
        if self.fault == 18 and (number.text.startswith(b"0") or int(number.text) > count):
            raise Wrong(number.start, f"a threshold over {count} is a number from 1 to {count}")

    def program(self, closing: str) -> None:
        while True:
            while self.take(b";"):
                pass
            if self.token().sort == "end" or self.token().text == closing.encode() and closing:
                return
            self.clause()
            if self.token().sort != "end" and self.token().text not in (b";", closing.encode()):
                self.wrong("expected ';'" if self.field.tokens[self.at - 1].text != b")" else "expected '->' or ';'")

    def clause(self) -> None:
        at = self.token().start
        self.kind(self.either(), "truth", at, "a test must be a comparison, true or false")
        if self.take(b"->"):
            at = self.token().start
            if self.take(b"{"):
                self.program("}")
                return self.need("}")
            self.kind(self.either(), "text", at, "the value behind '->' must be a text, in quotes")

    def either(self) -> str:
        return self.joined(b"||", self.both)

    def both(self) -> str:
        return self.joined(b"&&", self.negated)

    def joined(self, sign: bytes, part: Callable[[], str]) -> str:
        at, kind = self.token().start, part()
        while self.take(sign):
            self.kind(kind, "truth", at, f"'{sign.decode()}' joins tests, and this is none")
            at, kind = self.token().start, part()
            self.kind(kind, "truth", at, f"'{sign.decode()}' joins tests, and this is none")
        return kind

    def negated(self) -> str:
        if self.take(b"!"):
            at = self.token().start
            self.kind(self.negated(), "truth", at, "'!' wants a test; put brackets around a comparison")
            return "truth"
        return self.comparison()

    def comparison(self) -> str:
        at, left = self.token().start, self.chain(0)
        sign = self.take(*COMPARISONS)
        if not sign:
            return left
        behind, right = self.token().start, self.chain(0)
        if {left, right} == {"text", "number"}:
            at = at if left == "text" else behind
            hint = "a text is compared with a number: put '@' before the text, or the number in quotes"
            self.kind(left, right, at, hint)
        if "truth" in (left, right):
            self.kind("truth", "text", at if left == "truth" else behind, "a truth can't be compared")
        return "truth"

    def chain(self, level: int) -> str:
        if level == len(LEVELS):
            return self.unary()
        at, kind = self.token().start, self.chain(level + 1)
        while True:
            sign = self.take(*LEVELS[level])
            if not sign:
                return kind
            wanted = "text" if sign == b"." else "number"
            hint = "'.' joins texts" if sign == b"." else f"'{sign.decode()}' wants numbers: put '@' before a text"
            self.kind(kind, wanted, at, hint)
            at, kind = self.token().start, self.chain(level + 1)
            self.kind(kind, wanted, at, hint)

    def unary(self) -> str:
        sign = self.take(b"-", b"@", b"$")
        if not sign:
            return self.atom()
        at, wanted = self.token().start, "number" if sign == b"-" else "text"
        self.kind(self.unary(), wanted, at, f"'{sign.decode()}' wants a {wanted}")
        return "text" if sign == b"$" else "number"

    def atom(self) -> str:
        token = self.token()
        if self.take(b"("):
            kind = self.either()
            self.need(")")
            return kind
        if token.sort not in ("text", "number", "name"):
            self.wrong("expected a value")
        self.at += 1
        if token.sort == "name":
            return "truth" if token.text.lower() in (b"true", b"false") else "text"
        return token.sort
