"""The texts of assertions, as docs/POLICIES.md gives their form: only to find places in them, never to decide."""

from __future__ import annotations

import re
from typing import Dict, Iterator, List, NamedTuple, Sequence, Tuple

NEWLINE = b"\n"


FIELDS = ("Authorizer", "Comment", "Conditions", "KeyNote-Version", "Licensees", "Local-Constants", "Signature")
SCAN = re.compile(
    rb"""(?mx) (?P<blank> ^[ \t\r]*\n | ^[ \t\r]+\Z ) | (?P<space> [ \t\r]*\n | [ \t\r]+ ) | (?P<remark> \#[^\n]* )
    | (?P<body> ^(?i:comment):[^\n]*(?:\n(?![ \t\r]*(?:\n|\Z))[ \t\#][^\n]*)* ) | (?P<label> ^[A-Za-z][A-Za-z0-9_-]*: )
    | (?P<name> [A-Za-z_][A-Za-z0-9_]* ) | (?P<number> [0-9]+ ) | (?P<other> [^\x00-\x7f]+ )
    | (?P<text> "(?:[^"\\\r\n]|\\\r?\n[ \t\r\n]*|\\[^\r\n])*"? ) | (?P<sign> &&|\|\||[=!<>]=|->|[(){},;!<>=+\-*/%^.$@] )
    | (?P<more> [\x00-\x7f] )"""
)
ESCAPE = re.compile(rb"\\(\r?\n[ \t\r\n]*|[0-3][0-7]{2}|0[1-7](?![0-7])|[^\r])", re.S)
SHORT = {b"n": b"\n", b"r": b"\r", b"t": b"\t", b"f": b"\f"}


class Token(NamedTuple):
    sort: str
    start: int
    end: int
    text: bytes


class Field(NamedTuple):
    number: int  # of FIELDS, from 1; 0 is none of them
    label: Token
    tokens: List[Token]


def scan(data: bytes) -> Iterator[Token]:
    return (Token(str(it.lastgroup), it.start(), it.end(), it.group()) for it in SCAN.finditer(data))


def split_file(data: bytes) -> List[Tuple[int, int]]:
    """Where the assertions of a policy file begin and end: its parts between blank lines, but those of comments."""
    spans, first, real = [], -1, False
    for token in [*scan(data), Token("blank", len(data), len(data), b"")]:
        if token.sort == "blank":
            if real:
                spans.append((first, token.start))
            first, real = -1, False
            continue
        first = token.start if first < 0 else first
        real = real or token.sort not in ("space", "remark") or b"\0" in token.text
    return spans


def fields_of(text: bytes) -> List[Field]:
    """The fields of an assertion, each with its tokens; what stands before the first label is left out."""
    fields: List[Field] = []
    lower = [it.lower() for it in FIELDS]
    for token in scan(text):
        if token.sort in ("label", "body"):
            name = token.text.split(b":")[0].lower().decode()
            fields.append(Field(lower.index(name) + 1 if name in lower else 0, token, []))
        elif fields and token.sort not in ("space", "remark", "blank"):
            fields[-1].tokens.append(token)
    return fields


def value_of(token: Token) -> bytes:
    """The value of a literal."""

    def plain(match: re.Match[bytes]) -> bytes:
        told = match[1]
        if told[:1] in (b"\r", b"\n"):
            return b""
        if len(told) == 1 or told == b"000":
            return SHORT.get(told, told)
        return bytes([int(told, 8)])

    return ESCAPE.sub(plain, token.text[1:-1] if len(token.text) > 1 and token.text.endswith(b'"') else token.text[1:])


def constants_of(fields: Sequence[Field]) -> Dict[bytes, Token]:
    """The local constants of an assertion, each with its literal."""
    found: Dict[bytes, Token] = {}
    for field in fields:
        if field.number == 6:
            for name, sign, text in zip(field.tokens, field.tokens[1:], field.tokens[2:]):
                if name.sort == "name" and sign.text == b"=" and text.sort == "text":
                    found[name.text] = text
    return found


def place_of(data: bytes, at: int) -> str:
    """LINE:COLUMN of a byte, counted from 1; columns count characters."""
    start = data.rfind(b"\n", 0, at) + 1
    return f"{data.count(NEWLINE, 0, at) + 1}:{len(data[start:at].decode('utf-8', 'replace')) + 1}"


def read_file(name: str) -> bytes:
    with open(name, "rb") as file:
        return file.read()
