"""What the daemon's lines say, in words and places."""

from __future__ import annotations

import difflib
import re
from typing import Dict, Tuple

from .errors import REFUSAL, NoItem, Refusal, refusal_of
from .keyfiles import fault_of
from .reader import Reader, Wrong
from .texts import FIELDS, Field, Token, constants_of, fields_of, place_of, read_file, split_file


FAULTS = {
    1: "only ASCII stands outside literals and comments, and a byte 0 nowhere",
    2: "this literal isn't closed on its line",
    3: "nothing begins with this", 4: "write '&&' for and; numbers with a fraction are left out",
    5: "regular expressions (~=) are left out", 6: "a number above 2147483647", 7: "a blank line within an assertion",
    8: "the assertion has more than 16,384 bytes",
    9: "a line that goes on begins with a space or a tab, any other with a label",
    10: "this field stood before", 11: "KeyNote-Version stands first, and Signature last",
    12: "no Authorizer; a blank line within an assertion cuts it in two", 13: "the version must be 2",
    14: "expected NAME = \"text\", with a name that stood not before and begins with a letter",
    15: "more than 64 open brackets, or more than 8 of ! - @ $ in a row",
}
BYTES = {
    b"'": "write \" in place of '", b"|": "write '||' in place of '|'",
    b":": "a label begins its line; a name with ':' stands in quotes",
}
LINES = {
    "words": "no command has these words (keynoted help)",
    "memory": "out of memory; nothing was answered",
    "query": "the script has no QUERY on an open session with 2 to 64 different values",
    "link read": "standard input couldn't be read", "link write": "a reply couldn't be written",
    "listener": "the address couldn't be served", "link budget": "a connection has 1,000,000 requests at most",
    "link cut": "the input ended within a request, after bytes of it: ",
    "link block": "a text of this length was refused, or no newline stood behind it: ",
    "proof text 1": "a line of the reply isn't of its form, is missing, or answers another query: line ",
    "proof text 2": "a number of the reply is too large: line ",
    "proof text 3": "the reply says another number of rows than it has: ",
    "log 1": "a reply of the log isn't of its form, or breaks off, at this byte from its first, which is 0: ",
    "log 2": "a reply of the log goes on behind another number of updates than are there: ",
    "log 3": "the update of this number is refused behind those before it: ",
    "transcript 1": "the replies end before the one to this request, counted from 1: ",
    "transcript 2": "what should be the reply to this request, counted from 1, isn't the text of one: ",
    "transcript 3": "the reply to this request, counted from 1, isn't one that it may have: ",
    "transcript 4": "all requests are answered by so many bytes of the replies, and others follow: ",
    "transcript 5": "this request, counted from 1, is WATCH, NEWS, UNWATCH, LOG or CRITICAL, which isn't judged: ",
}
AUTHS = {
    "1": "it has no signature", "2": "its signature isn't of sig-hmac-sha256-hex", "3": "its authorizer has no key",
    "4": "its code is another one",
}
REJECTS = (
    "the row names a principal or an assertion that the query doesn't have, or too high a level",
    "the row's principal is a requester", "the row's principal has a level by an earlier row", "the row's level is 0",
    "the assertion's authorizer is another principal",
    "the assertion is worth less before this row", "an assertion is worth more than its authorizer has after all rows",
    "POLICY has another value after all rows",
)


def fault_in(text: bytes, fault: int, place: int) -> Tuple[int, str]:
    """Where in an assertion the daemon's fault stands, and what it is in words."""
    at, what = min(place, len(text)) if fault not in (8, 12) else 0, FAULTS.get(fault, f"fault {fault}")
    if fault == 3:
        what = BYTES.get(text[at:at + 1], what)
    fields = fields_of(text)
    for field in fields:
        name = field.label.text.decode("utf-8", "replace").rstrip(":")
        near = difflib.get_close_matches(name.title(), FIELDS, 1)
        if fault == 9 and field.label.start == at and not field.number:
            what = f"no field is called {name}" + (f": {near[0]}?" if near else "")
        if fault > 14 and field.number == place:
            return fault_in_field(field, fault, constants_of(fields))
    return at, what


def fault_in_field(field: Field, fault: int, constants: Dict[bytes, Token]) -> Tuple[int, str]:
    depth, signs = 0, 0
    for token in field.tokens:
        depth += (token.text in (b"(", b"{")) - (depth > 0 and token.text in (b")", b"}"))
        signs = signs + 1 if token.sort == "sign" and token.text in (b"!", b"-", b"@", b"$") else 0
        if fault == 15 and (depth > 64 or signs > 8):
            return token.start, FAULTS[15]
    try:
        Reader(field, fault, constants).read()
    except Wrong as wrong:
        return wrong.at, wrong.what
    return field.label.start, f"fault {fault} in {FIELDS[field.number - 1]}"


def explain_policy(line: str) -> str:
    """The words of a line `error policy NAME ASSERTION ..`; its file is read again."""
    match = re.fullmatch(r"error policy (.+) (\d+) (?:limit ([a-z-]+) (\d+)|(\d+) (\d+))", line, re.S)
    if not match:
        return ""
    name, data = match[1], read_file(match[1])
    start, end = (split_file(data) + [(0, len(data))] * int(match[2]))[int(match[2]) - 1]
    if match[3]:
        return f"{name}:{place_of(data, start)}: the limit of {match[3]} is met, with {match[4]} before this assertion"
    at, what = fault_in(data[start:end], int(match[5]), int(match[6]))
    return f"{name}:{place_of(data, start + at)}: {what}"


def explain_text(text: bytes, line: str) -> str:
    """The place in a text and the words of the line `NO 5 read ..` that refuses it."""
    fault, place = line.split()[3:]
    at, what = fault_in(text, int(fault), int(place))
    return f"{place_of(text, at)}: {what}"


def fault_in_keys(file: str, number: int) -> str:
    """What is wrong in a line of a key file; empty where that isn't seen."""
    if not file:
        return ""
    lines = read_file(file).split(b"\n")
    return fault_of(lines[number - 1].rstrip(b"\r")) if number <= len(lines) else ""


def words_of_refusal(refusal: Refusal) -> str:
    if isinstance(refusal, NoItem):
        return f"item {refusal.item}: {words_of_refusal(refusal.reason)}; nothing of the batch was done"
    if refusal.code == 7:
        return AUTHS.get(refusal.parts[0], "it isn't admitted")
    if refusal.code == 13 and refusal.parts[0] == "nodes":
        return f"the Licensees of this question have {refusal.parts[-1]} nodes: CRITICAL takes 16,384 at most"
    if refusal.code == 13:
        return f"the limit of {refusal.parts[0]} is met: {refusal.parts[-1]}"
    return refusal.__doc__ or ""


def explain(line: str, file: str = "") -> str:
    """The words of a line `error ..` or `NO ..` of the daemon's, or nothing for another line.

    `file` is what was sent or named.
    """
    if line.startswith("error policy "):
        return explain_policy(line)
    match = re.fullmatch(r"error file (.+) (read|large)", line, re.S)
    if match:
        return f"{match[1]}: " + ("couldn't be read" if match[2] == "read" else "has more than 16,777,216 bytes")
    match = re.fullmatch(r"error keys (\d+)", line)
    if match:
        forms = "neither mac DIGITS PRINCIPAL nor digest DIGITS nor secret DIGITS, or a second one"
        return f"{file or 'the key file'}:{match[1]}:1: {fault_in_keys(file, int(match[1])) or forms}"
    match = re.fullmatch(r"error proof reject ([1-8]) (\d+) (\d+)", line)
    if match:
        where = f"(row or assertion {match[2]} from 0, found {match[3]})"
        return f"the rows prove no such value: {REJECTS[int(match[1]) - 1]} {where}"
    for start in sorted(LINES, key=len, reverse=True):
        match = re.fullmatch(rf"error {start}((?: \d+)?)", line)
        if match:
            return LINES[start] + match[1].strip()
    if file and re.fullmatch(r"NO 5 read \d+ \d+", line):
        return f"{file}:{explain_text(read_file(file), line)}"
    if REFUSAL.fullmatch(line):
        return f"{line}: {words_of_refusal(refusal_of(line))}"
    return "out of memory for this request: no answer" if line == "NOMEM" else ""
