"""The texts that replies may have, as PROTOCOL.md says: where the one ends that stands at a place of some bytes."""

import re

from modelling import reading, wire
from modelling.daemon import LOGGED

MOST_CHANGES = 256
# any number: of one that has more digits the last 64 are written
NUMBER = rb"(?:[0-9]|[1-9][0-9]{1,62}|[0-9]{64})"
NAME = rb"[!-+\--~]{1,128}"
WORDS = [b"sessions", b"private", b"requesters", b"attributes", b"live", b"updates", b"nodes", b"private-bytes",
         b"live-bytes", b"log-bytes"]
LIMITS = [b"13 limit " + word + b" #" for word in WORDS]
ITEMS = [b"5 read # #", b"7 auth #", b"12 unknown", *LIMITS]
REFUSALS = [
    b"1 syntax", b"2 command", b"3 session", b"4 admin", b"5 read # #", b"6 policy", b"7 auth #", b"8 name",
    b"9 value", b"10 values", b"11 principal", b"12 unknown", *LIMITS, b"14 long", b"15 block", b"16 batch #",
    *[b"17 item # " + refusal for refusal in ITEMS], b"18 retained #", b"19 ahead #",
]
# texts of one line, where # stands for any number
LINES = [
    b"OK", b"OK #", b"OK # #", b"OK p#", b"OK a# #", b"OK a# # #", b"NOMEM", *[b"NO " + text for text in REFUSALS],
]
LINE = re.compile(b"(?:" + b"|".join([*LINES, b"NEWS # " + NAME + b" #"]).replace(b"#", NUMBER) + b")\n")
CRITICAL = re.compile(b"CRITICAL # (0|[1-9][0-9]*)\n".replace(b"#", NUMBER))
NEED = re.compile(b"NEED [ap]#\n".replace(b"#", NUMBER))
LOG = re.compile(b"LOG # # #\n".replace(b"#", wire.NUMBER))
UPDATE = re.compile(b"UPDATE # #\n".replace(b"#", wire.NUMBER))


def end_of_reply(text, at):
    """Where the text of a reply ends that stands at this place; None where none stands there."""
    line = LINE.match(text, at)
    if line:
        return line.end()
    for begins, end_of in ((b"VALUE ", end_of_value), (b"CRITICAL ", end_of_critical), (b"LOG ", end_of_log)):
        if text.startswith(begins, at):
            return end_of(text, at)
    return None


def end_of_value(text, at):
    end = text.find(b"\nEND\n", at)
    return end + len(b"\nEND\n") if end >= 0 and read_value(text[at:end + len(b"\nEND\n")]) else None


def read_value(text):
    """The index, the name and the version of a VALUE reply, and its rows of a level, an id and a principal; or None."""
    head, *lines = text.split(b"\n")
    head, rows = wire.VALUE.fullmatch(head), [wire.ROW.fullmatch(line) for line in lines[:-2]]
    if not head or None in rows or lines[-2:] != [b"END", b""]:
        return None
    index, name, version, count = int(head[1]), head[2], int(head[3]), int(head[4])
    named = [(int(row[1]), row[2], reading.text_value(row[3])) for row in rows]
    if count != len(rows) or len(name) > 128 or max([index, *[level for level, _, _ in named]]) > 255:
        return None
    if any(wire.spell_principal(who) != row[3] for row, (_, _, who) in zip(rows, named)):
        return None
    return index, name, version, named


def end_of_critical(text, at):
    head = CRITICAL.match(text, at)
    at = head.end() if head else len(text)
    for _ in range(int(head[1]) if head else 0):
        need = NEED.match(text, at)
        if not need:
            return None
        at = need.end()
    return end_of_end(text, at)


def end_of_end(text, at):
    """Behind the line END that stands at this place."""
    return at + len(b"END\n") if text.startswith(b"END\n", at) else None


def end_of_log(text, at):
    head = LOG.match(text, at)
    if not head or int(head[2]) != min(LOGGED, max(0, int(head[3]) - int(head[1]))):
        return None
    at = head.end()
    for _ in range(int(head[2])):
        at = end_of_update(text, at)
        if at is None:
            return None
    return end_of_end(text, at)


def end_of_update(text, at):
    head = UPDATE.match(text, at)
    if not head or not 1 <= int(head[2]) <= MOST_CHANGES:
        return None
    at = head.end()
    for _ in range(int(head[2])):
        line = wire.ITEM.match(text, at)
        if not line:
            return None
        at = line.end() + (int(line[1]) + 1 if line[1] else 0)
        if line[1] and text[at - 1:at] != b"\n":
            return None
    return at
