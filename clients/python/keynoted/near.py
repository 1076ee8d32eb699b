"""Words that are nearly others: slips of the fingers, and other cases of letters."""

from __future__ import annotations

import re
from typing import Iterable, Optional


def plain(word: bytes) -> bytes:
    """A name without what is written in many ways: the case of letters, quotes, spaces, dots and dashes; these part
    numbers, and stay where digits are."""
    return word.lower() if re.search(rb"[0-9]", word) else re.sub(rb"[\s\"'_.-]", b"", word).lower()


def slipped(one: bytes, other: bytes) -> bool:
    """Whether two words of some length differ by one slip: a letter too many or too few, another one, or two
    exchanged. Digits, a plural, the first letter and short words aren't slips."""
    if one == other or abs(len(one) - len(other)) > 1 or one[:1] != other[:1]:
        return False
    first = next((at for at, (a, b) in enumerate(zip(one, other)) if a != b), min(len(one), len(other)))
    rest, others = one[first:], other[first:]
    if len(one) == len(other):
        exchanged = rest[:2] == others[1::-1] and rest[2:] == others[2:] and len(rest) > 1
        alike = exchanged or rest[1:] == others[1:]
        signs = rest[:2] + others[:2] if exchanged else rest[:1] + others[:1]
    else:
        longer, shorter = (rest, others) if len(one) > len(other) else (others, rest)
        alike = longer[1:] == shorter and longer not in (b"s", b"d", b"r", b"n", b"e")
        signs = longer[:1]
    return alike and signs.isalpha() and is_long(one, other, first)


def is_long(one: bytes, other: bytes, at: int) -> bool:
    """Whether the words have enough letters where they differ: four, if two are exchanged, and else five in one."""
    lengths = sorted(length_at(it, at) for it in (one, other))
    return lengths[0] > 3 and (lengths[1] > 4 or sorted(one) == sorted(other) and {one, other} != {b"form", b"from"})


def length_at(word: bytes, at: int) -> int:
    """How long the part of a name is in which a place stands: parts end with _ and other signs."""
    start = max(word.rfind(it, 0, at) for it in (b"_", b" ", b"-", b".", b"/", b":")) + 1
    match = re.compile(rb"[^_ ./:-]*").match(word, start)
    return len(match[0]) if match else 0


def nearly(one: bytes, other: bytes) -> bool:
    """Whether two different names are surely meant to be one."""
    return one != other and (plain(one) == plain(other) and len(plain(one)) > 2 or slipped(one, other))


def near_in(word: bytes, known: Iterable[bytes]) -> Optional[bytes]:
    """The first of the known words that this one is nearly."""
    return next((it for it in sorted(known) if nearly(word, it)), None)
