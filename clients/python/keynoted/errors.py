"""What goes wrong: each refusal of the daemon's is an exception of its own."""

from __future__ import annotations

import re
from typing import Dict, Type


class KeynotedError(Exception):
    """Another answer than the one that was asked for."""


class LinkEnded(KeynotedError):
    """The connection ended, or what came is no reply to the request; nothing more can be asked on it.

    `line` is the daemon's, where there was one.
    """

    def __init__(self, what: str, line: str = "") -> None:
        super().__init__(what)
        self.line = line


class TimedOut(LinkEnded):
    """A limit of time was met: no connection, no whole reply, or no connection of a pool that is free."""


class NoMemory(KeynotedError):
    """The daemon had no memory for the request, which has changed nothing: neither a yes nor a no."""


class Refusal(KeynotedError):
    """The daemon refused the request, which has changed nothing; `line` is its reply."""

    of_code: Dict[int, Type[Refusal]] = {}
    code = 0

    def __init_subclass__(cls, code: int) -> None:
        Refusal.of_code[code], cls.code = cls, code

    def __init__(self, line: str, what: str = "") -> None:
        super().__init__(f"{line}: {what or self.__doc__}")
        self.line = line
        self.parts = line.split()[3:]


class NoSyntax(Refusal, code=1): "the line hasn't the form of its command"
class NoCommand(Refusal, code=2): "the first word is no command; commands are in upper case"
class NoSession(Refusal, code=3): "no such session is open on this connection"
class NoAdmin(Refusal, code=4): "the secret is wrong, or a right one must come before this request"
class NoRead(Refusal, code=5): "the text is no assertion; `parts` are the fault and its place"
class NoPolicy(Refusal, code=6): "the authorizer of a private assertion is POLICY"
class NoAuth(Refusal, code=7): "it isn't admitted: 1 no signature, 2 another algorithm, 3 no key, 4 another code"
class NoName(Refusal, code=8): "no attribute can have this name: a letter, then letters, digits and _, up to 128 bytes"
class NoValue(Refusal, code=9): "the value has more than 4,096 bytes"
class NoValues(Refusal, code=10): "the values aren't 2 to 64 different names"
class NoPrincipal(Refusal, code=11): "the principal is empty, has more than 4,096 bytes, or is POLICY"
class NoUnknown(Refusal, code=12): "the assertion, credential, attribute, requester or kept question isn't there"
class NoLimit(Refusal, code=13): "a limit is met; `parts` are its word and what there is"
class NoLong(Refusal, code=14): "the line has more than 8,192 bytes"
class NoBlock(Refusal, code=15): "the text has over 16,384 bytes, or isn't as long as was said; the connection ends"
class NoBatch(Refusal, code=16): "a batch has 1 to 256 items; `parts` are the number of the first that isn't of its form"


class NoItem(Refusal, code=17):
    """an item of the batch is refused, and none is done; `item` is its number, `reason` the refusal of it alone"""

    def __init__(self, line: str, what: str = "") -> None:
        _, _, _, number, rest = line.split(" ", 4)
        self.item, self.reason = int(number), refusal_of(f"NO {rest}")
        super().__init__(line, what or f"item {number}: {self.reason.__doc__}")


class NoRetained(Refusal, code=18): "this version isn't among the newest 16; `parts` are the newest one"
class NoAhead(Refusal, code=19): "there aren't so many updates; `parts` are how many there are"


ITEM = r"5 read (?:0|[1-9]\d*) (?:0|[1-9]\d*)|7 auth [1-9]\d*|12 unknown|13 limit [a-z-]+ (?:0|[1-9]\d*)"
REFUSAL = re.compile(
    rf"NO (?:1 syntax|2 command|3 session|4 admin|6 policy|8 name|9 value|10 values|11 principal|14 long|15 block|{ITEM}"
    rf"|16 batch [1-9]\d*|17 item [1-9]\d* (?:{ITEM})|18 retained (?:0|[1-9]\d*)|19 ahead (?:0|[1-9]\d*))"
)


def refusal_of(line: str) -> Refusal:
    """The exception of a line `NO ..`; ValueError where the line is none."""
    if not REFUSAL.fullmatch(line):
        raise ValueError(f"no refusal: {line!r}")
    return Refusal.of_code[int(line.split()[1])](line)
