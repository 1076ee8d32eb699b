"""Requests as bytes, and replies cut out of the bytes that come, for every kind of connection."""

from __future__ import annotations

import re
from typing import List, NamedTuple, NoReturn, Optional, Sequence, Tuple, Union

from .answers import NUMBER, Answer, Critical, News, Row, Value
from .errors import REFUSAL, LinkEnded, NoMemory, NoRead, refusal_of
from .explaining import explain_text

REQUESTS = 1_000_000  # of a connection, after which the daemon ends it
BLOCK_BYTES = 16384
CHANGES = 256  # of an update
LOG_UPDATES = 16  # of a reply to LOG
LINE_BYTES = 131072  # longer than any line of a reply: a principal has at most 4,096 bytes, each told by four at most
OK = re.compile(rb"OK")
OPENED = re.compile(rb"OK %b %b" % (NUMBER, NUMBER))
VERSION = re.compile(rb"OK %b" % NUMBER)
ADDED = re.compile(rb"OK (a%b) %b" % (NUMBER, NUMBER))
PRIVATE = re.compile(rb"OK (p%b)" % NUMBER)
BATCHED = re.compile(rb"OK (a%b) %b %b" % (NUMBER, NUMBER, NUMBER))
PINNED = re.compile(rb"OK %b %b" % (NUMBER, NUMBER))
VALUE = re.compile(rb"VALUE %b ([!-+\--~]{1,128}) %b %b" % (NUMBER, NUMBER, NUMBER))
NEWS = re.compile(rb"NEWS %b ([!-+\--~]{1,128}) %b" % (NUMBER, NUMBER))
CRITICAL = re.compile(rb"CRITICAL %b %b" % (NUMBER, NUMBER))
NEED = re.compile(rb"NEED ([ap]%b)" % NUMBER)
ASKED = {b"QUERY": VALUE, b"WATCH": NEWS, b"CRITICAL": CRITICAL}  # what the reply to each begins with
ROW = re.compile(rb'ROW %b ([ap]%b) "((?:[ !#-\[\]-~]|\\["\\]|\\[0-7]{3})*)"' % (NUMBER, NUMBER))
LOG = re.compile(rb"LOG %b %b %b" % (NUMBER, NUMBER, NUMBER))
UPDATE = re.compile(rb"UPDATE %b %b" % (NUMBER, NUMBER))
ITEM = re.compile(rb"ADD %b|DROP (a%b)" % (NUMBER, NUMBER))
DIGITS = re.compile(rb"\d+")
ANY = re.compile(rb"OK(?: [ap]?%b)*|(?:VALUE|NEWS|CRITICAL|LOG) .*" % NUMBER)


class Request(NamedTuple):
    """A line, its block, and what its reply begins with where it isn't refused; `values` are those of a question."""

    line: bytes
    block: Optional[bytes] = None
    form: re.Pattern[bytes] = OK
    values: Tuple[str, ...] = ()

    def text(self) -> bytes:
        """What is sent."""
        return self.line + b"\n" if self.block is None else b"%b\n%b\n" % (self.line, self.block)


class Added(NamedTuple):
    """The addition of a credential."""

    text: bytes


class Dropped(NamedTuple):
    """The removal of a credential."""

    id: str


Change = Union[Added, Dropped]


class Update(NamedTuple):
    """What made a version of another one: who made it (0 is the policy file), and the changes."""

    caller: int
    changes: Tuple[Change, ...]


class Reply(NamedTuple):
    """The lines of a reply, without their ends, and the rows, the updates or the ids among them."""

    lines: Tuple[bytes, ...]
    rows: Tuple[Row, ...] = ()
    updates: Tuple[Update, ...] = ()
    ids: Tuple[str, ...] = ()

    def text(self) -> bytes:
        """What came."""
        return b"\n".join(self.lines) + b"\n"

    def raise_refusal(self, request: Request) -> None:
        """Raises what the daemon refused, or that it was out of memory."""
        line = self.lines[0]
        if line == b"NOMEM":
            raise NoMemory(NoMemory.__doc__)
        if line.startswith(b"NO "):
            refused = refusal_of(line.decode())
            if isinstance(refused, NoRead) and request.block is not None:
                raise NoRead(refused.line, explain_text(request.block, refused.line))
            raise refused

    def parts(self, request: Request) -> Tuple[bytes, ...]:
        """The parts of the reply's first line by the form that the request gives it; a refusal is raised."""
        self.raise_refusal(request)
        match = request.form.fullmatch(self.lines[0])
        if not match:
            raise LinkEnded(f"no reply to the request: {self.lines[0]!r}")
        return match.groups()


def answer_of(reply: Reply, request: Request) -> Answer:
    """The answer of a QUERY; a refusal is raised."""
    index, _, version, _ = reply.parts(request)
    return Answer(int(index), request.values, int(version), reply.rows)


def news_of(reply: Reply, request: Request) -> News:
    """What a standing query comes to, by the reply to WATCH or NEWS; a refusal is raised."""
    index, _, version = reply.parts(request)
    return News(int(index), request.values, int(version))


def critical_of(reply: Reply, request: Request) -> Critical:
    """The answer of a CRITICAL; a refusal is raised."""
    index, _ = reply.parts(request)
    return Critical(Value(int(index), request.values), reply.ids)


class Replies:
    """Cuts what the daemon sends into the replies to these requests, and raises `LinkEnded` at anything else.

    Without requests it waits for what came unasked, which is the daemon's last line or the connection's end.
    """

    def __init__(self, requests: Sequence[Request]) -> None:
        self._requests, self._rest = requests, b""
        self._begun: Union[RowLines, NeedLines, LogLines, None] = None  # a reply of several lines
        self.whole: List[Reply] = []
        self.ended = False  # by a refusal after which the daemon ends the connection

    def feed(self, data: bytes) -> bool:
        """Takes what came, and answers whether all replies are there."""
        if not data:
            raise LinkEnded("the connection ended within a reply" if self._rest or self._begun
                            else "the connection ended without a reply", self._rest.decode("utf-8", "replace"))
        lines = (self._rest + data).split(b"\n")
        self._rest = lines.pop()
        for line in lines:
            self._take(line)
            if self.ended:
                return True
        done = len(self.whole) == len(self._requests) > 0
        if len(self._rest) > LINE_BYTES or (done and self._rest):
            fail(self._rest)
        return done

    def _take(self, line: bytes) -> None:
        if self._begun:
            if self._begun.take(line):
                self.whole.append(self._begun.reply())
                self._begun = None
        elif len(self.whole) == len(self._requests):
            fail(line)
        elif line.startswith((b"VALUE ", b"CRITICAL ", b"LOG ")):
            self._begun = self._begin(line)
        elif line.startswith(b"NEWS "):
            self._take_news(line)
        elif line.startswith(b"NO "):
            if not REFUSAL.fullmatch(line.decode("utf-8", "replace")):
                fail(line)
            self.whole.append(Reply((line,)))
            self.ended = line == b"NO 15 block"
        elif line == b"NOMEM" or self._requests[len(self.whole)].form.fullmatch(line):
            self.whole.append(Reply((line,)))
        else:
            fail(line)

    def _begin(self, line: bytes) -> Union[RowLines, NeedLines, LogLines]:
        request = self._requests[len(self.whole)]
        if not request.form.fullmatch(line):
            fail(line)
        if line.startswith(b"LOG "):
            return LogLines(line)
        return RowLines(line, request.values) if line.startswith(b"VALUE ") else NeedLines(line, request.values)

    def _take_news(self, line: bytes) -> None:
        request, match = self._requests[len(self.whole)], NEWS.fullmatch(line)
        if not match or not request.form.fullmatch(line):
            fail(line)
        check_value(line, request.values, int(match[1]), match[2])
        self.whole.append(Reply((line,)))


def check_value(line: bytes, values: Tuple[str, ...], index: int, name: Optional[bytes] = None) -> None:
    """Sees that a line tells one of the values that were asked for, and by its name."""
    if values and (index >= len(values) or name not in (None, values[index].encode())):
        fail(line)


class RowLines:
    """The lines of a reply to QUERY, of which the first one is there."""

    def __init__(self, line: bytes, values: Tuple[str, ...]) -> None:
        match = VALUE.fullmatch(line)
        if not match:
            fail(line)
        check_value(line, values, int(match[1]), match[2])
        self._lines, self._due = [line], int(match[4])
        self._rows: List[Row] = []

    def take(self, line: bytes) -> bool:
        """Takes the next line, and answers whether it is the last one."""
        self._lines.append(line)
        if self._due == 0 and line != b"END":
            fail(line)
        if self._due == 0:
            return True
        self._due -= 1
        self._rows.append(row_of(line))
        return False

    def reply(self) -> Reply:
        return Reply(tuple(self._lines), tuple(self._rows))


class NeedLines:
    """The lines of a reply to CRITICAL, of which the first one is there."""

    def __init__(self, line: bytes, values: Tuple[str, ...]) -> None:
        match = CRITICAL.fullmatch(line)
        if not match:
            fail(line)
        check_value(line, values, int(match[1]))
        self._lines, self._due = [line], int(match[2])
        self._ids: List[str] = []

    def take(self, line: bytes) -> bool:
        """Takes the next line, and answers whether it is the last one."""
        self._lines.append(line)
        if len(self._ids) == self._due:
            if line != b"END":
                fail(line)
            return True
        match = NEED.fullmatch(line)
        if not match:
            fail(line)
        self._ids.append(match[1].decode())
        return False

    def reply(self) -> Reply:
        return Reply(tuple(self._lines), ids=tuple(self._ids))


class LogLines:
    """The lines of a reply to LOG, of which the first one is there."""

    def __init__(self, line: bytes) -> None:
        match = LOG.fullmatch(line)
        if not match or int(match[2]) != min(LOG_UPDATES, int(match[3]) - int(match[1])):
            fail(line)
        self._lines, self._text = [line], b""
        self._updates: List[Update] = []
        self._changes: List[Change] = []  # of the update that has begun
        self._caller = 0
        # what is still to come: updates, changes of the one that has begun, bytes of a text with the newline behind it
        self._updates_due, self._changes_due, self._bytes_due = int(match[2]), 0, 0

    def take(self, line: bytes) -> bool:
        """Takes the next line, and answers whether it is the last one."""
        self._lines.append(line)
        if self._bytes_due:
            self._take_text(line)
        elif self._changes_due:
            self._take_item(line)
        elif self._updates_due:
            self._take_update(line)
        elif line == b"END":
            return True
        else:
            fail(line)
        return False

    def _take_update(self, line: bytes) -> None:
        match = UPDATE.fullmatch(line)
        if not match or not 1 <= int(match[2]) <= CHANGES:
            fail(line)
        self._updates_due -= 1
        self._caller, self._changes_due = int(match[1]), int(match[2])

    def _take_item(self, line: bytes) -> None:
        match = ITEM.fullmatch(line)
        if not match or not match[2] and int(match[1]) > BLOCK_BYTES:
            fail(line)
        if match[2]:
            self._put(Dropped(match[2].decode()))
        else:
            self._bytes_due = int(match[1]) + 1

    def _take_text(self, line: bytes) -> None:
        self._text += line + b"\n"
        self._bytes_due -= len(line) + 1
        if self._bytes_due < 0:
            fail(line)
        if not self._bytes_due:
            self._put(Added(self._text[:-1]))
            self._text = b""

    def _put(self, change: Change) -> None:
        self._changes.append(change)
        self._changes_due -= 1
        if not self._changes_due:
            self._updates.append(Update(self._caller, tuple(self._changes)))
            self._changes = []

    def can_begin(self, part: bytes) -> bool:
        """Whether the next line, of which this part is there, can begin so."""
        if self._bytes_due:
            return len(part) < self._bytes_due
        if self._changes_due:
            return is_begun(part, b"ADD 0", b"DROP a0")
        return is_begun(part, b"UPDATE 0 0" if self._updates_due else b"END")

    def reply(self) -> Reply:
        return Reply(tuple(self._lines), updates=tuple(self._updates))


def is_begun(part: bytes, *forms: bytes) -> bool:
    """Whether a line of one of these forms, with any numbers in place of each 0, can begin so."""
    plain = DIGITS.sub(b"0", part)
    return any(form.startswith(plain) for form in forms)


def fail(line: bytes) -> NoReturn:
    text = line.decode("utf-8", "surrogateescape")
    raise LinkEnded(text or "an empty line came, which is no reply", text)


def row_of(line: bytes) -> Row:
    match = ROW.fullmatch(line)
    if not match:
        fail(line)
    principal = match[4]
    if b"\\" in principal:
        principal = re.sub(rb'\\([0-7]{3}|["\\])', unescaped, principal)
    return Row(int(match[1]), match[2].decode(), principal)


def unescaped(match: re.Match[bytes]) -> bytes:
    return match[1] if len(match[1]) == 1 else bytes([int(match[1], 8)])


def words_of(*parts: bytes) -> bytes:
    """A line of these words: each but the last has no space and isn't empty, and none has an end of line."""
    for word in parts:
        if b"\n" in word or b"\r" in word:
            raise ValueError(f"an end of line would end the request: {word!r}")
    for word in parts[:-1]:
        if not word or b" " in word:
            raise ValueError(f"a word that is empty or has a space would be read as others: {word!r}")
    return b" ".join(parts)


def asked_of(word: bytes, session: bytes, values: Tuple[str, ...]) -> Request:
    """The request that asks for one of these values: QUERY, WATCH or CRITICAL."""
    listed = ",".join(values).encode("utf-8", "surrogateescape")
    return Request(words_of(word, session, listed), None, ASKED[word], values)


def log_of(length: int) -> Request:
    """The request for the updates behind the first ones, of which there are so many."""
    return Request(b"LOG %d" % length, None, re.compile(rb"LOG %d %b %b" % (length, NUMBER, NUMBER)))
