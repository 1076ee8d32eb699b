"""Files of replies to LOG, one after the other: what they hold, and how they grow by whole replies."""

from __future__ import annotations

import fcntl
import os
import stat
from typing import List, Optional, Sequence

from .errors import LinkEnded
from .recording import write_all
from .texts import place_of
from .wire import LOG, LogLines, Reply, Update, is_begun

REPLY_BYTES = 300_000  # a reply to LOG has less
NO_LINE = "no reply to LOG goes on so"


class LogText:
    """The updates of replies that stand one after the other, each of which tells what is behind the former one.

    `start` is how many updates there are before the first of them, where a reply is whole, and `whole` how many bytes
    are whole replies. What stands behind these is the beginning of a reply. Anything else is a ValueError that says
    where.
    """

    def __init__(self, data: bytes, name: str) -> None:
        self.start: Optional[int] = None
        self.updates: List[Update] = []
        self.whole = 0
        self._at = 0
        self._begun: Optional[LogLines] = None
        *lines, part = without_zeros(data).split(b"\n")
        try:
            for line in lines:
                self._take(line)
            if not self._can_begin(part):
                raise ValueError(NO_LINE)
        except (LinkEnded, ValueError) as why:
            told = NO_LINE if isinstance(why, LinkEnded) else why
            raise ValueError(f"{name}:{place_of(data, self._at)}: {told}") from None

        if not self.whole:
            self.start = None

    def held(self) -> int:
        """The number of the last update, counted from 1."""
        return (self.start or 0) + len(self.updates)

    def _can_begin(self, part: bytes) -> bool:
        return self._begun.can_begin(part) if self._begun else is_begun(part, b"LOG 0 0 0")

    def _take(self, line: bytes) -> None:
        if self._begun is None:
            self._begin(line)
        elif self._begun.take(line):
            self.updates += self._begun.reply().updates
            self._begun = None
            self.whole = self._at + len(line) + 1
        self._at += len(line) + 1

    def _begin(self, line: bytes) -> None:
        match = LOG.fullmatch(line)
        self._begun = LogLines(line)
        first = int(match[1]) if match else 0
        if self.start is None:
            self.start = first
        if first != self.held():
            raise ValueError(f"this reply tells what is behind {first} updates, and {self.held()} were told before it")


def without_zeros(data: bytes) -> bytes:
    """The text before the bytes 0 of its last reply, as a machine that stops leaves where it hadn't written."""
    zero = data.find(b"\0", max(0, len(data) - REPLY_BYTES))
    return data[:zero] if b"\n" in data[:max(0, zero)] else data


class LogFile:
    """A file of replies to LOG that this process alone makes longer; it is made where it isn't there."""

    def __init__(self, name: str) -> None:
        self.name = name
        self._file = open(name, "a+b", buffering=0, opener=lambda path, flags: os.open(path, flags, 0o600))
        try:
            self._lock()
            self._file.seek(0)
            data = self._file.read()
            self.text = LogText(data, name)
            self.cut = len(data) - self.text.whole  # bytes of a reply that broke off
            self._file.truncate(self.text.whole)
            sync_folder(name)
        except BaseException:
            self._file.close()
            raise

    def _lock(self) -> None:
        if not stat.S_ISREG(os.fstat(self._file.fileno()).st_mode):
            raise ValueError(f"{self.name} is no file that can be continued")
        try:
            fcntl.flock(self._file.fileno(), fcntl.LOCK_EX | fcntl.LOCK_NB)
        except BlockingIOError:
            raise ValueError(f"{self.name}: another process writes it") from None

    def __enter__(self) -> LogFile:
        return self

    def __exit__(self, *_: object) -> None:
        self._file.close()

    def append(self, reply: Reply) -> None:
        """Writes a reply through to the disk; where that fails or is interrupted nothing of it is left."""
        data = reply.text()
        try:
            write_all(self._file, data)
            os.fsync(self._file.fileno())
        except BaseException:
            self._file.truncate(self.text.whole)
            raise
        self.text.whole += len(data)
        self.text.updates += reply.updates


def sync_folder(name: str) -> None:
    """Has the disk know of a new file."""
    folder = os.open(os.path.dirname(os.path.abspath(name)), os.O_RDONLY)
    try:
        os.fsync(folder)
    finally:
        os.close(folder)


def refuse_difference(kept: Sequence[Update], found: Sequence[Update], before: int, name: str) -> None:
    """ValueError where the file's updates behind so many aren't the daemon's, as far as both go.

    Of who made an update it is compared alone whether that is the policy file: a caller is the number of a worker.
    """
    for number, (mine, its) in enumerate(zip(kept, found), before + 1):
        if mine.changes != its.changes or (mine.caller == 0) != (its.caller == 0):
            raise ValueError(f"update {number} of {name} isn't the daemon's, as after a change of the policy file")
