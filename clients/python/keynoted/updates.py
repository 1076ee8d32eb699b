"""Updates of the shared credentials: what the log tells of them, what they leave, and changes that are made together."""

from __future__ import annotations

import re
from types import TracebackType
from typing import TYPE_CHECKING, Dict, Iterable, List, NamedTuple, Optional, Tuple, Type, Union

from .answers import NUMBER
from .arguments import Text, bytes_of
from .errors import NoItem, NoRead
from .explaining import explain_text, words_of_refusal
from .wire import BATCHED, BLOCK_BYTES, CHANGES, Added, Change, Dropped, Request, Update, words_of

if TYPE_CHECKING:
    from .connection import Connection

ID = re.compile(rb"a%b" % NUMBER)


class Credential(NamedTuple):
    """A credential that was ever added: its id, whether it is live, who added it (0 is the policy file), and its text."""

    id: str
    live: bool
    caller: int
    text: bytes


def credentials_of(updates: Iterable[Update]) -> List[Credential]:
    """All credentials that these updates added, where they are those from the first one on, in the order of their ids."""
    found: Dict[str, Credential] = {}
    for update in updates:
        for change in update.changes:
            if isinstance(change, Added):
                name = f"a{len(found) + 1}"
                found[name] = Credential(name, True, update.caller, change.text)
            elif change.id in found:
                found[change.id] = found[change.id]._replace(live=False)
    return list(found.values())


class Batch:
    """Changes of the shared credentials that are made together, at the end of its `with`, or not at all.

    Nothing is sent where the body raises. Afterwards `ids` are those of its additions, in their order, and `version` is
    the one that it made. A refusal of one change is a `NoItem`, which has its number and its own refusal.
    """

    def __init__(self, connection: Connection) -> None:
        self._connection = connection
        self._changes: List[Change] = []
        self._block = b""
        self.ids: Tuple[str, ...] = ()
        self.version: Optional[int] = None

    def __len__(self) -> int:
        return len(self._changes)

    @property
    def block(self) -> bytes:
        """The changes as they stand in the block of the request."""
        return self._block

    def add(self, text: Text) -> None:
        """Adds a credential."""
        self._put(Added(bytes_of(text, "text")))

    def drop(self, name: str) -> None:
        """Takes a credential away, also one that this batch adds before."""
        if not ID.fullmatch(bytes_of(name, "name")):
            raise ValueError(f"an id is a and a number: {name!r}")
        self._put(Dropped(name))

    def _put(self, change: Change) -> None:
        block = self._block + item_of(change)
        if len(block) > BLOCK_BYTES or len(self._changes) == CHANGES:
            raise ValueError(f"a batch has at most {CHANGES} changes and 16,384 bytes with their lines")
        self._block = block
        self._changes.append(change)

    def __enter__(self) -> Batch:
        return self

    def __exit__(self, kind: Optional[Type[BaseException]], why: Optional[BaseException],
                 where: Optional[TracebackType]) -> None:
        if kind is None:
            self._send()

    def _send(self) -> None:
        request = Request(words_of(b"BATCH", b"%d" % len(self._block)), self._block, BATCHED)
        try:
            first, _, count, version = self._connection.parts(request)
        except NoItem as refused:
            raise self._in_words(refused) from None
        start = int(first[1:])
        self.ids = tuple(f"a{it}" for it in range(start, start + int(count)))
        self.version = int(version)

    def _in_words(self, refused: NoItem) -> NoItem:
        """The refusal with the words of the one that is in it, and the place in a text that is no assertion."""
        change = self._changes[refused.item - 1] if refused.item <= len(self._changes) else None
        if isinstance(refused.reason, NoRead) and isinstance(change, Added):
            return NoItem(refused.line, f"item {refused.item}, {explain_text(change.text, refused.reason.line)}")
        return NoItem(refused.line, f"item {refused.item}: {words_of_refusal(refused.reason)}")


def block_of(update: Update) -> bytes:
    """The changes of an update as they stand in a block of BATCH."""
    return b"".join(item_of(it) for it in update.changes)


def item_of(change: Change) -> bytes:
    """A change as an item of a batch."""
    if isinstance(change, Dropped):
        return b"DROP %b\n" % change.id.encode()
    return b"ADD %d\n%b\n" % (len(change.text), change.text)
