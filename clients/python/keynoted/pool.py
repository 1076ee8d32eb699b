"""Connections that threads share: each question takes a free one, or a new one where there is room."""

from __future__ import annotations

import os
import threading
import time
import weakref
from typing import Iterable, List, Mapping, Optional, Sequence, Tuple

from .answers import Answer, Critical
from .arguments import Path, Text, limit_of, order_of, path_of, size_of
from .connection import LIMIT, Connection, connect
from .errors import LinkEnded, TimedOut
from .link import host_and_port
from .question import Question
from .wire import Reply, Request, answer_of, critical_of

SIZE = 3  # where nothing is said: a daemon of four workers has one left for its administrators


class Lease:
    """A place in a pool, which is free again where nobody holds the lease, however its holder was interrupted."""

    __slots__ = ("__weakref__",)


class Pool:
    """At most `size` connections to one daemon, each made when it is wanted; as a context manager it closes them.

    A question whose connection ended, as after a restart of the daemon, is asked once more on a new one; so is one for
    which a connection has too few requests left. `size` is at most the daemon's workers, less one for administrators:
    a connection has its worker to itself.
    """

    def __init__(self, host: str, port: Optional[int] = None, *, size: int = SIZE, timeout: Optional[float] = LIMIT,
                 values: Sequence[str] = (), record: Optional[Path] = None) -> None:
        self.order, self._size = order_of(values), size_of(size)
        self._address, self._timeout = host_and_port(host, port), limit_of(timeout, "timeout")
        self._record = None if record is None else path_of(record, "record")
        self._begin()

    def _begin(self) -> None:
        self._owner = os.getpid()
        self._free = threading.Condition()
        self._leases: weakref.WeakSet[Lease] = weakref.WeakSet()
        self._turns: List[weakref.ref[Lease]] = []  # of those who wait, the first one first
        self._idle: List[Connection] = []
        self._made = 0
        self._closed = False

    def __enter__(self) -> Pool:
        return self

    def __exit__(self, *_: object) -> None:
        self.close()

    def close(self) -> None:
        """Closes the connections that nobody uses now, and each other one when its question is answered."""
        self._closed = True
        while self._idle:
            self._idle.pop().close()

    def ask(self, principals: Iterable[Text], attributes: Mapping[Text, Text], values: Sequence[str] = (),
            private: Iterable[Text] = ()) -> Answer:
        """Asks one question as `Connection.ask` does."""
        return answer_of(*self._ask(Question(principals, attributes, values, private, self.order)))

    def critical(self, principals: Iterable[Text], attributes: Mapping[Text, Text], values: Sequence[str] = (),
                 private: Iterable[Text] = ()) -> Critical:
        """Asks one question as `Connection.critical` does."""
        return critical_of(*self._ask(Question(principals, attributes, values, private, self.order, b"CRITICAL")))

    def _ask(self, question: Question) -> Tuple[Reply, Request]:
        if self._owner != os.getpid():
            self._begin()  # in a process that was forked, whose connections are the other's
        lease = self._lease()
        try:
            return self._settle(question)
        finally:
            with self._free:
                self._leases.discard(lease)
                self._free.notify_all()

    def _settle(self, question: Question) -> Tuple[Reply, Request]:
        connection = self._take(question)
        if connection:
            try:
                return connection.settle(question)
            except TimedOut:
                raise
            except LinkEnded:
                pass  # it ended since its last question: nothing was decided, and the question changes nothing
            finally:
                self._give(connection)
        connection = self._open()
        try:
            return connection.settle(question)
        finally:
            self._give(connection)

    def _lease(self) -> Lease:
        """A place, in the order of those who wait for one: who asks again at once isn't quicker."""
        deadline = None if self._timeout is None else time.monotonic() + self._timeout
        lease = Lease()
        turn = weakref.ref(lease)
        with self._free:
            self._turns.append(turn)
            try:
                while not self._is_due(turn):
                    if deadline is not None and time.monotonic() >= deadline:
                        raise TimedOut(f"all {self._size} connections of the pool were in use for {self._timeout} s")
                    self._free.wait(0.05)  # a lease whose holder was interrupted ends without a word
                self._leases.add(lease)
            finally:
                self._turns.remove(turn)
                self._free.notify_all()
            return lease

    def _is_due(self, turn: weakref.ref[Lease]) -> bool:
        """Whether a place is free for the first who waits, and that is this one."""
        while self._turns[0]() is None:
            del self._turns[0]
        return len(self._leases) < self._size and self._turns[0] is turn

    def _take(self, question: Question) -> Optional[Connection]:
        """A connection that is free and has requests enough left."""
        while True:
            try:
                connection = self._idle.pop()
            except IndexError:
                return None
            if connection.left() > question.size:
                return connection
            connection.close()

    def _open(self) -> Connection:
        if self._closed:
            raise LinkEnded("the pool is closed")
        self._made += 1
        host, port = self._address
        record = None if self._record is None else f"{self._record}.{os.getpid()}.{self._made}"
        return connect(host, port, self._timeout, values=self.order or (), record=record)

    def _give(self, connection: Connection) -> None:
        if not connection.left():
            return
        self._idle.append(connection)
        if self._closed:
            self.close()
