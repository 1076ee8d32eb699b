"""The same for asyncio: a connection and a pool, whose `ask` is awaited."""

from __future__ import annotations

import asyncio
import collections
import os
from typing import Deque, Iterable, List, Mapping, Optional, Sequence, Tuple

from .answers import Answer, Critical, News
from .arguments import Path, Text, limit_of, order_of, path_of, size_of
from .connection import LIMIT, Check
from .errors import KeynotedError, LinkEnded, NoMemory, NoSession, Refusal, TimedOut
from .explaining import explain
from .link import host_and_port
from .pool import SIZE
from .question import Desk, Question
from .recording import Transcript
from .wire import NEWS, OPENED, REQUESTS, Replies, Reply, Request, answer_of, critical_of, news_of, words_of


class Exchange(asyncio.Protocol):
    """What asyncio calls: gives what comes to the replies that are awaited."""

    def __init__(self) -> None:
        self.transport: Optional[asyncio.Transport] = None
        self.ended = False
        self._replies: Optional[Replies] = None
        self._whole: Optional[asyncio.Future[None]] = None

    def connection_made(self, transport: asyncio.BaseTransport) -> None:
        assert isinstance(transport, asyncio.Transport)
        self.transport = transport

    def data_received(self, data: bytes) -> None:
        if self._replies is None or self._whole is None or self._whole.done():
            return self.end(LinkEnded("something came that nobody asked for"))
        try:
            if self._replies.feed(data):
                self._whole.set_result(None)
        except LinkEnded as why:
            self.end(why)

    def connection_lost(self, why: Optional[Exception]) -> None:
        self.end(LinkEnded(f"the connection failed: {why}" if why else "the connection ended without a reply"))

    def end(self, why: LinkEnded) -> None:
        """Ends the connection at once, and tells so whoever waits."""
        self.ended = True
        if self._whole and not self._whole.done():
            self._whole.set_exception(why)
        if self.transport:
            self.transport.abort()

    async def talk(self, data: bytes, replies: Replies, limit: Optional[float]) -> None:
        """Sends the data and waits for the replies."""
        loop = asyncio.get_running_loop()
        self._replies, self._whole = replies, loop.create_future()
        late = TimedOut("no reply came within the limit of time")
        timer = None if limit is None else loop.call_later(limit, self.end, late)
        assert self.transport
        try:
            self.transport.write(data)
            await self._whole
        finally:
            self._replies = None
            if timer:
                timer.cancel()


class AsyncConnection:
    """A connection over TCP that asks questions; whatever interrupts one, as a task's end, ends the connection."""

    def __init__(self, exchange: Exchange, timeout: Optional[float], order: Optional[Tuple[str, ...]],
                 record: Optional[Path]) -> None:
        self.order, self._exchange, self._timeout = order, exchange, timeout
        self._transcript = Transcript(path_of(record, "record")) if record is not None else None
        self._lock, self._owner = asyncio.Lock(), os.getpid()
        self._ready, self._asked = True, 0
        self._desk: Optional[Desk] = None

    async def __aenter__(self) -> AsyncConnection:
        return self

    async def __aexit__(self, *_: object) -> None:
        await self.close()

    async def ask(self, principals: Iterable[Text], attributes: Mapping[Text, Text], values: Sequence[str] = (),
                  private: Iterable[Text] = ()) -> Answer:
        """Asks one question as `Connection.ask` does."""
        return answer_of(*await self.settle(Question(principals, attributes, values, private, self.order)))

    async def critical(self, principals: Iterable[Text], attributes: Mapping[Text, Text], values: Sequence[str] = (),
                       private: Iterable[Text] = ()) -> Critical:
        """Asks one question as `Connection.critical` does."""
        question = Question(principals, attributes, values, private, self.order, b"CRITICAL")
        return critical_of(*await self.settle(question))

    async def watch(self, principals: Iterable[Text], attributes: Mapping[Text, Text], values: Sequence[str] = (),
                    private: Iterable[Text] = ()) -> AsyncWatch:
        """Keeps a question as `Connection.watch` does."""
        question = Question(principals, attributes, values, private, self.order, b"WATCH")
        async with self._lock:
            desk = await self._open()
            try:
                return AsyncWatch(self, desk.number, news_of(*await self._settle_at(desk, question)))
            except (Refusal, NoMemory):
                await self._talk([Request(words_of(b"CLOSE", b"%d" % desk.number))])
                raise

    async def reply_to(self, request: Request) -> Tuple[Reply, Request]:
        """The reply to one request, with this; a refusal is raised."""
        async with self._lock:
            reply = (await self._talk([request]))[0]
        reply.raise_refusal(request)
        return reply, request

    async def settle(self, question: Question) -> Tuple[Reply, Request]:
        """The reply to a question and its request, on a session that serves for nothing else."""
        async with self._lock:
            if self._desk is None:
                self._desk = await self._open()
            try:
                return await self._settle_at(self._desk, question)
            except NoSession:
                self._desk = None
                raise

    async def _open(self) -> Desk:
        opening = Request(b"OPEN", None, OPENED)
        return Desk(int((await self._talk([opening]))[0].parts(opening)[0]))

    async def _settle_at(self, desk: Desk, question: Question) -> Tuple[Reply, Request]:
        requests = question.requests(desk)
        replies = await self._talk(requests, lambda came: question.settle(desk, requests, came))
        return question.answer(requests, replies)

    async def close(self) -> None:
        """Says BYE where that is still possible, and closes the connection."""
        async with self._lock:
            try:
                if self.left():
                    await self._talk([Request(b"BYE")])
            except KeynotedError:
                pass
            self._end()

    def left(self) -> int:
        """How many requests the connection may still send; 0 where it has ended."""
        usable = self._ready and not self._exchange.ended and self._owner == os.getpid()
        return REQUESTS - 1 - self._asked if usable else 0

    async def _talk(self, requests: Sequence[Request], check: Optional[Check] = None) -> List[Reply]:
        if not self.left():
            raise LinkEnded("the connection has ended")
        replies = Replies(requests)
        self._ready = False
        try:
            self._asked += len(requests)
            if self._asked >= REQUESTS:
                raise LinkEnded("a connection has 1,000,000 requests at most")
            await self._exchange.talk(b"".join([it.text() for it in requests]), replies, self._timeout)
            if check:
                check(replies.whole)
            self._ready = not replies.ended
        except LinkEnded as why:
            why.args = (explain(why.line) if why.line.startswith("error link ") else str(why),)
            raise
        finally:
            if self._transcript:
                self._transcript.keep(zip(requests, replies.whole))
            if not self._ready:
                self._end()
        return replies.whole

    def _end(self) -> None:
        self._ready = False
        if self._exchange.transport:
            self._exchange.transport.abort()
        if self._transcript:
            self._transcript.close()


class AsyncWatch:
    """A question that is kept, as `Watch` has it."""

    def __init__(self, connection: AsyncConnection, number: int, first: News) -> None:
        self._connection, self._number, self.first = connection, number, first

    async def __aenter__(self) -> AsyncWatch:
        return self

    async def __aexit__(self, *_: object) -> None:
        try:
            await self.close()
        except KeynotedError:
            pass  # it was closed before, or the connection has ended

    async def news(self) -> News:
        """What the question comes to by the newest version."""
        request = Request(words_of(b"NEWS", b"%d" % self._number), None, NEWS, self.first.values)
        return news_of(*await self._connection.reply_to(request))

    async def close(self) -> None:
        await self._connection.reply_to(Request(words_of(b"CLOSE", b"%d" % self._number)))


async def connect_async(host: str, port: Optional[int] = None, timeout: Optional[float] = LIMIT, *,
                        values: Sequence[str] = (), record: Optional[Path] = None) -> AsyncConnection:
    """A connection over TCP, as `connect` makes one."""
    order = order_of(values)
    host, port = host_and_port(host, port)
    limit_of(timeout, "timeout")
    opening = asyncio.get_running_loop().create_connection(Exchange, host, port)
    try:
        transport, exchange = await asyncio.wait_for(opening, timeout)
    except asyncio.TimeoutError as why:
        raise TimedOut(f"no connection to {host}:{port} within {timeout} s") from why
    except OSError as why:
        raise LinkEnded(f"no connection to {host}:{port}: {why}") from why
    try:
        return AsyncConnection(exchange, timeout, order, record)
    except BaseException:
        transport.abort()
        raise


def fail(waiter: asyncio.Future[None], why: LinkEnded) -> None:
    if not waiter.done():
        waiter.set_exception(why)


class AsyncPool:
    """At most `size` connections to one daemon, as `Pool` has them, for the tasks of one loop."""

    def __init__(self, host: str, port: Optional[int] = None, *, size: int = SIZE, timeout: Optional[float] = LIMIT,
                 values: Sequence[str] = (), record: Optional[Path] = None) -> None:
        self.order, self._size = order_of(values), size_of(size)
        self._address, self._timeout = host_and_port(host, port), limit_of(timeout, "timeout")
        self._record = None if record is None else path_of(record, "record")
        self._used = 0
        self._waiting: Deque[asyncio.Future[None]] = collections.deque()
        self._idle: List[AsyncConnection] = []
        self._made, self._closed = 0, False

    async def __aenter__(self) -> AsyncPool:
        return self

    async def __aexit__(self, *_: object) -> None:
        await self.close()

    async def close(self) -> None:
        """Closes the connections that nobody uses now, and each other one when its question is answered."""
        self._closed = True
        while self._idle:
            await self._idle.pop().close()

    async def ask(self, principals: Iterable[Text], attributes: Mapping[Text, Text], values: Sequence[str] = (),
                  private: Iterable[Text] = ()) -> Answer:
        """Asks one question as `Connection.ask` does."""
        return answer_of(*await self._ask(Question(principals, attributes, values, private, self.order)))

    async def critical(self, principals: Iterable[Text], attributes: Mapping[Text, Text], values: Sequence[str] = (),
                       private: Iterable[Text] = ()) -> Critical:
        """Asks one question as `Connection.critical` does."""
        return critical_of(*await self._ask(Question(principals, attributes, values, private, self.order, b"CRITICAL")))

    async def _ask(self, question: Question) -> Tuple[Reply, Request]:
        await self._enter()
        try:
            return await self._settle(question)
        finally:
            self._leave()

    async def _enter(self) -> None:
        """Takes one of the `size` places, in the order of those who wait for one."""
        if self._used < self._size:
            self._used += 1
            return
        loop = asyncio.get_running_loop()
        late = TimedOut(f"all {self._size} connections of the pool were in use for {self._timeout} s")
        waiter = loop.create_future()
        timer = None if self._timeout is None else loop.call_later(self._timeout, fail, waiter, late)
        self._waiting.append(waiter)
        try:
            await waiter
        except BaseException:
            if waiter.done() and not waiter.cancelled() and not waiter.exception():
                self._leave()  # it was given the place, and cancelled before it knew
            raise
        finally:
            if timer:
                timer.cancel()

    def _leave(self) -> None:
        """Gives the place to the first who waits: who asks again at once must not be quicker."""
        while self._waiting:
            waiter = self._waiting.popleft()
            if not waiter.done():
                return waiter.set_result(None)
        self._used -= 1

    async def _settle(self, question: Question) -> Tuple[Reply, Request]:
        connection = await self._take(question)
        if connection:
            try:
                return await connection.settle(question)
            except TimedOut:
                raise
            except LinkEnded:
                pass  # it ended since its last question: nothing was decided, and the question changes nothing
            finally:
                await self._give(connection)
        connection = await self._open()
        try:
            return await connection.settle(question)
        finally:
            await self._give(connection)

    async def _take(self, question: Question) -> Optional[AsyncConnection]:
        while self._idle:
            connection = self._idle.pop()
            if connection.left() > question.size:
                return connection
            await connection.close()
        return None

    async def _open(self) -> AsyncConnection:
        if self._closed:
            raise LinkEnded("the pool is closed")
        self._made += 1
        host, port = self._address
        record = None if self._record is None else f"{self._record}.{os.getpid()}.{self._made}"
        return await connect_async(host, port, self._timeout, values=self.order or (), record=record)

    async def _give(self, connection: AsyncConnection) -> None:
        if connection.left():
            self._idle.append(connection)
        if self._closed:
            await self.close()
