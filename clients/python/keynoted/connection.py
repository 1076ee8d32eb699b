"""Connections to the daemon and their sessions: requests are written and replies read, and nothing is decided here."""

from __future__ import annotations

import os
import subprocess
import threading
from typing import Callable, Iterable, List, Mapping, Optional, Sequence, Tuple, Union, overload

from .answers import Answer, Critical, News
from .arguments import Path, Text, bytes_of, limit_of, number_of, order_of, path_of, refuse, values_of
from .errors import KeynotedError, LinkEnded, NoMemory, NoSession, Refusal, TimedOut
from .explaining import explain
from .link import Link, dial, host_and_port
from .question import Desk, Question
from .recording import Transcript
from .updates import Batch, Credential, credentials_of
from .wire import (
    ADDED, ANY, NEWS, OK, OPENED, PINNED, PRIVATE, REQUESTS, VERSION, Replies, Reply, Request, Update, answer_of,
    asked_of, critical_of, log_of, news_of, words_of,
)

LIMIT = 5.0  # seconds, where nothing is said
LOADING = 60.0
Check = Callable[[Sequence[Reply]], None]


class Connection:
    """A connection to the daemon; as a context manager it says BYE at its end. `connect` and `start` make one.

    Threads may share it: an exchange, which is what is sent at once and its replies, is one thread's at a time.
    Whatever interrupts an exchange ends the connection, since the next request would get its reply. In another process
    than its own, as after a fork, it has ended.
    """

    def __init__(self, link: Link, *, timeout: Optional[float] = LIMIT, values: Sequence[str] = (),
                 record: Optional[Path] = None) -> None:
        self.order = order_of(values)
        self._link, self._timeout = link, limit_of(timeout, "timeout")
        self._transcript = Transcript(path_of(record, "record")) if record is not None else None
        self._lock, self._owner = threading.RLock(), os.getpid()
        self._ready = True  # no exchange is under way, and the connection hasn't ended
        self._asked = 0
        self._desk: Optional[Desk] = None

    def __enter__(self) -> Connection:
        return self

    def __exit__(self, *_: object) -> None:
        self.close()

    def close(self) -> None:
        """Says BYE where that is still possible, and closes the connection."""
        if self._owner != os.getpid():
            return self._link.close()  # the copy of this process: BYE would end the other's too
        with self._lock:
            try:
                if self._ready:
                    self.exchange([Request(b"BYE")])
            except KeynotedError:
                pass
            self._end()

    def ask(self, principals: Iterable[Text], attributes: Mapping[Text, Text], values: Sequence[str] = (),
            private: Iterable[Text] = ()) -> Answer:
        """Asks one question in one write: what these principals have together, with these attributes and nothing else.

        It goes by the newest version of the credentials, and by these private assertions, which are gone afterwards.
        """
        return answer_of(*self.settle(Question(principals, attributes, values, private, self.order)))

    def critical(self, principals: Iterable[Text], attributes: Mapping[Text, Text], values: Sequence[str] = (),
                 private: Iterable[Text] = ()) -> Critical:
        """Asks the same, and answers the value with the ids of the assertions without which it would be lower."""
        return critical_of(*self.settle(Question(principals, attributes, values, private, self.order, b"CRITICAL")))

    def watch(self, principals: Iterable[Text], attributes: Mapping[Text, Text], values: Sequence[str] = (),
              private: Iterable[Text] = ()) -> Watch:
        """Keeps a question on a session of its own, so that `news()` asks it again. A connection has 16 sessions."""
        question = Question(principals, attributes, values, private, self.order, b"WATCH")
        number = self._open()[0]
        try:
            return Watch(self, number, news_of(*self._settle_at(Desk(number), question)))
        except (Refusal, NoMemory):
            self.parts(Request(words_of(b"CLOSE", b"%d" % number)))
            raise

    def settle(self, question: Question) -> Tuple[Reply, Request]:
        """The reply to a question and its request, on a session that serves for nothing else."""
        with self._lock:
            if self._desk is None:
                self._desk = Desk(self._open()[0])
            try:
                return self._settle_at(self._desk, question)
            except NoSession:
                self._desk = None
                raise

    def _settle_at(self, desk: Desk, question: Question) -> Tuple[Reply, Request]:
        requests = question.requests(desk)
        replies = self.exchange(requests, lambda came: question.settle(desk, requests, came))
        return question.answer(requests, replies)

    def session(self) -> Session:
        """Opens a session, pinned to the newest version of the credentials."""
        return Session(self, *self._open())

    def admin(self, secret: bytes) -> None:
        """Shows the administrators' secret, after which `add`, `drop`, `batch` and `log` are allowed."""
        if not isinstance(secret, bytes):
            refuse("secret", "bytes are", secret)
        if not secret:
            raise ValueError("secret: it is empty")
        self.parts(Request(words_of(b"ADMIN", secret.hex().encode())))

    def add(self, text: Text) -> Tuple[str, int]:
        """Adds a shared credential: its id and the version that this makes."""
        block = bytes_of(text, "text")
        name, _, version = self.parts(Request(words_of(b"ADD", b"%d" % len(block)), block, ADDED))
        return name.decode(), int(version)

    def drop(self, name: str) -> int:
        """Takes a shared credential away: the version that this makes."""
        return int(self.parts(Request(words_of(b"DROP", bytes_of(name, "name")), None, VERSION))[0])

    def batch(self) -> Batch:
        """Changes that are made together, or not at all, at the end of a `with`: `add(text)` and `drop(id)`."""
        return Batch(self)

    def log(self, length: int = 0) -> List[Update]:
        """The updates of the shared credentials behind the first ones, of which there are so many, to the newest."""
        updates: List[Update] = []
        held = number_of(length, "length")
        while True:
            request = log_of(held)
            reply = self.exchange([request])[0]
            newest = int(reply.parts(request)[1])
            updates += reply.updates
            held += len(reply.updates)
            if held == newest:
                return updates

    def credentials(self) -> List[Credential]:
        """All shared credentials that were ever added, by the log from its beginning."""
        return credentials_of(self.log())

    def request(self, line: bytes, block: Optional[bytes] = None) -> Tuple[bytes, ...]:
        """Sends a request as it stands, with its block, and answers the lines of its reply."""
        if not isinstance(line, bytes):
            refuse("line", "bytes are", line)
        if block is not None and line.split(b" ")[-1] != b"%d" % len(block):
            raise ValueError(f"the line doesn't say the length of its block: {line!r}")
        request = Request(words_of(line), block, ANY)
        reply = self.exchange([request])[0]
        reply.raise_refusal(request)
        return reply.lines

    def parts(self, request: Request) -> Tuple[bytes, ...]:
        """The parts of the reply to one request; a refusal is raised."""
        return self.exchange([request])[0].parts(request)

    def _open(self) -> Tuple[int, int]:
        number, version = self.parts(Request(b"OPEN", None, OPENED))
        return int(number), int(version)

    def exchange(self, requests: Sequence[Request], check: Optional[Check] = None) -> List[Reply]:
        """Sends requests at once and answers their replies, refusals too.

        Whatever is raised before `check`, which gets the replies, is through with them ends the connection.
        """
        if self._owner != os.getpid():
            raise LinkEnded("the connection is another process's")
        with self._lock:
            if not self._ready:
                raise LinkEnded("the connection has ended")
            replies = Replies(requests)
            self._ready = False
            try:
                self._count(requests)
                self._talk(requests, replies)
                if check:
                    check(replies.whole)
                self._ready = not replies.ended
            finally:
                if not self._ready:
                    self._end()
        return replies.whole

    def left(self) -> int:
        """How many requests the connection may still send; 0 where it has ended."""
        return REQUESTS - 1 - self._asked if self._ready and self._owner == os.getpid() else 0

    def _count(self, requests: Sequence[Request]) -> None:
        self._asked += len(requests)
        # behind the last reply would come the line that says so: one request is left for BYE
        if self._asked >= REQUESTS and requests[0].line != b"BYE":
            raise LinkEnded("a connection has 1,000,000 requests at most")

    def _talk(self, requests: Sequence[Request], replies: Replies) -> None:
        data = b"".join([it.text() for it in requests])
        try:
            if not self._link.is_quiet():
                self._link.exchange(b"", Replies([]).feed, self._limit())
            self._link.exchange(data, replies.feed, self._limit())
        except LinkEnded as why:
            raise self._in_words(why) from why.__cause__
        finally:
            if self._transcript:
                self._transcript.keep(zip(requests, replies.whole))

    def _limit(self) -> Optional[float]:
        return self._timeout

    def _in_words(self, why: LinkEnded) -> LinkEnded:
        # over TCP the names of files are those of another machine
        if why.line and not why.line.startswith(("error policy ", "error file ", "error keys ")):
            why.args = (explain(why.line) or why.line,)
        return why

    def _end(self) -> None:
        self._ready = False
        self._link.close()
        if self._transcript:
            self._transcript.close()


class Started(Connection):
    """A connection to a daemon of one's own, which ends with it."""

    def __init__(self, process: subprocess.Popen[bytes], keys: str, loading: Optional[float], *,
                 timeout: Optional[float], values: Sequence[str], record: Optional[Path]) -> None:
        assert process.stdin and process.stdout
        super().__init__(Link(process.stdout, process.stdin), timeout=timeout, values=values, record=record)
        self._process, self._keys, self._loading = process, keys, loading

    def close(self) -> None:
        super().close()
        if self._owner == os.getpid():
            stop(self._process, self._timeout)

    def _talk(self, requests: Sequence[Request], replies: Replies) -> None:
        super()._talk(requests, replies)
        self._loading = 0.0

    def _limit(self) -> Optional[float]:
        return None if self._timeout is None or self._loading is None else self._timeout + self._loading

    def _in_words(self, why: LinkEnded) -> LinkEnded:
        """The words of the program's last line, with file, line and column; without one, the program's status."""
        try:
            if why.line:
                why.args = (explain(why.line, self._keys) or why.line,)
            elif not isinstance(why, TimedOut):
                why.args = (f"{why}: the program ended with status {self._process.wait(1)}",)
        except (OSError, subprocess.TimeoutExpired):
            pass  # the file is gone meanwhile, or the program goes on
        return why


def stop(process: subprocess.Popen[bytes], limit: Optional[float]) -> None:
    """Waits for a program whose input has ended, and kills it where it doesn't end."""
    try:
        process.wait(limit)
    except subprocess.TimeoutExpired:
        process.kill()
        process.wait()


class Session:
    """A session of a connection; as a context manager it is closed at its end. It is for one question at a time."""

    def __init__(self, connection: Connection, number: int, version: int) -> None:
        self._connection, self.number, self.version = connection, number, version
        self._watched: Tuple[str, ...] = ()

    def __enter__(self) -> Session:
        return self

    def __exit__(self, *_: object) -> None:
        try:
            self.close()
        except KeynotedError:
            pass  # it was closed before, or the connection has ended

    def _line(self, word: bytes, *parts: bytes) -> bytes:
        return words_of(word, b"%d" % self.number, *parts)

    def _ok(self, word: bytes, *parts: bytes) -> None:
        self._connection.parts(Request(self._line(word, *parts), None, OK))

    def close(self) -> None:
        self._ok(b"CLOSE")

    @overload
    def pin(self) -> int: ...

    @overload
    def pin(self, version: int) -> Tuple[int, int]: ...

    def pin(self, version: Optional[int] = None) -> Union[int, Tuple[int, int]]:
        """Pins the session to the newest version of the credentials, which is answered.

        Where a version is named, one of the newest 16, it is pinned to that, and the answer is this one and the newest.
        """
        if version is None:
            self.version = int(self._connection.parts(Request(self._line(b"PIN"), None, VERSION))[0])
            return self.version
        line = self._line(b"PIN", b"%d" % number_of(version, "version"))
        pinned, newest = self._connection.parts(Request(line, None, PINNED))
        self.version = int(pinned)
        return self.version, int(newest)

    def auth(self, principal: Text) -> None:
        """Names a requesting principal."""
        self._ok(b"AUTH", bytes_of(principal, "principal"))

    def unauth(self, principal: Text) -> None:
        self._ok(b"UNAUTH", bytes_of(principal, "principal"))

    def set(self, name: Text, value: Text) -> None:
        """Gives an attribute a value without an end of line; `set_bytes` takes any."""
        self._ok(b"SET", bytes_of(name, "name"), bytes_of(value, "value"))

    def set_bytes(self, name: Text, value: bytes) -> None:
        self._ok(b"SETX", bytes_of(name, "name"), bytes_of(value, "value").hex().encode())

    def unset(self, name: Text) -> None:
        self._ok(b"UNSET", bytes_of(name, "name"))

    def clear(self) -> None:
        """Takes all attributes and requesters away; version and private assertions stay."""
        self._ok(b"CLEAR")

    def add_private(self, text: Text) -> str:
        """Adds a private assertion, which nobody verifies: its id."""
        block = bytes_of(text, "text")
        return self._connection.parts(Request(self._line(b"ASSERT", b"%d" % len(block)), block, PRIVATE))[0].decode()

    def retract(self, name: str) -> None:
        self._ok(b"RETRACT", bytes_of(name, "name"))

    def query(self, *values: str) -> Answer:
        """Asks for the policy's value among these, of which the lowest is the first."""
        return answer_of(*self._asked(b"QUERY", values))

    def critical(self, *values: str) -> Critical:
        """Asks the same, and answers the value with the ids of the assertions without which it would be lower."""
        return critical_of(*self._asked(b"CRITICAL", values))

    def watch(self, *values: str) -> News:
        """Asks the same, and keeps the question: what is said to the session later changes nothing of it."""
        news = news_of(*self._asked(b"WATCH", values))
        self._watched = news.values
        return news

    def news(self) -> News:
        """What the question that `watch` has kept comes to by the newest version."""
        return news_again(self._connection, self.number, self._watched)

    def unwatch(self) -> None:
        """Ends the question that `watch` has kept."""
        self._ok(b"UNWATCH")

    def _asked(self, word: bytes, values: Sequence[str]) -> Tuple[Reply, Request]:
        request = asked_of(word, b"%d" % self.number, values_of(values, self._connection.order))
        return self._connection.exchange([request])[0], request


def news_again(connection: Connection, number: int, values: Tuple[str, ...]) -> News:
    """What the standing query of a session comes to by the newest version; its values are these."""
    request = Request(words_of(b"NEWS", b"%d" % number), None, NEWS, values)
    reply = connection.exchange([request])[0]
    reply.raise_refusal(request)
    if not values:
        raise ValueError("the question was kept in another way than by `watch`, so its values aren't known here")
    return news_of(reply, request)


class Watch:
    """A question that is kept on a session of its own; as a context manager it is given up at its end.

    `first` is what it came to when it was asked.
    """

    def __init__(self, connection: Connection, number: int, first: News) -> None:
        self._connection, self._number, self.first = connection, number, first

    def __enter__(self) -> Watch:
        return self

    def __exit__(self, *_: object) -> None:
        try:
            self.close()
        except KeynotedError:
            pass  # it was closed before, or the connection has ended

    def news(self) -> News:
        """What the question comes to by the newest version."""
        return news_again(self._connection, self._number, self.first.values)

    def close(self) -> None:
        self._connection.parts(Request(words_of(b"CLOSE", b"%d" % self._number)))


def connect(host: str, port: Optional[int] = None, timeout: Optional[float] = LIMIT, *, values: Sequence[str] = (),
            record: Optional[Path] = None) -> Connection:
    """A connection over TCP. The host may be an address as `[::1]:2704`; the port that isn't said is 2704.

    Connecting and each exchange may take `timeout` seconds, or as long as they want where it is None. `values` are the
    order that each query has to keep. `record` is the prefix of two new files, for what is sent and what comes.
    """
    link = dial(*host_and_port(host, port), limit_of(timeout, "timeout"))
    try:
        return Connection(Link(link, link), timeout=timeout, values=values, record=record)
    except BaseException:
        link.close()
        raise


def start(policy: Path, keys: Optional[Path] = None, program: Optional[str] = None, *, timeout: Optional[float] = LIMIT,
          loading: Optional[float] = LOADING, values: Sequence[str] = (), record: Optional[Path] = None) -> Connection:
    """Starts a daemon of one's own over this policy file and key file, with pipes to it.

    Its first reply may take `loading` seconds more than `timeout`, since the program reads its files first.
    """
    words = [path_of(program or program_of(), "program"), "ask", path_of(policy, "policy")]
    words += [path_of(keys, "keys")] if keys is not None else []
    limit_of(loading, "loading")
    try:
        process = subprocess.Popen(words, stdin=subprocess.PIPE, stdout=subprocess.PIPE, bufsize=0)
    except OSError as why:
        raise LinkEnded(f"{words[0]} doesn't start: {why}") from why
    try:
        told = words[3] if keys is not None else ""
        return Started(process, told, loading, timeout=timeout, values=values, record=record)
    except BaseException:
        process.kill()
        process.communicate()
        raise


def program_of() -> str:
    """The program: $KEYNOTED, or the script near this file, or keynoted on PATH."""
    here = os.path.dirname(os.path.dirname(os.path.abspath(os.path.realpath(__file__))))
    for near in (os.path.join(here, "..", "..", "keynoted"), os.path.join(here, "..", "..", "..", "bin", "keynoted")):
        if os.path.isfile(near):
            return os.environ.get("KEYNOTED") or os.path.normpath(near)
    return os.environ.get("KEYNOTED") or "keynoted"
