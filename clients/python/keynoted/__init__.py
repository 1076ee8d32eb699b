"""Asks keynoted, and tells in words and places what it refuses: a library, and a command (keynoted.py --help).

    import keynoted
    with keynoted.start("policy.kn") as daemon, daemon.session() as session:
        session.auth("alice")
        session.set("action", "read")
        answer = session.query("no", "log", "yes")      # the lowest value first
        print(answer.at_least("log"))

Nothing is decided here: each answer is the daemon's. An answer is compared by its index and never by its name. What
would be read as another request is refused before it is sent (ValueError), and each refusal of the daemon is an
exception of its own. Whatever interrupts a request ends its connection. A gateway asks by a `Pool`:

    pool = keynoted.Pool("[::1]:2704", values=("no", "log", "yes"))
    pool.ask(["alice"], {"action": "read"}).at_least("log")
"""

from .answers import Answer, Critical, News, Row, Value
from .asynchronous import AsyncConnection, AsyncPool, AsyncWatch, connect_async
from .connection import Connection, Session, Watch, connect, start
from .errors import (
    KeynotedError, LinkEnded, NoAdmin, NoAhead, NoAuth, NoBatch, NoBlock, NoCommand, NoItem, NoLimit, NoLong, NoMemory,
    NoName, NoPolicy, NoPrincipal, NoRead, NoRetained, NoSession, NoSyntax, NoUnknown, NoValue, NoValues, Refusal,
    TimedOut,
)
from .explaining import explain
from .linting import lint
from .pool import Pool
from .updates import Batch, Credential, credentials_of
from .version import __version__
from .wire import Added, Dropped, Update

__all__ = [
    "Added", "Answer", "AsyncConnection", "AsyncPool", "AsyncWatch", "Batch", "Connection", "Credential",
    "Critical", "Dropped", "KeynotedError", "LinkEnded", "News", "NoAdmin", "NoAhead", "NoAuth", "NoBatch",
    "NoBlock", "NoCommand", "NoItem", "NoLimit", "NoLong", "NoMemory", "NoName", "NoPolicy", "NoPrincipal",
    "NoRead", "NoRetained", "NoSession", "NoSyntax", "NoUnknown", "NoValue", "NoValues", "Pool", "Refusal", "Row",
    "Session", "TimedOut", "Update", "Value", "Watch", "__version__", "connect", "connect_async", "credentials_of",
    "explain", "lint", "start",
]
