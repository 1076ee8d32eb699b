"""Keeps what was sent and what came, as `keynoted check` and other readers of requests and replies take it."""

from __future__ import annotations

from typing import Iterable, Tuple

from .wire import Reply, Request


# for what is no right form of ADMIN a text that is refused alike
REFUSED = {b"NO 1 syntax": b"ADMIN\n", b"NO 2 command": b"ADMIN?\n", b"NO 14 long": b"ADMIN " + b"0" * 8192 + b"\n"}


class Transcript:
    """Two new files, PREFIX.requests and PREFIX.replies, which hold the requests whose replies came whole, and these.

    The administrators' secret is left out: in place of it ADMIN has the digits 00, with the daemon's reply as it came.
    """

    def __init__(self, prefix: str) -> None:
        self._requests = open(f"{prefix}.requests", "xb", buffering=0)
        try:
            self._replies = open(f"{prefix}.replies", "xb", buffering=0)
        except BaseException:
            self._requests.close()
            raise

    def keep(self, talk: Iterable[Tuple[Request, Reply]]) -> None:
        pairs = list(talk)
        write_all(self._requests, b"".join(without_secret(*pair) for pair in pairs))
        write_all(self._replies, b"".join(reply.text() for _, reply in pairs))

    def close(self) -> None:
        self._requests.close()
        self._replies.close()


def without_secret(request: Request, reply: Reply) -> bytes:
    """The text of the request; of ADMIN, also a misspelled one, a text without the secret that has the same reply."""
    if not request.line.lstrip().upper().startswith(b"ADMIN"):
        return request.text()
    return REFUSED.get(reply.lines[0], b"ADMIN 00\n")


def write_all(file: object, data: bytes) -> None:
    """Writes all of it to an unbuffered file."""
    left = memoryview(data)
    while left:
        left = left[file.write(left):]  # type: ignore[attr-defined]
