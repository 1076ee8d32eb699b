"""Bytes to the daemon and back, each call within a limit of time."""

from __future__ import annotations

import math
import os
import select
import socket
import time
from typing import Callable, Optional, Protocol, Tuple

from .arguments import refuse
from .errors import LinkEnded, TimedOut

PORT = 2704  # where nothing is said
PIECE = 65536


class End(Protocol):
    """A pipe's end, or a socket."""

    def fileno(self) -> int: ...

    def close(self) -> None: ...


class Link:
    """What is written and what is read: two ends of pipes, or one socket twice."""

    def __init__(self, reader: End, writer: End) -> None:
        self._reader, self._writer = reader, writer
        self._in, self._out = reader.fileno(), writer.fileno()
        os.set_blocking(self._in, False)
        os.set_blocking(self._out, False)
        self._readable, self._both = select.poll(), select.poll()
        self._readable.register(self._in, select.POLLIN)
        self._both.register(self._out, select.POLLOUT | (select.POLLIN if self._in == self._out else 0))
        if self._in != self._out:
            self._both.register(self._in, select.POLLIN)

    def exchange(self, data: bytes, feed: Callable[[bytes], bool], limit: Optional[float]) -> None:
        """Writes the data, and gives what comes to `feed` until that is content."""
        deadline = None if limit is None else time.monotonic() + limit
        left = memoryview(data)
        while True:
            if left:
                left = self._write(left)
            self._wait(bool(left), deadline)
            try:
                came = os.read(self._in, PIECE)
            except BlockingIOError:
                continue
            except OSError as why:
                raise LinkEnded(f"the connection failed: {why}") from why
            if feed(came):
                return

    def _write(self, data: memoryview) -> memoryview:
        try:
            return data[os.write(self._out, data):]
        except BlockingIOError:
            return data
        except OSError:
            return data[len(data):]  # a refusal may have come before the end: it is read

    def _wait(self, writes: bool, deadline: Optional[float]) -> None:
        left = None if deadline is None else math.ceil(max(0.0, deadline - time.monotonic()) * 1000)
        if not (self._both if writes else self._readable).poll(left):
            raise TimedOut("no reply came within the limit of time")

    def is_quiet(self) -> bool:
        """Whether nothing has come that nobody asked for, as the end of the connection."""
        return not self._readable.poll(0)

    def close(self) -> None:
        for end in (self._writer, self._reader):
            try:
                end.close()
            except OSError:
                pass  # what was still to be written has nobody who reads it


def address_of(text: str) -> Tuple[str, int]:
    """The host and the port of an address HOST, HOST:PORT, [HOST]:PORT or [HOST]; 2704 is the port that isn't said."""
    host, colon, port = text, "", ""
    if text.startswith("["):
        host, _, behind = text[1:].partition("]")
        colon, port = behind[:1], behind[1:]
        if behind and colon != ":":
            raise ValueError(f"an address is HOST, HOST:PORT or [HOST]:PORT: {text!r}")
    elif text.count(":") == 1:
        host, colon, port = text.partition(":")
    if colon and not (port.isascii() and port.isdigit() and 0 < int(port) < 65536):
        raise ValueError(f"a port is a number from 1 to 65535: {text!r}")
    if not host:
        raise ValueError(f"an address names a host: {text!r}")
    return host, int(port) if colon else PORT


def host_and_port(host: str, port: Optional[int]) -> Tuple[str, int]:
    """The same where the port may be said apart."""
    if not isinstance(host, str):
        refuse("host", "a text is", host)
    if port is not None and (not isinstance(port, int) or isinstance(port, bool)):
        refuse("port", "a number is", port)
    if port is None:
        return address_of(host)
    return host[1:-1] if host.startswith("[") and host.endswith("]") else host, port


def dial(host: str, port: int, limit: Optional[float]) -> socket.socket:
    """A connection to the first address of the host that takes one, within the limit of time."""
    deadline, last = None if limit is None else time.monotonic() + limit, "it has no address"
    try:
        addresses = socket.getaddrinfo(host, port, type=socket.SOCK_STREAM)
    except OSError as why:
        raise LinkEnded(f"no connection to {host}:{port}: {why}") from why
    for family, kind, protocol, _, address in addresses:
        left = None if deadline is None else deadline - time.monotonic()
        if left is not None and left <= 0:
            raise TimedOut(f"no connection to {host}:{port} within {limit} s")
        link = socket.socket(family, kind, protocol)
        try:
            link.settimeout(left)
            link.connect(address)
            link.setsockopt(socket.IPPROTO_TCP, socket.TCP_NODELAY, 1)
            link.setsockopt(socket.SOL_SOCKET, socket.SO_KEEPALIVE, 1)
            return link
        except socket.timeout as why:
            link.close()
            raise TimedOut(f"no connection to {host}:{port} within {limit} s") from why
        except OSError as why:
            link.close()
            last = str(why)
        except BaseException:
            link.close()
            raise
    raise LinkEnded(f"no connection to {host}:{port}: {last}")
