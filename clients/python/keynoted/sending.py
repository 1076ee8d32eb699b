"""The command `record`: sends requests as they stand, prints their replies, and keeps both."""

from __future__ import annotations

import argparse
import sys
from typing import Callable, Iterator

from .connection import Connection
from .parts import BLOCK, requests_of
from .texts import read_file
from .wire import ANY, BLOCK_BYTES, Request


def requests_in(script: bytes) -> Iterator[Request]:
    """The requests of a script through BYE, or a block that is refused; what breaks off within one is none."""
    for _, line, start, end in requests_of(script):
        if script[start - 1:start] != b"\n":
            return
        if not BLOCK.fullmatch(line):
            yield Request(line, None, ANY)
        elif end - start > BLOCK_BYTES:
            yield Request(line, None, ANY)  # it is refused before its block
            return
        elif script[end:end + 1] == b"\n":
            yield Request(line, script[start:end], ANY)
        else:
            if end < len(script):  # the block with what goes on behind it, which ends the connection
                yield Request(line + b"\n" + script[start:end + 1], None, ANY)
            return
        if line == b"BYE":
            return


def add_record(commands: argparse._SubParsersAction[argparse.ArgumentParser],
               connected: Callable[[argparse.Namespace], Connection]) -> None:
    def run(args: argparse.Namespace) -> int:
        script = read_file(args.script) if args.script else sys.stdin.buffer.read()
        with connected(args) as daemon:
            for request in requests_in(script):
                sys.stdout.buffer.write(daemon.exchange([request])[0].text())
                sys.stdout.buffer.flush()
        return 0

    record = commands.add_parser("record", help="sends requests as they stand, and keeps both sides")
    record.add_argument("record", metavar="PREFIX", help="of two new files, PREFIX.requests and PREFIX.replies")
    record.add_argument("policy", nargs="?", help="the policy file, unless --connect is given")
    record.add_argument("--connect", metavar="HOST:PORT", help="a daemon that serves")
    record.add_argument("--script", metavar="FILE", help="the requests (else those of standard input)")
    record.add_argument("--keys", help="the key file")
    record.set_defaults(run=run)
