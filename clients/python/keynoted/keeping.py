"""The command `log`: keeps the log of a daemon that serves in a file, byte for byte as the daemon tells it."""

from __future__ import annotations

import argparse
import re
import sys
import time
from typing import Optional

from .connection import Connection
from .errors import NoAhead
from .logfile import LogFile, refuse_difference
from .rotating import administrator
from .wire import log_of

PAUSE = 1.0  # seconds between two looks
PATIENCE = 60.0  # seconds for a reply: nobody waits for it, and a busy machine may be slow
SPARE = 10_000  # requests of a connection with which a new one is made: more than the longest log takes


def check_same(file: LogFile, daemon: Connection) -> None:
    """Raises where the file doesn't hold the daemon's first updates, or more of them than there are."""
    text, before = file.text, file.text.start or 0
    try:
        found = daemon.log(before) if text.updates else []
    except NoAhead:
        found = []
    refuse_difference(text.updates, found, before, file.name)
    if len(found) < len(text.updates):
        raise ValueError(f"{file.name} holds updates up to {text.held()}, and the daemon has fewer: restore them first")


def read_on(file: LogFile, daemon: Connection) -> None:
    """Writes what the daemon has behind the updates of the file."""
    while True:
        request = log_of(file.text.held())
        reply = daemon.exchange([request])[0]
        count, newest = map(int, reply.parts(request))
        if count:
            file.append(reply)
        if file.text.held() == newest:
            return


def follow(args: argparse.Namespace, file: LogFile) -> int:
    """Reads on every second until it is interrupted; the end of the connection is raised."""
    try:
        while True:
            with administrator(args, timeout=PATIENCE) as daemon:
                check_same(file, daemon)
                keep_reading(file, daemon)
    except KeyboardInterrupt:
        return 0


def keep_reading(file: LogFile, daemon: Connection) -> None:
    """Reads on every second until the requests of the connection are nearly used up."""
    while daemon.left() > SPARE:
        read_on(file, daemon)
        time.sleep(PAUSE)


def run_log(args: argparse.Namespace) -> int:
    with LogFile(args.file) as file:
        if file.cut:
            print(f"{args.file}: {file.cut} bytes of a reply that broke off were cut off", file=sys.stderr, flush=True)
        begin(file, args.start)
        if args.follow:
            return follow(args, file)
        with administrator(args, timeout=PATIENCE) as daemon:
            check_same(file, daemon)
            read_on(file, daemon)
    print(f"{args.file}: version {file.text.held()}")
    return 0


def begin(file: LogFile, start: Optional[int]) -> None:
    """Has a new file begin behind so many updates."""
    if file.text.start is None:
        file.text.start = start or 0
    elif start is not None and start != file.text.start:
        raise ValueError(f"{file.name} begins behind {file.text.start} updates, and not {start}")


def number_from(text: str) -> int:
    """A number of updates, of the words of the command."""
    if not re.fullmatch(r"0|[1-9][0-9]{0,8}", text):
        raise argparse.ArgumentTypeError(f"a number of updates is wanted, and this is {text!r}")
    return int(text)


def add_log(commands: argparse._SubParsersAction[argparse.ArgumentParser]) -> None:
    kept = commands.add_parser("log", help="keeps the updates of a daemon that serves in a file, and goes on with that")
    kept.add_argument("file", metavar="FILE", help="the file, which is made, or continued where it ends")
    kept.add_argument("--from", dest="start", type=number_from, metavar="N", help="begins a new file behind N updates")
    kept.add_argument("--follow", action="store_true", help="reads on every second, until it is interrupted")
    kept.add_argument("--connect", required=True, metavar="HOST:PORT", help="the daemon")
    kept.add_argument("--keys", required=True, help="the key file, whose line `secret` is shown")
    kept.set_defaults(run=run_log)
