"""The commands on the credentials of a daemon that serves: `list`, `rotate` and `drop`, for administrators."""

from __future__ import annotations

import argparse
import re
import time
from typing import Iterator, List, Sequence, Tuple

from .connection import LIMIT, Connection, connect
from .errors import LinkEnded, NoItem
from .explaining import explain, words_of_refusal
from .texts import read_file
from .updates import Credential

SECRET = re.compile(rb"^secret ((?:[0-9A-Fa-f]{2})+)\r?$", re.M)
LONGEST = 100  # characters of what is told of a text


def administrator(args: argparse.Namespace, seconds: float = 0.0, timeout: float = LIMIT) -> Connection:
    """A connection that has shown the secret of the key file, to a daemon that is waited for where it isn't there yet."""
    return shown_to(connect_within(args.connect, seconds, timeout), args.keys)


def shown_to(daemon: Connection, keys: str) -> Connection:
    """The connection, which has shown the secret of the key file."""
    try:
        match = SECRET.search(read_file(keys))
        if not match:
            raise ValueError(f"{keys} has no secret")
        daemon.admin(bytes.fromhex(match[1].decode()))
    except BaseException:
        daemon.close()
        raise
    return daemon


def connect_within(address: str, seconds: float, timeout: float) -> Connection:
    deadline = time.monotonic() + seconds
    while True:
        try:
            return connect(address, timeout=timeout)
        except LinkEnded:
            if time.monotonic() >= deadline:
                raise
            time.sleep(0.1)


def summary_of(text: bytes) -> str:
    """The lines of a text on one line, without comments and the signature, as long as there is room."""
    lines = [line.strip() for line in text.decode("utf-8", "replace").splitlines()]
    told = " ".join(it for it in lines if it and not it.startswith("#") and not it.lower().startswith("signature:"))
    plain = "".join(it if it.isprintable() else "?" for it in told)
    return plain if len(plain) <= LONGEST else plain[:LONGEST - 3] + "..."


def line_of(credential: Credential) -> str:
    who = f"caller {credential.caller}" if credential.caller else "policy"
    return f"{credential.id} {'live' if credential.live else 'dropped'}, {who}: {summary_of(credential.text)}"


def run_list(args: argparse.Namespace) -> int:
    with administrator(args) as daemon:
        credentials = daemon.credentials()
    for credential in credentials:
        if credential.live or not args.live:
            print(line_of(credential))
    return 0


def live_like(credentials: Sequence[Credential], names: Sequence[str]) -> Iterator[Tuple[str, str]]:
    """The ids of the live credentials that have the texts of these files, each with the file's name."""
    for name in names:
        text = read_file(name)
        found = [it.id for it in credentials if it.live and it.text == text]
        if not found:
            raise ValueError(f"no live credential has the text of {name}")
        yield from ((it, name) for it in found)


def change(args: argparse.Namespace, old: Sequence[str], new: Sequence[str]) -> int:
    """Drops what has the texts of the old files and adds the new ones, all in one batch."""
    texts = [read_file(name) for name in new]
    with administrator(args) as daemon:
        gone = dict(live_like(daemon.credentials(), old))
        try:
            with daemon.batch() as batch:
                for name in gone:
                    batch.drop(name)
                for text in texts:
                    batch.add(text)
        except NoItem as refused:
            raise named(refused, [*gone.values(), *new]) from None
    for name, file in gone.items():
        print(f"dropped {name}, {file}")
    for name, file in zip(batch.ids, new):
        print(f"added {name}, {file}")
    print(f"version {batch.version}")
    return 0


def named(refused: NoItem, files: List[str]) -> NoItem:
    """The refusal in words, with the name of the file that it is about."""
    file, reason = files[refused.item - 1], refused.reason
    return NoItem(refused.line, explain(reason.line, file) if reason.code == 5 else f"{file}: {words_of_refusal(reason)}")


def run_rotate(args: argparse.Namespace) -> int:
    return change(args, args.old, args.to)


def run_drop(args: argparse.Namespace) -> int:
    return change(args, args.like, [])


def add_rotating(commands: argparse._SubParsersAction[argparse.ArgumentParser]) -> None:
    listed = commands.add_parser("list", help="lists the credentials of a daemon that serves, with their ids")
    listed.add_argument("--live", action="store_true", help="without those that were dropped")
    listed.set_defaults(run=run_list)
    rotated = commands.add_parser("rotate", help="puts new credentials in the place of old ones, at one moment")
    rotated.add_argument("old", nargs="+", metavar="OLD", help="a file with the text that is dropped")
    rotated.add_argument("--to", nargs="+", required=True, metavar="NEW", help="a file with a text that is added")
    rotated.set_defaults(run=run_rotate)
    dropped = commands.add_parser("drop", help="drops all live credentials of a text, at one moment")
    dropped.add_argument("--like", nargs="+", required=True, metavar="FILE", help="a file with the text")
    dropped.set_defaults(run=run_drop)
    for command in (listed, rotated, dropped):
        command.add_argument("--connect", required=True, metavar="HOST:PORT", help="the daemon")
        command.add_argument("--keys", required=True, help="the key file, whose line `secret` is shown")
