"""The command `restore`: gives a daemon that has started anew what a file of its log holds."""

from __future__ import annotations

import argparse
import sys
from collections import Counter
from typing import List, Sequence, Tuple

from .connection import Connection
from .errors import KeynotedError, NoMemory, Refusal
from .explaining import words_of_refusal
from .keeping import PATIENCE
from .logfile import LogText, refuse_difference
from .rotating import administrator
from .texts import read_file
from .updates import Batch, Credential, credentials_of
from .wire import Added, Change, Dropped, Update

WAIT = 10.0  # seconds for a daemon that has been started


def missing(text: LogText, there: Sequence[Update], name: str) -> List[Update]:
    """The updates of the file behind those of the daemon; ValueError where they don't go on from these."""
    before = text.start or 0
    if len(there) < before:
        raise ValueError(f"{name} begins behind {before} updates, and the daemon has {len(there)}")
    refuse_difference(text.updates, there[before:], before, name)
    found = text.updates[len(there) - before:]
    if any(update.caller == 0 for update in found):
        raise ValueError(f"{name} has more assertions of the policy file than the daemon has: that file was changed")
    return found


def make(daemon: Connection, update: Update) -> Tuple[Tuple[str, ...], int]:
    """Makes an update: the ids of its additions, and the version."""
    if len(update.changes) > 1:
        with daemon.batch() as batch:
            for change in update.changes:
                put(batch, change)
        return batch.ids, batch.version or 0
    change = update.changes[0]
    if isinstance(change, Dropped):
        return (), daemon.drop(change.id)
    name, version = daemon.add(change.text)
    return (name,), version


def put(batch: Batch, change: Change) -> None:
    if isinstance(change, Dropped):
        batch.drop(change.id)
    else:
        batch.add(change.text)


def additions(updates: Sequence[Update]) -> int:
    return sum(isinstance(change, Added) for update in updates for change in update.changes)


def restore(daemon: Connection, text: LogText, name: str) -> Tuple[int, int]:
    """Makes the updates that the daemon lacks, in their order: how many, and the version. The first refusal ends it."""
    there = daemon.log()
    due, made, version = missing(text, there, name), additions(there), len(there)
    for update in due:
        ids = tuple(f"a{made + number}" for number in range(1, additions([update]) + 1))
        try:
            found = make(daemon, update)
        except (Refusal, NoMemory) as why:
            raise KeynotedError(f"update {version + 1} of {name}: {told(why)}: stopped at version {version}") from None
        made, version = made + len(ids), version + 1
        if found != (ids, version):
            raise KeynotedError(f"update {version} of {name} is version {found[1]}: somebody else makes updates too")
    return len(due), version


def told(why: KeynotedError) -> str:
    return f"{why.line}: {words_of_refusal(why)}" if isinstance(why, Refusal) else str(why)


def restore_live(daemon: Connection, text: LogText, name: str) -> int:
    """Adds what is live by the file and isn't the policy's, each with an id of its own: how many were refused."""
    if text.start:
        raise ValueError(f"{name} begins behind {text.start} updates, and what is live is told by all")
    there = Counter(it.text for it in daemon.credentials() if it.live and it.caller)
    refused = 0
    for credential in credentials_of(text.updates):
        if not credential.live or not credential.caller:
            continue
        if there[credential.text]:
            there[credential.text] -= 1
            continue
        refused += not add_again(daemon, credential)
    return refused


def add_again(daemon: Connection, credential: Credential) -> bool:
    try:
        print(f"{credential.id} is {daemon.add(credential.text)[0]}")
    except Refusal as why:
        print(f"{credential.id}: {told(why)}", file=sys.stderr)
        return False
    return True


def run_restore(args: argparse.Namespace) -> int:
    text = LogText(read_file(args.file), args.file)
    with administrator(args, WAIT, PATIENCE) as daemon:
        if args.live:
            refused = restore_live(daemon, text, args.file)
            if refused:
                raise KeynotedError(f"credentials of {args.file} that were refused: {refused}")
            return 0
        made, version = restore(daemon, text, args.file)
    print(f"updates that were restored: {made}\nversion {version}")
    return 0


def add_restore(commands: argparse._SubParsersAction[argparse.ArgumentParser]) -> None:
    restored = commands.add_parser("restore", help="gives a daemon that has started anew what a file of `log` holds")
    restored.add_argument("file", metavar="FILE", help="the file that `log` kept")
    restored.add_argument("--live", action="store_true", help="what is live alone, with new ids, over any policy file")
    restored.add_argument("--connect", required=True, metavar="HOST:PORT", help="the daemon, which is waited for")
    restored.add_argument("--keys", required=True, help="the key file, whose line `secret` is shown")
    restored.set_defaults(run=run_restore)
