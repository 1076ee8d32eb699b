"""The commands for several daemons with one log of updates: `agent` applies it to a daemon, `submit` adds to it."""

from __future__ import annotations

import argparse
import hashlib
import socket
import sys
import time
from typing import List, NamedTuple, Optional, Sequence, TextIO

from .connection import Connection, connect, start
from .errors import KeynotedError, LinkEnded, NoItem, NoMemory, Refusal
from .etcd import PREFIX, NoEtcd, Unsure, UpdateLog
from .explaining import words_of_refusal
from .link import address_of
from .rotating import live_like, named, shown_to
from .texts import read_file
from .updates import block_of
from .wire import BATCHED, Request, Update

PAUSE = 0.1  # seconds between two looks at the log, and at the daemon
PATIENCE = 1.0  # seconds for an answer of etcd's, during which an agent doesn't look at its daemon
LEFT = 1000  # requests of a connection, more than a page of the log takes
PAUSE_OF_WRITERS, PATIENCE_OF_WRITERS = 0.5, 5.0


class Differs(KeynotedError):
    """The daemon doesn't hold what the log says, or refuses it: the agent ends, and the daemon stays as it is."""


class Policy(NamedTuple):
    """What all nodes have to have in common: the updates that a daemon's policy file makes."""

    length: int
    digest: str

    def text(self) -> bytes:
        return f"{self.length} assertions with the digest {self.digest}".encode()


def policy_of(updates: Sequence[Update]) -> Policy:
    """That of a daemon which serves, by its log: caller 0 is the policy file alone."""
    length = next((at for at, it in enumerate(updates) if it.caller), len(updates))
    return Policy(length, hashlib.sha256(b"".join(map(block_of, updates[:length]))).hexdigest())


class Agent:
    """Applies the updates of a log, in their order, to a daemon that has no other administrator."""

    def __init__(self, log: UpdateLog, address: str, keys: str, ready: Optional[str]) -> None:
        self._log, self._address, self._keys = log, address, keys
        self._door = Door(ready) if ready else None
        self._told = ""
        self._held = 0  # the daemon's version
        self._last: Optional[bytes] = None  # the update that made it, unless that is of the policy file

    def run(self) -> None:
        """Goes on until the daemon differs from the log. While the daemon or etcd isn't there it waits."""
        while True:
            try:
                with shown_to(connect(self._address), self._keys) as daemon:
                    self._follow(daemon)
            except (LinkEnded, NoMemory) as why:
                self._say(f"no daemon at {self._address}, waiting for it: {why}", sys.stderr)
                if self._door:
                    self._door.close()
                time.sleep(PAUSE)

    def _follow(self, daemon: Connection) -> None:
        """Goes on until the requests of the connection are nearly used up."""
        updates, compared = daemon.log(), False
        policy, self._held = policy_of(updates), len(updates)
        self._last = block_of(updates[-1]) if self._held > policy.length else None
        while daemon.left() > LEFT:
            try:
                if not compared:
                    self._compare(updates, policy)
                    compared = True
                blocks = self._news()
            except NoEtcd as why:
                self._say(f"no etcd, so updates wait and version {self._held} stays: {why}", sys.stderr)
                blocks = []
            else:
                self._apply_all(daemon, blocks)
            if not blocks:
                self._look(daemon)
                time.sleep(PAUSE)

    def _compare(self, updates: Sequence[Update], policy: Policy) -> None:
        """Makes sure that the log begins with the updates that the daemon has beyond its policy file."""
        self._log.bind(policy.text())
        at = policy.length
        while at < len(updates):
            blocks = self._log.blocks(at)
            if not blocks:
                raise Differs(f"the daemon at {self._address} has update {at + 1}, which the log in etcd hasn't")
            for block, update in zip(blocks, updates[at:]):
                at += 1
                if block != block_of(update):
                    raise Differs(f"update {at} of the daemon at {self._address} isn't that of the log in etcd")

    def _news(self) -> List[bytes]:
        """The updates of the log that the daemon hasn't, where the log still has the last one that it has."""
        if self._last is None:
            return self._log.blocks(self._held)
        blocks = self._log.blocks(self._held - 1)
        if blocks[:1] != [self._last]:
            raise Differs(f"the log in etcd has lost update {self._held}, which the daemon at {self._address} has")
        return blocks[1:]

    def _apply_all(self, daemon: Connection, blocks: List[bytes]) -> None:
        """Applies these updates. Where there are none all of them have been applied."""
        for block in blocks:
            self._apply(daemon, self._held + 1, block)
            self._held, self._last = self._held + 1, block
        if not blocks:
            self._say(f"version {self._held}", sys.stdout)
            if self._door:
                self._door.open()

    def _apply(self, daemon: Connection, number: int, block: bytes) -> None:
        request = Request(b"BATCH %d" % len(block), block, BATCHED)
        try:
            version = int(daemon.parts(request)[3])
        except Refusal as refused:
            reason = refused.reason if isinstance(refused, NoItem) else refused
            what = f"{refused.line}: {words_of_refusal(reason)}"
            raise Differs(f"the daemon at {self._address} refuses update {number} of the log in etcd, and stays at "
                          f"version {number - 1}: {what}") from None
        if version != number:
            raise self._changed(version)

    def _look(self, daemon: Connection) -> None:
        """Sees that the daemon is there, and that nobody else has changed it."""
        more = daemon.log(self._held)
        if more:
            raise self._changed(self._held + len(more))
        if self._door:
            self._door.greet()

    def _changed(self, version: int) -> Differs:
        return Differs(f"another administrator has changed the daemon at {self._address}: its version is {version}")

    def _say(self, what: str, file: TextIO) -> None:
        """Says what hasn't just been said."""
        if what != self._told:
            self._told = what
            print(what, file=file, flush=True)


class Door:
    """An address at which a connection is taken while the daemon has all updates that the agent knows."""

    def __init__(self, address: str) -> None:
        self._address = address_of(address)
        self._listener: Optional[socket.socket] = None

    def open(self) -> None:
        if not self._listener:
            family = socket.AF_INET6 if ":" in self._address[0] else socket.AF_INET
            self._listener = socket.create_server(self._address, family=family)
            self._listener.setblocking(False)

    def greet(self) -> None:
        """Takes the connections that wait, and ends them."""
        while self._listener:
            try:
                self._listener.accept()[0].close()
            except BlockingIOError:
                return
            except OSError:
                continue  # it has gone meanwhile

    def close(self) -> None:
        if self._listener:
            self._listener.close()
            self._listener = None


def run_agent(args: argparse.Namespace) -> int:
    Agent(log_of_words(args, PATIENCE), args.connect, args.keys, args.ready).run()
    return 0


class Judged(NamedTuple):
    """An update that a daemon has taken which holds all updates before it: what is told of it, too."""

    number: int
    block: bytes
    first: bool
    policy: bytes
    told: List[str]


def judge(log: UpdateLog, args: argparse.Namespace) -> Judged:
    """What becomes of the files behind all updates of the log, by a daemon that is started for this alone."""
    with shown_to(start(args.policy, args.keys, loading=None), args.keys) as daemon:
        policy = policy_of(daemon.log())
        log.bind(policy.text())
        held = policy.length
        while True:
            blocks = log.blocks(held)
            if not blocks:
                break
            for block in blocks:
                held += 1
                replay(daemon, held, block)
        return changed(daemon, args, held, policy)


def replay(daemon: Connection, number: int, block: bytes) -> None:
    try:
        daemon.parts(Request(b"BATCH %d" % len(block), block, BATCHED))
    except Refusal as refused:
        raise Differs(f"update {number} of the log is refused here, as by another key file: {refused.line}") from None


def changed(daemon: Connection, args: argparse.Namespace, held: int, policy: Policy) -> Judged:
    """The update of the files where the daemon takes it; its refusal in words otherwise."""
    gone = dict(live_like(daemon.credentials(), args.drop))
    try:
        with daemon.batch() as batch:
            for name in gone:
                batch.drop(name)
            for file in args.add:
                batch.add(read_file(file))
    except NoItem as refused:
        raise named(refused, [*gone.values(), *args.add]) from None
    told = [f"dropped {name}, {file}" for name, file in gone.items()]
    told += [f"added {name}, {file}" for name, file in zip(batch.ids, args.add)]
    return Judged(held + 1, batch.block, held == policy.length, policy.text(), told)


def write(log: UpdateLog, update: Judged, end: float) -> bool:
    """Whether the log has this update under its number; where etcd doesn't say so, it is asked until the end."""
    unsure = False
    while True:
        try:
            if log.put(update.number, update.block, update.first, update.policy):
                return True
            return unsure and log.blocks(update.number - 1)[:1] == [update.block]
        except NoEtcd as why:
            unsure = unsure or isinstance(why, Unsure)
            if time.monotonic() > end:
                raise Unsure(f"whether update {update.number} was written isn't known: {why}") if unsure else why
        time.sleep(PAUSE)


def run_submit(args: argparse.Namespace) -> int:
    if not (args.add or args.drop):
        raise ValueError("a file to add, or --drop FILE, is wanted")
    log, end = log_of_words(args, PATIENCE_OF_WRITERS), time.monotonic() + args.wait
    while True:
        try:
            update = judge(log, args)
            if write(log, update, end):
                break
        except Unsure:
            raise
        except NoEtcd as why:
            if time.monotonic() > end:
                raise NoEtcd(f"no etcd, and nothing was written: {why}") from None
            time.sleep(PAUSE_OF_WRITERS)
    for line in update.told:
        print(line)
    print(f"version {update.number}")
    return 0


def log_of_words(args: argparse.Namespace, patience: float) -> UpdateLog:
    return UpdateLog(args.etcd.split(","), args.prefix, patience)


def add_agent(commands: argparse._SubParsersAction[argparse.ArgumentParser]) -> None:
    agent = commands.add_parser("agent", help="applies the log of updates in etcd to a daemon that serves")
    agent.add_argument("--connect", required=True, metavar="HOST:PORT", help="the daemon")
    agent.add_argument("--ready", metavar="HOST:PORT", help="takes connections there while the daemon has all updates")
    agent.set_defaults(run=run_agent)
    submit = commands.add_parser("submit", help="writes the next update into the log in etcd")
    submit.add_argument("add", nargs="*", metavar="NEW", help="a file with a text that is added")
    submit.add_argument("--drop", nargs="+", default=[], metavar="OLD", help="a file whose text is dropped")
    submit.add_argument("--policy", required=True, help="the policy file, which all nodes have")
    submit.add_argument("--wait", type=float, default=10.0, metavar="SECONDS", help="how long etcd is waited for (10)")
    submit.set_defaults(run=run_submit)
    for command in (agent, submit):
        command.add_argument("--etcd", required=True, metavar="URL,..", help="etcd, as http://127.0.0.1:2379")
        command.add_argument("--prefix", default=PREFIX, help=f"of the log's keys ({PREFIX})")
        command.add_argument("--keys", required=True, help="the key file, whose line `secret` is shown")
