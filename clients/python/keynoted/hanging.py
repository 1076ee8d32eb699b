"""What an answer hangs on: the credentials without which POLICY, or a principal of its proof, would have less.

Nothing is decided here: each fact is the program's answer to CRITICAL. For a principal of a proof it is asked over a
copy of the policy, in which a stand-in has the place of POLICY, and POLICY trusts a witness alone, whose private
assertion names the principal. So POLICY has there what the principal has.
"""

from __future__ import annotations

import argparse
import os
import tempfile
from typing import Callable, Dict, Iterator, List, Mapping, NamedTuple, Sequence, Tuple

from .answers import Answer, Critical, Row
from .arguments import Text
from .connection import Connection, start
from .errors import KeynotedError
from .parts import Part, normal, parts_of
from .why import assertion, quoted


Asked = Tuple[Sequence[str], Mapping[Text, Text], Sequence[str]]  # requesters, attributes and values of a question


class Held(NamedTuple):
    """A principal of a proof, the index of the value that it has, and the ids that this hangs on."""

    principal: bytes
    level: int
    ids: Tuple[str, ...]


def hanging(policy: str, asked: Asked) -> Tuple[Answer, List[Held]]:
    """The answer to a question, and for each row of its proof what the row's principal hangs on."""
    with start(policy, loading=None) as daemon:
        answer = daemon.ask(*asked)
    parts = parts_of(policy)
    stand_in, witness = fresh_names(parts, [it.encode("utf-8", "surrogateescape") for it in asked[0]])
    texts = [renamed(it, stand_in) for it in parts] + [assertion(b"POLICY", licensees(witness))]
    added = f"a{len(texts)}"
    with tempfile.TemporaryDirectory() as room:
        name = os.path.join(room, "policy.kn")
        with open(name, "wb") as file:
            file.write(b"\n".join(texts))
        with start(name, loading=None) as daemon:
            found = [held(daemon, row, stand_in, witness, asked) for row in answer.rows]
    return answer, [it._replace(ids=tuple(id for id in it.ids if id.startswith("a") and id != added)) for it in found]


def held(daemon: Connection, row: Row, stand_in: bytes, witness: bytes, asked: Asked) -> Held:
    """What a row's principal has over the copy of the policy, and all ids that this hangs on."""
    principal = stand_in if row.principal == b"POLICY" else row.principal
    value, ids = daemon.critical(*asked, private=[assertion(witness, licensees(principal))])
    if value.index != row.level:
        raise KeynotedError(f"{row.principal!r} has another value in the copy of the policy")
    return Held(row.principal, row.level, ids)


def licensees(principal: bytes) -> bytes:
    return b"Licensees: " + quoted(principal) + b"\n"


def fresh_names(parts: Sequence[Part], requesters: Sequence[bytes]) -> Tuple[bytes, bytes]:
    """Two short names that no principal of the policy and no requester has."""
    known = {who for part in parts for number in (1, 5) for _, who in part.principals(number)}
    known |= {normal(it) for it in requesters}
    free = (it for it in (b"w%d" % number for number in range(len(known) + 2)) if it not in known)
    return next(free), next(free)


def renamed(part: Part, stand_in: bytes) -> bytes:
    """The text of an assertion in which the stand-in has the place of POLICY."""
    tokens = [it for field in part.fields if field.number in (1, 5) for it in field.tokens]
    named = {at for number in (1, 5) for at, who in part.principals(number) if who == b"POLICY"}
    text, at = b"", 0
    for token in (it for it in sorted(tokens, key=lambda it: it.start) if it.start in named):
        text += part.text[at:token.start] + quoted(stand_in)
        at = token.end
    text += part.text[at:]
    return text if text.endswith(b"\n") else text + b"\n"


def told(ids: Sequence[str]) -> str:
    return ", ".join(ids) if ids else "no credential alone"


def tell_critical(answer: Critical, places: Mapping[str, str]) -> Iterator[str]:
    name = answer.value.name
    for it in answer.ids:
        yield f"{name} hangs on {it}" + (f", {places[it]}" if it in places else "")
    if not answer.ids and answer.value.index:
        yield f"{name} hangs on no credential alone"


def places_of(policy: str) -> Dict[str, str]:
    """Where the assertions of a policy file stand, by their ids."""
    return {f"a{at}": part.place(0) for at, part in enumerate(parts_of(policy), 1)}


def attributes_in(args: argparse.Namespace) -> Dict[Text, Text]:
    return dict(pair.partition("=")[::2] for pair in args.set)


def run_who(args: argparse.Namespace) -> int:
    """Asks once, and tells of each principal of the proof what it has and what that hangs on."""
    values = args.values.split(",")
    answer, found = hanging(args.policy, (args.auth, attributes_in(args), values))
    for name in args.auth:
        print(f"{name} asks, and has {values[-1]}")
    for principal, level, ids in found:
        print(f"{principal.decode('utf-8', 'replace')} has {values[level]}, which hangs on {told(ids)}")
    print(f"answer: {answer.name}, which is {answer.index} of {args.values}")
    return 0


def add_hanging(commands: argparse._SubParsersAction[argparse.ArgumentParser],
                connected: Callable[[argparse.Namespace], Connection]) -> None:
    def run_critical(args: argparse.Namespace) -> int:
        with connected(args) as daemon:
            answer = daemon.critical(args.auth, attributes_in(args), args.values.split(","))
        print(f"answer: {answer.value.name}, which is {answer.value.index} of {args.values}")
        for line in tell_critical(answer, places_of(args.policy) if args.policy else {}):
            print(line)
        return 0

    critical = commands.add_parser("critical", help="tells the credentials without which the answer would be lower")
    critical.add_argument("policy", nargs="?", help="the policy file, unless --connect is given")
    critical.add_argument("--connect", metavar="HOST:PORT", help="a daemon that serves")
    critical.add_argument("--keys", help="the key file")
    critical.set_defaults(run=run_critical, record=None)
    who = commands.add_parser("who", help="tells the same of each principal of the proof")
    who.add_argument("policy", help="the policy file")
    who.set_defaults(run=run_who)
    for command in (critical, who):
        command.add_argument("--auth", action="append", default=[], metavar="PRINCIPAL", help="who asks")
        command.add_argument("--set", action="append", default=[], metavar="NAME=VALUE", help="an attribute")
        command.add_argument("--values", required=True, help="the values, the lowest first, with commas between")
