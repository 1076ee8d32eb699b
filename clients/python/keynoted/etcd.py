"""A log of updates that etcd holds, by etcd's gateway for JSON: each update is a key, which is written once.

The key PREFIX/policy says which policy file the log is for, and PREFIX/updates/00000007 holds the changes that make
version 7, as they stand in a block of BATCH. A key is written by a transaction that demands that it is the next one.
"""

from __future__ import annotations

import base64
import http.client
import json
from typing import Any, Dict, List, Sequence
from urllib.parse import urlsplit

from .errors import KeynotedError

PREFIX = "/keynoted"  # where nothing is said
PAGE = 64  # updates of a reply: with 16,384 bytes each it is far below what etcd sends
Json = Dict[str, Any]


class NoEtcd(KeynotedError):
    """etcd gave no answer, and nothing was written."""


class Unsure(NoEtcd):
    """etcd was asked to write, and didn't say whether it has."""


class WrongLog(KeynotedError):
    """What etcd holds is no log of updates, or that of another policy file."""


class UpdateLog:
    """The log below a prefix of an etcd with these addresses, of which the first that answers is asked."""

    def __init__(self, addresses: Sequence[str], prefix: str = PREFIX, timeout: float = 5.0) -> None:
        self.addresses, self._timeout = [root_of(it) for it in addresses], timeout
        self._policy, self._updates = f"{prefix}/policy".encode(), f"{prefix}/updates/".encode()

    def bind(self, policy: bytes) -> None:
        """Makes sure that this is the log for this policy; a log that is for none yet is for this one from now on."""
        absent = {"target": "CREATE", "result": "EQUAL", "key": coded(self._policy), "create_revision": "0"}
        read = {"request_range": {"key": coded(self._policy)}}
        put = self._put(self._policy, policy)
        reply = self._ask("txn", {"compare": [absent], "success": [put], "failure": [read]})
        if reply.get("succeeded"):
            return
        found = decoded(reply["responses"][0]["response_range"]["kvs"][0]["value"])
        if found != policy:
            raise WrongLog("the log in etcd is for another policy file: "
                           f"there it is {shown(found)}, here {shown(policy)}")

    def blocks(self, held: int) -> List[bytes]:
        """The updates behind version `held`, in order; no more than a page of them."""
        end = self._updates[:-1] + b"0"  # the sign behind /
        wanted = {"key": coded(self._key(held + 1)), "range_end": coded(end), "limit": str(PAGE)}
        found = self._ask("range", wanted).get("kvs", [])
        for number, pair in enumerate(found, held + 1):
            if decoded(pair["key"]) != self._key(number):
                raise WrongLog(f"etcd has the key {shown(decoded(pair['key']))} where update {number} is due")
            if pair["version"] != "1":
                raise WrongLog(f"update {number} was written {pair['version']} times in etcd")
        return [decoded(pair.get("value", "")) for pair in found]

    def put(self, number: int, block: bytes, first: bool, policy: bytes) -> bool:
        """Writes an update where it is the next one, and answers whether it was; the first one has none before it."""
        key, before = coded(self._key(number)), coded(self._key(number - 1))
        compare: List[Json] = [
            {"target": "VALUE", "result": "EQUAL", "key": coded(self._policy), "value": coded(policy)},
            {"target": "CREATE", "result": "EQUAL", "key": key, "create_revision": "0"},
        ]
        if not first:
            compare.append({"target": "CREATE", "result": "GREATER", "key": before, "create_revision": "0"})
        made = self._ask("txn", {"compare": compare, "success": [self._put(self._key(number), block)]}, writes=True)
        return bool(made.get("succeeded"))

    def _key(self, number: int) -> bytes:
        return self._updates + b"%08d" % number

    def _put(self, key: bytes, value: bytes) -> Json:
        return {"request_put": {"key": coded(key), "value": coded(value)}}

    def _ask(self, word: str, wanted: Json, writes: bool = False) -> Json:
        """The first answer of an etcd; a write of which one may have heard goes to no other."""
        told = []
        for address in self.addresses:
            link = self._dial(address)
            try:
                link.connect()
            except OSError as why:
                told.append(f"{address}: {why}")
                continue
            try:
                return answer_over(link, f"/v3/kv/{word}", wanted)
            except (OSError, http.client.HTTPException, ValueError) as why:
                told.append(f"{address}: {why or type(why).__name__}")
                if writes:
                    raise Unsure("; ".join(told)) from why
            finally:
                link.close()
        raise NoEtcd("; ".join(told))

    def _dial(self, address: str) -> http.client.HTTPConnection:
        parts = urlsplit(address)
        host, port = parts.hostname or "", parts.port or 2379
        if parts.scheme == "https":
            return http.client.HTTPSConnection(host, port, timeout=self._timeout)
        return http.client.HTTPConnection(host, port, timeout=self._timeout)


def answer_over(link: http.client.HTTPConnection, path: str, wanted: Json) -> Json:
    link.request("POST", path, json.dumps(wanted), {"Content-Type": "application/json"})
    reply = link.getresponse()
    body = reply.read()
    if reply.status != 200:
        raise ValueError(f"status {reply.status}, {body[:200].decode('utf-8', 'replace').strip()}")
    answer = json.loads(body)
    if not isinstance(answer, dict) or "header" not in answer:
        raise ValueError("no answer of etcd's")
    return answer


def root_of(address: str) -> str:
    """An address of etcd's, as http://127.0.0.1:2379."""
    parts = urlsplit(address)
    if parts.scheme not in ("http", "https") or not parts.hostname or parts.path not in ("", "/"):
        raise ValueError(f"an address of etcd is http://HOST:PORT: {address!r}")
    return address.rstrip("/")


def coded(text: bytes) -> str:
    return base64.b64encode(text).decode()


def decoded(text: str) -> bytes:
    return base64.b64decode(text)


def shown(text: bytes) -> str:
    return text.decode("utf-8", "replace")
