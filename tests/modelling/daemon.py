"""A plain daemon for one connection: each reply is found anew, by the list of all updates so far.

Nothing is kept beside that list and the sessions, so there is little that could be wrong in the way of a faster one.
"""

import functools
import hashlib
import hmac
import re

from modelling import reading, wire

SECRET = b"s3cret"
ALGORITHM = b"sig-hmac-sha256-hex:"
NAME = re.compile(rb"[A-Za-z][A-Za-z0-9_]{0,127}")
VALUE_NAME = re.compile(rb"[!-+\--~]{1,128}")
SESSIONS, ATTRIBUTES, REQUESTERS, PRIVATE, PRIVATE_BYTES = 16, 256, 64, 64, 262144
LIVE, LIVE_BYTES, CHANGES, LOG_BYTES = 4096, 8388608, 65536, 67108864
TEXT_BYTES, LOGGED, CRITICAL_NODES = 4096, 16, 16384


class Refusal(Exception):
    """The reply behind `NO `."""

    @property
    def text(self):
        return self.args[0]


@functools.lru_cache(None)
def read(text):
    return reading.read(text)


class Keys:
    """What a key file says."""

    def __init__(self, digests=(), codes=()):
        self.digests, self.codes = set(digests), dict(codes)

    def spell(self):
        lines = [b"mac %s %s" % (key.hex().encode(), principal) for principal, key in self.codes.items()]
        lines += [b"digest " + digest.encode() for digest in sorted(self.digests)]
        return b"".join(line + b"\n" for line in [*lines, b"secret " + SECRET.hex().encode()])

    def sign(self, text, authorizer):
        """The text with a right signature, and with one in upper case."""
        code = hmac.new(self.codes[authorizer], text + ALGORITHM, hashlib.sha256).hexdigest()
        return [text + b'Signature: "%s%s"\n' % (ALGORITHM, digits.encode()) for digits in (code, code.upper())]

    def fault(self, text):
        """Why the text isn't admitted, or None."""
        assertion = read(text)
        if hashlib.sha256(text).hexdigest() in self.digests:
            return None
        if assertion.signature is None:
            return 1
        if not assertion.signature.startswith(ALGORITHM):
            return 2
        if assertion.authorizer not in self.codes:
            return 3
        code = hmac.new(self.codes[assertion.authorizer], assertion.signed + ALGORITHM, hashlib.sha256).hexdigest()
        return None if assertion.signature[len(ALGORITHM):].lower() == code.encode() else 4


class Store:
    """What a list of changes comes to, from the first one to the last."""

    def __init__(self, changes=()):
        self.live, self.additions, self.live_bytes, self.log_bytes, self.changes = {}, 0, 0, 0, 0
        for change in changes:
            self.make(change)

    def make(self, change):
        self.changes += 1
        if not isinstance(change, bytes):
            self.live_bytes -= len(self.live.pop(change))
            return
        self.additions += 1
        self.live[self.additions] = change
        self.live_bytes += len(change)
        self.log_bytes += len(change)

    def fault(self, change):
        """The refusal of a further change, without its `NO `, or None."""
        if not isinstance(change, bytes) and change not in self.live:
            return b"12 unknown"
        added = len(change) if isinstance(change, bytes) else None
        limits = [
            (added is not None and len(self.live) >= LIVE, b"live", len(self.live)),
            (self.live_bytes + (added or 0) > LIVE_BYTES, b"live-bytes", self.live_bytes),
            (self.changes >= CHANGES, b"updates", self.changes),
            (self.log_bytes + (added or 0) > LOG_BYTES, b"log-bytes", self.log_bytes),
        ]
        return next((b"13 limit %s %d" % (word, count) for met, word, count in limits if met), None)


class Session:
    def __init__(self, version):
        self.version, self.asserted = version, 0
        self.private, self.attributes, self.requesters = {}, {}, []
        # the standing query, a `Standing`
        self.standing = None


class Standing:
    """What a session asked when it said WATCH."""

    def __init__(self, session, values):
        self.version, self.values = session.version, values
        self.private, self.attributes = dict(session.private), dict(session.attributes)
        self.requesters = list(session.requesters)


class Value:
    """The replies that are right for a query: one level, and any rows that prove it."""

    def __init__(self, equations, values, version):
        self.equations, self.values, self.version = equations, values, version
        self.index = equations.least().get(b"POLICY", 0)

    def __str__(self):
        return f"VALUE {self.index} {self.values[self.index].decode()} {self.version} and rows that prove it"

    def fault(self, text):
        """Why this text isn't such a reply, or None."""
        lines = text.split(b"\n")
        head, rows = wire.VALUE.fullmatch(lines[0]), [wire.ROW.fullmatch(line) for line in lines[1:-2]]
        if not head or None in rows or lines[-2:] != [b"END", b""]:
            return "it hasn't the form"
        due = [b"%d" % self.index, self.values[self.index], b"%d" % self.version, b"%d" % len(rows)]
        if list(head.groups()) != due:
            return f"its first line has to name {b' '.join(due)!r}"
        if any(wire.spell_principal(reading.text_value(row[3])) != row[3] for row in rows):
            return "a principal is spelled otherwise"
        named = [(int(row[1]), row[2], reading.text_value(row[3])) for row in rows]
        return self.equations.why_no_proof(named, self.index)


class Daemon:
    """One connection over a policy, which is a list of texts, and a key file."""

    def __init__(self, policy, keys):
        for text in policy:
            read(text)
        self.updates = [[text] for text in policy]
        self.keys, self.opened, self.sessions, self.is_admin = keys, 0, {}, False

    def newest(self):
        return len(self.updates)

    def store(self, version=None):
        """The store after so many updates, all where none is said."""
        updates = self.updates if version is None else self.updates[:version]
        return Store(change for changes in updates for change in changes)

    def reply(self, request):
        """Bytes, or the `Value` of a query."""
        if request.kind in wire.FAULTS:
            return wire.FAULTS[request.kind]
        try:
            return getattr(self, "answer_" + request.kind)(*request.parts)
        except Refusal as why:
            return b"NO " + why.text + b"\n"

    def session(self, s):
        if int(s) not in self.sessions:
            raise Refusal(b"3 session")
        return self.sessions[int(s)]

    def need_admin(self):
        if not self.is_admin:
            raise Refusal(b"4 admin")

    def refuse_at(self, count, limit, word):
        if count >= limit:
            raise Refusal(b"13 limit %s %d" % (word, count))

    def answer_open(self):
        self.refuse_at(len(self.sessions), SESSIONS, b"sessions")
        self.opened += 1
        self.sessions[self.opened] = Session(self.newest())
        return b"OK %d %d\n" % (self.opened, self.newest())

    def answer_close(self, s):
        self.session(s)
        del self.sessions[int(s)]
        return b"OK\n"

    def answer_pin(self, s):
        self.session(s).version = self.newest()
        return b"OK %d\n" % self.newest()

    def is_kept(self, version):
        return max(0, self.newest() - 15) <= version <= self.newest()

    def answer_pin_at(self, s, version):
        session = self.session(s)
        if not self.is_kept(int(version)):
            raise Refusal(b"18 retained %d" % self.newest())
        session.version = int(version)
        return b"OK %d %d\n" % (session.version, self.newest())

    def read(self, text):
        try:
            return read(text)
        except reading.ReadFault as why:
            raise Refusal(b"5 read %d %d" % why.args) from None

    def answer_assert(self, s, text):
        session = self.session(s)
        if self.read(text).authorizer == b"POLICY":
            raise Refusal(b"6 policy")
        self.refuse_at(len(session.private), PRIVATE, b"private")
        held = sum(map(len, session.private.values()))
        if held + len(text) > PRIVATE_BYTES:
            raise Refusal(b"13 limit private-bytes %d" % held)
        session.asserted += 1
        session.private[session.asserted] = text
        return b"OK p%d\n" % session.asserted

    def take_away(self, held, name):
        if name not in held:
            raise Refusal(b"12 unknown")
        if isinstance(held, list):
            held.remove(name)
        else:
            del held[name]
        return b"OK\n"

    def answer_retract(self, s, k):
        return self.take_away(self.session(s).private, int(k))

    def answer_set(self, s, name, value):
        attributes = self.session(s).attributes
        if not NAME.fullmatch(name):
            raise Refusal(b"8 name")
        if len(value) > TEXT_BYTES:
            raise Refusal(b"9 value")
        if name not in attributes:
            self.refuse_at(len(attributes), ATTRIBUTES, b"attributes")
        attributes[name] = value
        return b"OK\n"

    def answer_setx(self, s, name, digits):
        return self.answer_set(s, name, bytes.fromhex(digits.decode()))

    def answer_unset(self, s, name):
        return self.take_away(self.session(s).attributes, name)

    def answer_auth(self, s, principal):
        requesters, named = self.session(s).requesters, reading.normal_form(principal)
        if not 1 <= len(principal) <= TEXT_BYTES or named == b"POLICY":
            raise Refusal(b"11 principal")
        if named not in requesters:
            self.refuse_at(len(requesters), REQUESTERS, b"requesters")
            requesters.append(named)
        return b"OK\n"

    def answer_unauth(self, s, principal):
        return self.take_away(self.session(s).requesters, reading.normal_form(principal))

    def answer_clear(self, s):
        session = self.session(s)
        session.attributes, session.requesters = {}, []
        return b"OK\n"

    def queried_version(self, session):
        return session.version

    def values(self, names):
        values = names.split(b",")
        formed = all(VALUE_NAME.fullmatch(value) for value in values)
        if not formed or not 2 <= len(set(values)) == len(values) <= 64:
            raise Refusal(b"10 values")
        return values

    def equations(self, asker, values, version):
        """What a session or a standing query asks at this version."""
        live = self.store(version).live
        assertions = [(b"a%d" % number, read(text)) for number, text in live.items()]
        assertions += [(b"p%d" % number, read(text)) for number, text in asker.private.items()]
        query = reading.Query(values, dict(asker.attributes), list(asker.requesters))
        return reading.Equations(assertions, query)

    def answer_query(self, s, names):
        session = self.session(s)
        values = self.values(names)
        return Value(self.equations(session, values, self.queried_version(session)), values, session.version)

    def news(self, standing):
        index = self.equations(standing, standing.values, standing.version).least().get(b"POLICY", 0)
        return b"NEWS %d %s %d\n" % (index, standing.values[index], standing.version)

    def answer_watch(self, s, names):
        session = self.session(s)
        session.standing = Standing(session, self.values(names))
        return self.news(session.standing)

    def standing(self, s):
        session = self.session(s)
        if session.standing is None:
            raise Refusal(b"12 unknown")
        return session.standing

    def answer_news(self, s):
        standing = self.standing(s)
        standing.version = self.newest()
        return self.news(standing)

    def answer_unwatch(self, s):
        self.standing(s)
        self.session(s).standing = None
        return b"OK\n"

    def refuse_nodes(self, nodes):
        if nodes > CRITICAL_NODES:
            raise Refusal(b"13 limit nodes %d" % nodes)

    def critical_ids(self, equations):
        return equations.critical()

    def answer_critical(self, s, names):
        session = self.session(s)
        values = self.values(names)
        equations = self.equations(session, values, self.queried_version(session))
        self.refuse_nodes(equations.nodes())
        index, ids = equations.least().get(b"POLICY", 0), self.critical_ids(equations)
        return b"CRITICAL %d %d\n%sEND\n" % (index, len(ids), b"".join(b"NEED %s\n" % name for name in ids))

    def answer_admin(self, digits):
        if bytes.fromhex(digits.decode()) != SECRET:
            raise Refusal(b"4 admin")
        self.is_admin = True
        return b"OK\n"

    def refuse_unadmitted(self, text):
        self.read(text)
        fault = self.keys.fault(text)
        if fault:
            raise Refusal(b"7 auth %d" % fault)

    def update(self, changes):
        """Makes the changes, and gives the number of additions before and behind them."""
        store = self.store()
        before = store.additions
        for at, change in enumerate(changes, 1):
            fault = store.fault(change)
            if fault:
                raise Refusal(b"17 item %d %s" % (at, fault))
            store.make(change)
        self.updates.append(list(changes))
        return before, store.additions

    def update_alone(self, change):
        try:
            return self.update([change])
        except Refusal as why:
            raise Refusal(why.text.split(b" ", 3)[3]) from None

    def answer_add(self, text):
        self.need_admin()
        self.refuse_unadmitted(text)
        return b"OK a%d %d\n" % (self.update_alone(text)[1], self.newest())

    def answer_drop(self, k):
        self.need_admin()
        self.update_alone(int(k))
        return b"OK %d\n" % self.newest()

    def admit(self, changes):
        for at, change in enumerate(changes, 1):
            try:
                if isinstance(change, bytes):
                    self.refuse_unadmitted(change)
            except Refusal as why:
                raise Refusal(b"17 item %d %s" % (at, why.text)) from None

    def answer_batch(self, block):
        self.need_admin()
        try:
            changes = wire.split_items(block)
        except wire.BatchFault as why:
            raise Refusal(b"16 batch %d" % why.args) from None
        self.admit(changes)
        before, behind = self.update(changes)
        return b"OK a%d %d %d\n" % (before + 1, behind - before, self.newest())

    def answer_log(self, n):
        self.need_admin()
        if int(n) > self.newest():
            raise Refusal(b"19 ahead %d" % self.newest())
        told = self.updates[int(n):int(n) + LOGGED]
        text = b"LOG %d %d %d\n" % (int(n), len(told), self.newest())
        for changes in told:
            text += b"UPDATE 0 %d\n" % len(changes) + b"".join(map(wire.spell_item, changes))
        return text + b"END\n"

    def answer_bye(self):
        return b"OK\n"


def play(daemon, text):
    """Each request of the input with its reply, and the line that stands behind the replies."""
    said, at = [], 0
    while at < len(text):
        taken = wire.take_request(text, at)
        if not taken:
            return said, b"error link cut %d\n" % (len(text) - at)
        request, end = taken
        said.append((text[at:end], request, daemon.reply(request)))
        at = end
        if request.kind == "block":
            return said, b"error link block %d\n" % request.parts[0]
        if request.kind == "bye":
            break
    return said, b""
