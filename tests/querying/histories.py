"""Random histories: a policy, and the requests of connections that change it and ask, one after another.

The requests are such as a client means: what is dropped, retracted or taken away is there, and versions that are named
are kept. Each is made by one connection, and the next one comes behind its reply.
"""

import collections
import hashlib
import random

from modelling import scripts, texts

ADMIN = b"ADMIN 733363726574\n"
# limits of the protocol, and the most live credentials of a history, which stay below theirs
RETAINED, SESSIONS, PRIVATE, REQUESTERS, BLOCK_BYTES, LIVE = 16, 16, 64, 64, 16384, 600
# no drawn text but a large one has so many bytes
MOST_BYTES = 4000
# of so many histories one is over TCP; the most workers of those, and the most connections of a history
SERVED, WORKERS, PEERS = 10, 3, 12
QUESTIONS = scripts.QUERIES[:-1]
HIGHER = [b"maybe", b"yes", b"v1", b"v2", b"v3"]

# A request, who makes it, and at which version its session stands. `sort` is begin (of a connection), open, close, pin,
# own (what else is said of a session), update, query, other (questions with another reply), or end
Step = collections.namedtuple("Step", "peer session sort text version")

# What a kind of history has: principals, assertions of the policy file, items of a batch, the chances of its requests
Kind = collections.namedtuple("Kind", "name names loaded items chances")
CHANCES = {
    "query": 30, "turns": 2, "between": 2, "add": 6, "drop": 6, "batch": 5, "pin": 6, "pin_at": 8, "open": 3, "close": 1, "assert": 5,
    "retract": 4, "set": 6, "unset": 1, "auth": 8, "unauth": 4, "clear": 0.5, "watch": 2, "news": 4, "critical": 0.5,
}
KINDS = [
    Kind("a few principals", (3, 8), (0, 10), (1, 4), {}),
    Kind("a few principals", (3, 8), (2, 10), (1, 4), {}),
    Kind("many principals", (30, 100), (40, 200), (1, 40), {"auth": 14}),
    Kind("removals", (8, 20), (30, 80), (5, 50), {"drop": 14, "batch": 9, "add": 3}),
    Kind("private assertions", (5, 12), (2, 12), (1, 4), {"assert": 24, "retract": 14}),
    Kind("older versions", (4, 12), (1, 12), (1, 6), {"pin_at": 24, "turns": 8, "open": 8, "pin": 8}),
]
# of so many histories one has these, which take longer: texts whose licensees pass what a base that is kept may hold,
# and names of requesters that no assertion has
LARGE, STRANGE = 500, 500
LARGE_KIND = Kind("large texts", (5, 8), (328, 340), (1, 1), {"add": 12, "drop": 12, "batch": 0, "critical": 0})
STRANGE_KIND = Kind("strangers", (5, 8), (4, 12), (1, 4), {"strangers": 40, "query": 0, "turns": 0, "between": 0})
LARGE_BYTES, LARGE_QUERIES, STRANGE_QUERIES = 16_000, 10, 75


class Peer:
    """A connection, and its open sessions by their numbers."""

    def __init__(self, number):
        self.number, self.opened, self.sessions = number, 0, {}


class Session:
    def __init__(self, number, version):
        self.number, self.version, self.asserted, self.private = number, version, 0, []
        self.requesters, self.attributes, self.stands = [], [], False


def alone(steps, place, with_updates=True):
    """What the session of the query at this place says up to it, with all updates or without those."""
    asked, said = steps[place], [ADMIN] if with_updates else []
    for step in steps[:place]:
        is_its = step.peer == asked.peer and step.session == asked.session
        is_own = is_its and (step.sort == "own" or (step.sort == "pin" and with_updates))
        is_numbered = step.peer == asked.peer and step.sort in ("open", "close")
        if is_own or is_numbered or (step.sort == "update" and with_updates):
            said.append(step.text)
    return b"".join([*said, asked.text])


def block(form, *parts):
    """A line that ends with the length of its block, and the block."""
    *parts, text = parts
    return form % (*parts, len(text)) + b"\n" + text + b"\n"


class History:
    """The history of a seed, with at least so many queries."""

    def __init__(self, seed, queries, is_served=None):
        self.seed, self.random = seed, random.Random(seed)
        self.kind = self.draw_kind()
        queries = {"large texts": LARGE_QUERIES, "strangers": STRANGE_QUERIES}.get(self.kind.name, queries)
        is_served = seed % SERVED == SERVED - 1 if is_served is None else is_served
        # 0 where standard input is the one connection
        self.workers = self.random.randint(1, WORKERS) if is_served else 0
        self.names = [b"POLICY"] + self.draw_names(self.random.randint(*self.kind.names))
        self.drawn, self.chances = [], {**CHANCES, **self.kind.chances}
        self.policy = [self.draw_text() for _ in range(self.random.randint(*self.kind.loaded))]
        self.live = list(range(1, len(self.policy) + 1))
        self.added = self.newest = len(self.policy)
        # the additions up to the last version that is made by additions one at a time, and whether all are
        self.whole, self.is_whole = list(self.policy), True
        self.steps, self.peers, self.connected, self.asked = [], {}, 0, 0
        self.draw_steps(queries)

    # -- texts

    def draw_kind(self):
        if self.seed % LARGE == LARGE // 2:
            return LARGE_KIND
        return STRANGE_KIND if self.seed % STRANGE == STRANGE // 3 else self.random.choice(KINDS)

    def draw_names(self, count):
        return self.random.sample([*texts.PRINCIPALS, *(b"n%d" % i for i in range(count))], count)

    def draw_licensee(self, at):
        """A principal near the one at this place, most often behind it, so that there are chains; or any one."""
        near = at + self.random.randint(1, 4)
        is_near = near < len(self.names) and self.random.random() < 0.75
        name = self.names[near] if is_near else self.random.choice(self.names)
        return texts.quote(texts.spell_principal(self.random, name))

    def draw_formula(self, at, depth=2):
        sort = self.random.choice(["who"] * 5 + ["any", "any", "all", "of", "of"]) if depth else "who"
        if sort == "who":
            return self.draw_licensee(at)
        parts = [self.draw_formula(at, depth - 1) for _ in range(self.random.randint(2, 4))]
        if sort == "of":
            return b"%d-of(%b)" % (self.random.randint(1, len(parts) - 1), b", ".join(parts))
        return b"(" + (b" && " if sort == "all" else b" || ").join(parts) + b")"

    def draw_conditions(self):
        sort = self.random.choice(["none", "none", "levels", "levels", "any"])
        if sort == "none":
            return b""
        if sort == "any":
            clauses = [texts.draw_clause(self.random) for _ in range(self.random.randint(1, 3))]
        else:
            clauses = [b'@level >= %d -> "%b"' % (self.random.choice([0, 0, 3, 6, 9, 12]), name) for name in HIGHER]
            clauses += [b'true -> "%b"' % self.random.choice(HIGHER) for _ in range(self.random.randint(0, 3))]
        return b"Conditions: " + b";\n  ".join(clauses) + b";\n"

    def draw_text(self, lowest=0):
        """A text by POLICY, or by one of the principals; some are drawn a second time."""
        if self.drawn and self.random.random() < 0.12:
            text = self.random.choice(self.drawn)
            if not (lowest and b"POLICY\n" in text):
                return text
        at = 0 if not lowest and self.random.random() < 0.3 else self.random.randrange(lowest, len(self.names))
        authorizer = b"POLICY" if not at else texts.quote(texts.spell_principal(self.random, self.names[at]))
        is_large = self.kind is LARGE_KIND and not lowest and self.random.random() < 0.97
        licensees = self.draw_large(at) if is_large else self.draw_formula(at)
        text = b"Authorizer: %b\nLicensees: %b\n" % (authorizer, licensees)
        text += b"" if is_large else self.draw_conditions()
        self.drawn.append(text)
        return text

    def draw_large(self, at):
        """Licensees of many nodes, of a name that nobody has who asks or of one that may have a level, and one more."""
        name = b'"!"' if self.random.random() < 0.5 else self.draw_licensee(at)
        return b"||".join([name] * (LARGE_BYTES // len(name + b"||")) + [self.draw_licensee(at)])

    # -- steps

    def draw_steps(self, queries):
        while self.asked < queries:
            peer = self.draw_peer()
            if not peer.sessions:
                self.draw_open(peer)
            (sort,) = self.random.choices(list(self.chances), self.chances.values())
            session = self.random.choice(list(peer.sessions.values()))
            getattr(self, "draw_" + sort)(peer, session)
        for peer in list(self.peers.values()):
            self.end(peer)

    def say(self, peer, session, sort, text):
        self.steps.append(Step(peer.number, session and session.number, sort, text, session and session.version))

    def draw_peer(self):
        """A connection that is open, after one has ended or begun where several may."""
        most = max(1, self.workers)
        if self.workers and self.peers and self.connected < PEERS and self.random.random() < 0.03:
            self.end(self.random.choice(list(self.peers.values())))
        if not self.peers or (len(self.peers) < most and self.random.random() < 0.1):
            self.connected += 1
            self.peers[self.connected] = peer = Peer(self.connected)
            self.say(peer, None, "begin", ADMIN)
        return self.random.choice(list(self.peers.values()))

    def end(self, peer):
        self.say(peer, None, "end", b"BYE\n")
        del self.peers[peer.number]

    def draw_open(self, peer, _=None):
        if len(peer.sessions) < SESSIONS:
            peer.opened += 1
            peer.sessions[peer.opened] = session = Session(peer.opened, self.newest)
            self.say(peer, session, "open", b"OPEN\n")
            for _ in range(self.random.randint(0, 2)):
                self.draw_auth(peer, session)

    def draw_close(self, peer, session):
        if len(peer.sessions) > 1:
            self.say(peer, session, "close", b"CLOSE %d\n" % session.number)
            del peer.sessions[session.number]

    def draw_pin(self, peer, session):
        session.version = self.newest
        self.say(peer, session, "pin", b"PIN %d\n" % session.number)

    def draw_pin_at(self, peer, session):
        session.version = self.random.randint(max(0, self.newest - RETAINED + 1), self.newest)
        self.say(peer, session, "pin", b"PIN %d %d\n" % (session.number, session.version))

    def draw_query(self, peer, session, question=None):
        self.asked += 1
        question = question or self.random.choice(QUESTIONS)
        self.say(peer, session, "query", b"QUERY %d %b\n" % (session.number, question))

    def draw_turns(self, peer, _):
        """The sessions of a connection ask by turns, some of them at versions of their own."""
        taken, question = list(peer.sessions.values())[:6], self.random.choice(QUESTIONS)
        for session in taken:
            if self.random.random() < 0.5:
                self.draw_pin_at(peer, session)
        for session in taken * 2:
            self.draw_query(peer, session, question)

    def draw_between(self, peer, _):
        """Two sessions ask by turns, one of them at a version that it keeps, while updates come between."""
        if len(peer.sessions) < 2:
            self.draw_open(peer)
        (moves, stays), question = self.random.sample(list(peer.sessions.values()), 2), self.random.choice(QUESTIONS)
        self.draw_pin_at(peer, stays)
        for _ in range(self.random.randint(2, 5)):
            getattr(self, "draw_" + self.random.choice(["add", "drop", "drop", "batch"]))(peer, None)
            self.draw_pin(peer, moves)
            for session in (moves, stays):
                self.draw_query(peer, session, question)

    def draw_strangers(self, peer, session):
        """As many requesters as a session has, most of whom no assertion names."""
        self.draw_clear(peer, session)
        for i in range(REQUESTERS - 1):
            self.name(peer, session, b"s%d.%d" % (len(self.steps), i))
        self.draw_auth(peer, session)
        self.draw_query(peer, session)

    def draw_watch(self, peer, session):
        session.stands = True
        self.say(peer, session, "other", b"WATCH %d %b\n" % (session.number, self.random.choice(QUESTIONS)))

    def draw_news(self, peer, session):
        if session.stands:
            self.say(peer, session, "other", b"NEWS %d\n" % session.number)

    def draw_critical(self, peer, session):
        self.say(peer, session, "other", b"CRITICAL %d %b\n" % (session.number, self.random.choice(QUESTIONS)))

    # -- what is said of a session

    def name(self, peer, session, principal):
        session.requesters.append(principal)
        self.say(peer, session, "own", b"AUTH %d %b\n" % (session.number, principal))

    def draw_auth(self, peer, session):
        if len(session.requesters) < REQUESTERS:
            low = self.random.choice([1, 1, len(self.names) // 2 or 1])
            name = self.random.choice([*self.names[low:], *self.names[low:], b"stranger"])
            self.name(peer, session, texts.spell_principal(self.random, name))

    def draw_unauth(self, peer, session):
        if session.requesters:
            name = session.requesters.pop(self.random.randrange(len(session.requesters)))
            self.say(peer, session, "own", b"UNAUTH %d %b\n" % (session.number, name))

    def draw_clear(self, peer, session):
        session.requesters, session.attributes = [], []
        self.say(peer, session, "own", b"CLEAR %d\n" % session.number)

    def draw_set(self, peer, session):
        name = self.random.choice(texts.ATTRIBUTES + [b"level"] * 4)
        session.attributes.append(name)
        self.say(peer, session, "own", b"SET %d %b %b\n" % (session.number, name, self.random.choice(texts.VALUES)))

    def draw_unset(self, peer, session):
        if session.attributes:
            name = self.random.choice(session.attributes)
            session.attributes = [other for other in session.attributes if other != name]
            self.say(peer, session, "own", b"UNSET %d %b\n" % (session.number, name))

    def draw_assert(self, peer, session):
        if len(session.private) < PRIVATE:
            session.asserted += 1
            session.private.append(session.asserted)
            self.say(peer, session, "own", block(b"ASSERT %d %d", session.number, self.draw_text(lowest=1)))

    def draw_retract(self, peer, session):
        if session.private:
            number = session.private.pop(self.random.randrange(len(session.private)))
            self.say(peer, session, "own", b"RETRACT %d p%d\n" % (session.number, number))

    # -- updates

    def update(self, peer, text, added):
        """Says an update that adds these, or with None one that makes no version which a policy file makes."""
        self.newest += 1
        self.is_whole = self.is_whole and added is not None
        self.whole += [added] if self.is_whole else []
        self.say(peer, None, "update", text)

    def add(self, text):
        self.added += 1
        self.live.append(self.added)
        return text

    def take(self):
        """The id of a live credential, which is then none."""
        return self.live.pop(self.random.choice([0, -1, *(self.random.randrange(len(self.live)) for _ in range(4))]))

    def draw_add(self, peer, _):
        if len(self.live) < LIVE:
            text = self.add(self.draw_text())
            self.update(peer, block(b"ADD %d", text), text)

    def draw_drop(self, peer, _):
        if self.live:
            self.update(peer, b"DROP a%d\n" % self.take(), None)

    def draw_batch(self, peer, _):
        items, added = b"", []
        count = self.random.randint(*self.kind.items)
        for _ in range(count):
            if self.live and self.random.random() < 0.55:
                items += b"DROP a%d\n" % self.take()
            elif len(self.live) < LIVE and len(items) < BLOCK_BYTES - MOST_BYTES:
                added.append(self.add(self.draw_text()))
                items += block(b"ADD %d", added[-1])
        if items:
            is_one = count == 1 and len(added) == 1
            self.update(peer, block(b"BATCH %d", items), added[0] if is_one else None)

    # -- what is made of it

    def policy_file(self):
        return b"\n".join(self.policy)

    def key_file(self):
        """Each text is admitted by its digest."""
        digests = sorted({hashlib.sha256(text).hexdigest() for text in self.drawn})
        lines = [b"digest %b\n" % digest.encode() for digest in digests]
        return b"".join(lines) + b"secret 733363726574\n"

    def sample(self):
        """The place of a query at a version that a policy file makes, if there is one, by chance."""
        places = [at for at, it in enumerate(self.steps) if it.sort == "query" and it.version <= len(self.whole)]
        return [random.Random(self.seed).choice(places)] if places else []
