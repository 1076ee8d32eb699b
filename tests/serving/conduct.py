"""What the clients of these tests ask for: the policy, the keys, the credentials, and a client that draws its requests."""

import random

from serving import daemon

CLIENTS = [f"c{i}" for i in range(8)]
# those who break off, don't read, and send too much or too little
OTHERS = [f"h{i}" for i in range(64)]
USERS = [f"u{i}" for i in range(6)]
VALUES = ["no,log,yes", "no,log,yes", "no,yes", "no,maybe,log"]
# the most live credentials of a client, and the most sessions that it has open
LIVE, OPEN = 8, 4
# the most updates of a client: all of them stay below the store's limit
UPDATES = 4000

LOADED = [
    daemon.make_assertion("POLICY", (1, CLIENTS), comment="the clients are trusted"),
    daemon.make_assertion("POLICY", (1, OTHERS), comment="and so are those who break off"),
    daemon.make_assertion("POLICY", (2, USERS[:3]), [(5, "log")], "two users together, at a high level"),
    daemon.make_assertion("u3", "u4", [(2, "yes")], "a user stands in for another"),
    daemon.make_assertion("u4", (2, ["u3", "u5"]), None, "and the other way round, with a third"),
]
POLICY = b"\n".join(assertion.text for assertion in LOADED)


def key_of(name):
    return b"key of " + name.encode()


KEYS = "".join(f"mac {key_of(name).hex()} {name}\n" for name in CLIENTS + OTHERS) + f"secret {daemon.SECRET.decode()}\n"


class Texts:
    """The blocks that were made so far, each with the assertion that it is or with its refusal, and the ids that were told."""

    def __init__(self):
        self.made = {b"": b"NO 5 read 12 0\n"}
        # the ids that clients were told of their additions
        self.told = []

    def __getitem__(self, text):
        return self.made[text]

    def enter(self, assertion, refusal=None):
        self.made[assertion.text] = refusal or assertion
        return assertion.text

    def signed(self):
        """The credentials that clients made, of which each licenses somebody whom no other one does."""
        return [a for a in list(self.made.values()) if isinstance(a, daemon.Assertion) and b" makes its number " in a.text]


def block(word, text):
    return b"%s %d\n%s\n" % (word, len(text), text)


class Conduct:
    """A client: it draws the requests of a connection, and learns from their replies.

    A burst of requests is drawn before any of their replies is known.
    """

    def __init__(self, name, texts, seed):
        self.name, self.texts, self.rng = name, texts, random.Random(seed)
        self.made, self.updates, self.own = 0, 0, []
        self.connect()

    def connect(self):
        self.started, self.open, self.admin, self.newest = 0, {}, False, len(LOADED)

    # -- what it says

    def formula(self, depth=0):
        """A formula over users and clients."""
        draw = self.rng.random()
        if depth == 2 or draw < 0.5:
            return self.rng.choice(USERS + CLIENTS)
        parts = [self.formula(depth + 1) for _ in range(self.rng.randint(2, 3))]
        return self.rng.choice([1, 1, len(parts), 2]), parts

    def clauses(self):
        if self.rng.random() < 0.5:
            return None
        return [(self.rng.randrange(9), self.rng.choice(["log", "yes", "maybe"])) for _ in range(self.rng.randint(1, 2))]

    def only(self, number):
        """A principal whom one credential alone licenses."""
        return f"only {self.name} {number}"

    def credential(self):
        """A signed credential of its own, unlike all others."""
        self.made += 1
        formula = (1, [self.only(self.made), self.formula()])
        made = daemon.make_assertion(self.name, formula, self.clauses(), f"{self.name} makes its number {self.made}", key_of(self.name))
        return self.texts.enter(made)

    def refused_credential(self):
        wrong = daemon.make_assertion(self.name, "u0", None, "signed by another key", b"another key")
        plain = daemon.make_assertion(self.name, "u0", None, "without a signature")
        strange = daemon.make_assertion("nobody", "u0", None, "whose authorizer has no key", b"another key")
        draw = self.rng.randrange(4)
        if draw == 3:
            return b""
        return self.texts.enter((wrong, plain, strange)[draw], b"NO 7 auth %d\n" % (4, 1, 3)[draw])

    def private(self):
        made = daemon.make_assertion(self.rng.choice(CLIENTS + USERS), self.formula(), self.clauses())
        return self.texts.enter(made)

    # -- requests

    def start(self):
        """The first requests of a connection."""
        return [b"ADMIN 733363726574\n", self.ask_open()] if self.rng.random() < 0.9 else [self.ask_open()]

    def ask_open(self):
        self.started += 1
        self.open[self.started] = 0
        return b"OPEN\n"

    def ask_close(self, s):
        del self.open[s]
        return b"CLOSE %d\n" % s

    def ask_add(self):
        self.updates += 1
        return block(b"ADD", self.credential() if self.rng.random() < 0.95 else self.refused_credential())

    def ask_drop(self):
        """The oldest of its own, or any of the last ones, which may be gone."""
        self.updates += 1
        name = self.own.pop(0) if self.own and self.rng.random() < 0.8 else self.rng.choice(self.texts.told[-20:] or [999999])
        return b"DROP a%d\n" % name

    def ask_batch(self):
        """Some additions and some of its own to drop; now and then with an item that is refused."""
        items = []
        for _ in range(self.rng.randint(1, 5)):
            if self.own and self.rng.random() < 0.45:
                items.append(b"DROP a%d\n" % self.own.pop(0))
            else:
                text = self.credential() if self.rng.random() < 0.97 else self.refused_credential()
                items.append(b"ADD %d\n%s\n" % (len(text), text))
        if self.rng.random() < 0.05:
            items.insert(self.rng.randint(0, len(items)), b"DROP a999999\n")
        self.updates += len(items)
        return block(b"BATCH", b"".join(items))

    def ask_log(self):
        """What made the last versions, or a little more than there is."""
        return b"LOG %d\n" % max(0, self.newest - self.rng.randint(-1, 20))

    def ask_update(self):
        if self.updates >= UPDATES:
            return b"ADMIN 00\n"
        if self.rng.random() < 0.25:
            return self.ask_batch()
        return self.ask_drop() if len(self.own) >= LIVE or (self.own and self.rng.random() < 0.3) else self.ask_add()

    def ask_assert(self, s):
        if self.open[s] >= 40:
            return b"QUERY %d no,yes\n" % s
        self.open[s] += 1
        return block(b"ASSERT %d" % s, self.private())

    def ask_refused(self, s):
        """A request that is refused, whatever was asked before."""
        policy = daemon.make_assertion("POLICY", "u0")
        return self.rng.choice([
            b"open\n", b"\n", b"OPEN x\n", b"QUERY 99 no,yes\n", b"QUERY %d yes\n" % s, b"QUERY %d no,no\n" % s,
            b"WATCH 99 no,yes\n", b"NEWS 99\n", b"UNWATCH 99\n", b"CRITICAL %d no\n" % s, b"AUTH %d POLICY\n" % s, b"SET %d _x 1\n" % s, b"ADMIN 00\n", block(b"ASSERT %d" % s, self.texts.enter(policy)),
            block(b"ASSERT %d" % s, b""), b"RETRACT %d p999\n" % s, b"UNSET %d none\n" % s, b"UNAUTH %d none\n" % s,
        ])

    def ask_about(self, s):
        """A request about a session."""
        rng, user = self.rng, self.rng.choice(USERS).encode()
        return rng.choices([
            lambda: b"QUERY %d %s\n" % (s, rng.choice(VALUES).encode()),
            lambda: b"AUTH %d %s\n" % (s, user),
            lambda: b"AUTH %d %s\n" % (s, self.only(rng.randint(max(1, self.made - LIVE), max(1, self.made))).encode()),
            lambda: b"SET %d level %d\n" % (s, rng.randrange(10)),
            lambda: b"SETX %d level 3%d\n" % (s, rng.randrange(10)),
            lambda: b"PIN %d\n" % s,
            lambda: b"PIN %d %d\n" % (s, max(0, self.newest - rng.randint(-1, 17))),
            lambda: b"UNAUTH %d %s\n" % (s, user),
            lambda: b"UNSET %d level\n" % s,
            lambda: b"CLEAR %d\n" % s,
            lambda: self.ask_assert(s),
            lambda: b"RETRACT %d p%d\n" % (s, rng.randint(1, max(1, self.open[s]))),
            lambda: b"WATCH %d %s\n" % (s, rng.choice(VALUES).encode()),
            lambda: b"NEWS %d\n" % s,
            lambda: b"UNWATCH %d\n" % s,
            lambda: b"CRITICAL %d %s\n" % (s, rng.choice(VALUES).encode()),
        ], [30, 8, 8, 6, 3, 14, 6, 3, 1, 1, 5, 3, 4, 10, 1, 2])[0]()

    def draw(self):
        draw = self.rng.random()
        if not self.open or (draw < 0.03 and len(self.open) < OPEN):
            return self.ask_open()
        session = self.rng.choice(list(self.open))
        if draw < 0.05:
            return self.ask_close(session)
        if draw < 0.09:
            return self.ask_refused(session)
        if draw < 0.11:
            return self.ask_log()
        return self.ask_update() if draw < 0.25 else self.ask_about(session)

    def burst(self, most):
        return [self.draw() for _ in range(self.rng.randint(1, most))]

    def learn(self, request, reply):
        if reply.startswith(b"OK a"):
            first, *added = (int(part.lstrip(b"a")) for part in reply.split()[1:-1])
            ids = range(first, first + (added[0] if added else 1))
            self.own += ids
            self.texts.told += ids
        if reply.startswith(b"NEWS ") and request.startswith(b"NEWS "):
            self.newest = int(reply.split()[-1])
        if reply.startswith(b"OK ") and request.split(None, 1)[0] in (b"OPEN", b"PIN", b"ADD", b"DROP", b"BATCH"):
            self.newest = int(reply.split()[-1])


def probes(credentials):
    """Requests about each of these credentials that a client made: where it is live, a row of the proof names it."""
    for assertion in credentials:
        who = assertion.formula[1][0]
        yield from (b"AUTH 1 %s\n" % who.encode(), b"QUERY 1 no,maybe,log,yes\n", b"UNAUTH 1 %s\n" % who.encode())
