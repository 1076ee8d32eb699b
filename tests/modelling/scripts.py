"""Random scripts of requests: of all kinds, with refusals as often as successes, and near the limits.

A request is drawn by what the daemon has at that moment, so that ids, versions and sessions are near what is there.
"""

from modelling import reading, texts, wire
from modelling.daemon import CHANGES, CRITICAL_NODES, Daemon, Store

MANY = [b"w%d" % i for i in range(65)]
QUERIES = [b"no,yes", b"no,maybe,yes", b"v0,v1,v2,v3", b"yes,no", b"other,v1", b",".join(MANY[:64])]
WRONG_QUERIES = [
    b"no", b"", b"no,no", b"no,", b",", b"no, yes", b"n" * 129 + b",yes", b",".join(MANY),
    b"no,y\xff",
]
STRANGE_LINES = [
    b"", b"open", b" OPEN", b"OPEN ", b"OPEN 1", b"CLOSE", b"CLOSE 01", b"PIN 1  1", b"PIN 1 01", b"PIN 1 1 1",
    b"PIN 1 x", b"PIN", b"RETRACT 1 a1", b"SET 1", b"SET 1  x", b"SETX 1 v 1", b"SETX 1 v 1g", b"ADMIN", b"ADMIN 1",
    b"DROP 1", b"DROP a01", b"DROP a1 ", b"LOG", b"LOG x", b"LOG 01", b"LOG 1000000000", b"LOG 1 1", b"BATCH",
    b"BATCH 01", b"BATCH 1 1", b"ADD x", b"ASSERT 1", b"BYE 1", b"QUERY 1", b"AUTH 1", b"AUTH x alice", b"LOGS 0",
    b"\xff", b"\0", b"LOOK 1 no,yes", b"NOMEM", b"A" * 8192, b"OPEN\t", b"WATCH", b"WATCH 1", b"WATCH 01 no,yes",
    b"NEWS", b"NEWS 1 no,yes", b"NEWS 1 ", b"NEWS x", b"UNWATCH", b"UNWATCH 1 1", b"UNWATCH 1000000000", b"CRITICAL",
    b"CRITICAL 1", b"CRITICAL  1 no,yes", b"news 1", b"CRITICALS 1 no,yes", b"NEED a1",
]
STRANGE_ITEMS = [
    b"DROP a01\n", b"drop a1\n", b"DROP p1\n", b"DROP a1\r\n", b"DROP a1 \n", b" DROP a1\n", b"DROP a1000000000\n",
    b"DROP a\n", b"\n", b"x", b"DROP a1", b"ADD 1 1\nx\n", b"ADD 99999\nx\n", b"ADD 14\r\nAuthorizer:\"a\"\n",
    b"ADD\n", b"BATCH 8\nDROP a1\n\n", b"ADD 5\nabcdef\n",
]
BATCH_SIZES = [1, 1, 1, 2, 2, 3, 4, 6, 10, 20, 60, 256, 256, 257]
KINDS = {
    "open": 3, "close": 1.5, "pin": 3, "pin_at": 10, "assert": 6, "retract": 3, "set": 5, "setx": 2, "unset": 3,
    "auth": 12, "unauth": 2, "clear": 1, "query": 12, "watch": 6, "news": 10, "unwatch": 2, "critical": 8, "admin": 1,
    "add": 8, "drop": 7, "batch": 14, "log": 8, "strange": 5, "long": 1, "fill": 0.4, "story": 2,
}


class Script:
    """The requests of one script, drawn one by one."""

    def __init__(self, rng, daemon, drawn):
        self.rng, self.daemon, self.texts = rng, daemon, drawn
        # the last question
        self.asked = None

    def is_likely(self, chance):
        return self.rng.random() < chance

    def line(self, form, *parts):
        return form % parts + self.rng.choice([b"\n"] * 9 + [b"\r\n"])

    def any_session(self):
        opened = list(self.daemon.sessions)
        if opened and self.is_likely(0.93):
            return self.rng.choice([opened[0], opened[-1], self.rng.choice(opened)])
        return self.rng.choice([0, 1, self.daemon.opened, self.daemon.opened + 1, 999999999])

    def any_id(self, held, count):
        """A number that is there, most often, or one near it."""
        if held and self.is_likely(0.8):
            return self.rng.choice([self.rng.choice(list(held)), max(held)])
        return self.rng.choice([0, 1, self.rng.randint(0, count), count, count + 1, count + 2, 999999999])

    def held(self, name):
        session = self.daemon.sessions.get(self.last)
        return list(getattr(session, name)) if session else []

    def request(self, kind):
        """A request of this kind; its session is kept for what is drawn next."""
        self.last = self.any_session()
        return getattr(self, "draw_" + kind)()

    def draw_open(self):
        return self.line(b"OPEN")

    def draw_close(self):
        return self.line(b"CLOSE %d", self.last)

    def draw_pin(self):
        return self.line(b"PIN %d", self.last)

    def any_version(self):
        newest = self.daemon.newest()
        near = [newest - 15, newest - 16, newest - 14, newest, newest + 1, newest - 17, newest - 1, 0]
        within = self.rng.randint(max(0, newest - 15), newest)
        return max(0, self.rng.choice([within] * 8 + near + [self.rng.randint(0, newest), 999999999]))

    def draw_pin_at(self):
        return self.line(b"PIN %d %d", self.last, self.any_version())

    def block(self, form, *parts):
        """A line with a block; the newline of some texts is the one behind the block."""
        *parts, text = parts
        if text.endswith(b"\n") and self.is_likely(0.1):
            text = text[:-1]
        return self.line(form, *parts, len(text)) + text + b"\n"

    def draw_assert(self):
        return self.block(b"ASSERT %d %d", self.last, self.texts.private())

    def draw_retract(self):
        held = self.held("private")
        return self.line(b"RETRACT %d p%d", self.last, self.any_id(held, 3))

    def any_name(self):
        names = texts.ATTRIBUTES * 3 + [b"a" * 128, b"a" * 129, b"_v", b"9a", b"a.b", b"\xff", b"x\r"]
        return self.rng.choice(names)

    def any_value(self):
        odd = bytes(self.rng.choice(b"\0\r\xff ab") for _ in range(self.rng.randint(0, 9)))
        return self.rng.choice(texts.VALUES * 3 + [odd, odd, b"z" * 4096, b"z" * 4097])

    def draw_set(self):
        if self.is_likely(0.1):
            return self.line(b"SET %d %s", self.last, self.any_name())
        return self.line(b"SET %d %s %s", self.last, self.any_name(), self.any_value())

    def draw_setx(self):
        value = self.rng.choice([self.any_value()[:4093], b"a\nb", b"z" * 4090]).hex().encode()
        digits = self.rng.choice([value, value.upper(), b""])
        return self.line(b"SETX %d %s %s", self.last, self.any_name(), digits)

    def draw_unset(self):
        held = self.held("attributes")
        return self.line(b"UNSET %d %s", self.last, self.rng.choice(held + [self.any_name()]))

    def any_principal(self):
        known = texts.spell_principal(self.rng, self.rng.choice(texts.PRINCIPALS))
        odd = [b"", b"POLICY", b"policy", b"p" * 4096, b"p" * 4097, b"alice ", b'"alice"']
        return self.rng.choice([known] * 8 + odd)

    def draw_auth(self):
        return self.line(b"AUTH %d %s", self.last, self.any_principal())

    def draw_unauth(self):
        known = self.held("requesters") * 3
        return self.line(b"UNAUTH %d %s", self.last, self.rng.choice(known + [self.any_principal()]))

    def draw_clear(self):
        return self.line(b"CLEAR %d", self.last)

    def question(self, word):
        """A line that asks a question, most often of a session that has requesters."""
        asked = [s for s, session in self.daemon.sessions.items() if session.requesters]
        if asked and self.is_likely(0.7):
            self.last = self.rng.choice(asked)
        values = self.rng.choice(QUERIES if self.is_likely(0.85) else WRONG_QUERIES)
        return self.line(b"%s %d %s", word, self.last, values)

    def draw_query(self):
        """A question, often the last one again: what came between decides whether the answer is the same."""
        if not self.asked or self.is_likely(0.6):
            self.asked = self.question(b"QUERY")
        return self.asked

    def draw_watch(self):
        return self.question(b"WATCH")

    def draw_critical(self):
        return self.question(b"CRITICAL")

    def about_standing(self, word, chance):
        """A line about a standing query, so often of a session that has one."""
        watching = [s for s, session in self.daemon.sessions.items() if session.standing]
        if watching and self.is_likely(chance):
            self.last = self.rng.choice(watching)
        return self.line(b"%s %d", word, self.last)

    def draw_news(self):
        return self.about_standing(b"NEWS", 0.85)

    def draw_unwatch(self):
        return self.about_standing(b"UNWATCH", 0.5)

    def draw_admin(self):
        wrong = [b"00", b"733363726575", b"73336372657473"]
        return self.line(b"ADMIN %s", self.rng.choice([b"733363726574"] * 3 + wrong))

    def draw_add(self):
        return self.block(b"ADD %d", self.texts.any())

    def draw_drop(self):
        store = self.daemon.store()
        held = store.live if len(store.live) > 5 or self.is_likely(0.3) else []
        return self.line(b"DROP a%d", self.any_id(held, store.additions))

    def items(self, size):
        """Changes that can all be made one after the other, and fit into a block."""
        store, changes, room = self.daemon.store(), [], wire.BLOCK_BYTES - 100
        adds = self.rng.choice([0.4, 0.6, 0.9])
        for _ in range(size):
            short = b'Authorizer:"a"\n' if size > 60 and self.is_likely(0.95) else self.texts.admitted()
            drops = len(store.live) >= self.rng.choice([1, 8]) and not self.is_likely(adds)
            change = self.rng.choice([max(store.live), self.rng.choice(list(store.live))]) if drops else short
            room -= len(wire.spell_item(change))
            if room < 0 or store.fault(change):
                break
            store.make(change)
            changes.append(change)
        return changes

    def spoil(self, changes):
        """Refuses one or two items, for what they are or for what isn't there."""
        count = self.daemon.store().additions
        for _ in range(self.rng.choice([1, 1, 2])):
            unknown = self.rng.choice([0, count + 1, count + len(changes), self.rng.randint(0, count + 3), 999999999])
            bad = self.rng.choice([unknown, unknown, self.texts.unadmitted(), self.texts.faulty()])
            bad = bad if isinstance(bad, int) or len(bad) < 2000 else unknown
            changes.insert(self.rng.randint(0, len(changes)), bad)
        if self.is_likely(0.3):
            self.rng.shuffle(changes)
        return changes

    def malform(self, items):
        """Has the block depart from its form at some place."""
        at = self.rng.randint(0, len(items))
        way = self.rng.choice(["item", "item", "cut", "byte", "end", "none"])
        if way == "item":
            return b"".join([*items[:at], self.rng.choice(STRANGE_ITEMS), *items[at:]])
        block = b"".join(items)
        place = self.rng.randint(0, len(block))
        changed = {"cut": block[:place], "byte": block[:place] + b"\n" + block[place:], "end": block + b"\n"}
        return changed.get(way, b"")

    def draw_batch(self):
        changes = self.items(self.rng.choice(BATCH_SIZES))
        way = self.rng.random()
        if way < 0.35:
            changes = self.spoil(changes)
        items = [wire.spell_item(change) for change in changes]
        block = self.malform(items) if way > 0.8 else b"".join(items)
        block = block if len(block) <= wire.BLOCK_BYTES else b""
        return self.line(b"BATCH %d", len(block)) + block + b"\n"

    def draw_log(self):
        newest = self.daemon.newest()
        near = [0, newest, newest + 1, newest - 1, newest - 15, newest - 16, newest - 17, 999999999]
        return self.line(b"LOG %d", max(0, self.rng.choice([*near, self.rng.randint(0, newest)])))

    def draw_strange(self):
        return self.line(self.rng.choice(STRANGE_LINES).replace(b"%", b"%%"))

    def draw_long(self):
        begin, size = self.rng.choice([b"A", b"SET 1 v ", b"ADD 5"]), self.rng.choice([8193, 8192, 9000, 20000])
        return self.line(begin + b"1" * size)

    def fill(self):
        """Requests that go up to a limit of one session and past it."""
        s = self.any_session()
        ways = [
            [self.line(b"OPEN") for _ in range(18)],
            [self.line(b"SET %d n%d x", s, i) for i in [*range(258), 1]],
            [self.line(b"AUTH %d who%d", s, i) for i in [*range(66), 1]],
            [self.block(b"ASSERT %d %d", s, b'Authorizer:"q%d"\n' % i) for i in range(66)],
            [self.block(b"ASSERT %d %d", s, self.texts.sized(16384)) for i in range(17)],
            [self.line(b"ADD 15") + b'Authorizer:"a"\n\n' for i in range(20)],
        ]
        return self.rng.choice(ways)

    def story(self):
        """Requests to one session about a guest, for whom its own assertions and attributes decide."""
        s, rng = self.any_session(), self.rng
        values = rng.choice(QUERIES[:2])
        ways = [
            lambda: self.block(b"ASSERT %d %d", s, texts.draw_link(rng)),
            lambda: self.line(b"RETRACT %d p%d", s, rng.randint(1, 4)),
            lambda: self.line(b"SET %d %s %s", s, rng.choice([b"hour", b"action"]), rng.choice([b"9", b"read", b"17"])),
            lambda: self.line(b"%s %d guest", rng.choice([b"AUTH", b"AUTH", b"UNAUTH"]), s),
            lambda: self.line(b"WATCH %d %s", s, values),
            lambda: self.line(b"NEWS %d", s),
            lambda: self.line(b"CRITICAL %d %s", s, values),
            lambda: self.line(rng.choice([b"CLEAR %d", b"PIN %d", b"UNSET %d hour", b"UNWATCH %d"]), s),
        ]
        first = [self.line(b"CLEAR %d", s), ways[0](), self.line(b"AUTH %d guest", s), ways[4]()]
        return first + [way() for way in rng.choices(ways, [3, 2, 3, 2, 2, 6, 3, 1], k=rng.randint(1, 9))]

    def draw(self):
        """One request, or several that go together."""
        kind = self.rng.choices(list(KINDS), KINDS.values())[0]
        return getattr(self, kind)() if kind in ("fill", "story") else [self.request(kind)]

    def end(self):
        """What stands at the very end of a script: nothing, BYE, or something that isn't whole or breaks off."""
        text = b'Authorizer: "a"\n'
        return self.rng.choice([
            [], [b"BYE\n"], [b"BYE\r\n", b"OPEN\n"], [b"OPE"], [b"LOG 0"], [b"ADD 16385\n", text], [b"BATCH 99999\n"],
            [b"ASSERT 1 16\n" + text + b"x\n"], [b"BATCH 8\nDROP a1\n\r\n"], [b"BATCH 8\nDROP a1\n"],
            [b"ADD 16\n" + text], [b"ADD 30\n" + text], [b"ASSERT 1 999999999\n"], [b"BATCH 0\n"], [b"\r"],
            [b"B" * 8193], [b"B" * 9000 + b"\nBYE\n"],
        ])


def draw_wide(rng, most):
    """A text whose licensees have many nodes, at most so many, and how many they are."""
    members = rng.randint(2, max(2, min(2000, most)))
    names = [b'"z"'] * members
    threshold = b"%d-of(%s)" % (rng.randint(1, members), b",".join(names))
    ways = [
        (1, b"\nLicensees:"), (1, b""), (members + 1, b"\nLicensees: " + threshold),
        (members + 1, b"\nLicensees: " + rng.choice([b"||", b"&&"]).join(names)),
        (members + 3, b'\nLicensees: "y" || ' + threshold),
    ]
    nodes, licensees = rng.choice([way for way in ways if way[0] <= most])
    return b'Authorizer: "z"%s\n' % licensees, nodes


def draw_nodes(rng, made):
    """These texts and others: the licensees of all of them have about as many nodes as CRITICAL takes."""
    left = CRITICAL_NODES - rng.choice([0, 0, 1, 2, 10, 20])
    left -= sum(reading.nodes_of(reading.read(text).licensees) for text in made)
    while left:
        text, nodes = draw_wide(rng, left)
        made.append(text)
        left -= nodes
    return made


def draw_policy(rng, drawn, size):
    """The texts of a policy file. Those of `live`, `live-bytes` and `nodes` are near these limits."""
    if size == "live":
        few = [texts.draw_assertion(rng, rng.choice([b"POLICY", b"alice"])) for _ in range(6)]
        few = [text for text in few if len(text) < 2000]
        return few + [b'Authorizer:"a"\n'] * (rng.choice([4090, 4096, 4095]) - len(few))
    if size == "live-bytes":
        return [drawn.sized(16384)] * 511 + [drawn.sized(16384 - rng.choice([0, 16, 60, 4000]))]
    if size == "nodes":
        return draw_nodes(rng, [rng.choice(texts.STRONG) for _ in range(rng.choice([0, 1, 3]))])
    if rng.random() < 0.3:
        return texts.draw_chain(rng)
    count = rng.choice([0, 1, 2, 5, 18])
    return [rng.choice([texts.draw_assertion(rng), rng.choice(texts.STRONG)]) for _ in range(count)]


class Drawn:
    """A script as it was drawn: its policy, its keys and its requests, each of which may be several lines."""

    def __init__(self, rng, count, make=Daemon, size="small"):
        drawn = texts.Texts(rng)
        self.keys, self.make = drawn.keys, make
        self.policy = draw_policy(rng, drawn, size)
        self.requests, self.size = [], 0
        daemon = self.daemon()
        script = Script(rng, daemon, drawn)
        self.take(daemon, [b"ADMIN 733363726574\n", b"OPEN\n"] if rng.random() < 0.75 else [b"OPEN\n"])
        while self.size < count:
            self.take(daemon, script.draw())
        self.requests += script.end()

    def daemon(self):
        return self.make(self.policy, self.keys)

    def take(self, daemon, requests):
        """Takes these requests into the script, where the model can read their texts."""
        for request in requests:
            at, before = 0, list(daemon.updates)
            try:
                while at < len(request):
                    taken, at = wire.take_request(request, at)
                    daemon.reply(taken)
                    self.size += 1
            except reading.Unreadable:
                daemon.updates = before
                continue
            self.requests.append(request)


def spell_batch(changes):
    block = b"".join(map(wire.spell_item, changes))
    return b"BATCH %d\n%s\n" % (len(block), block)


def draw_changes(rng):
    """A script that goes up to the limit of changes by batches of additions and removals of one text, and past it."""
    text, made = b'Authorizer:"a"\n', texts.Texts(rng)
    policy, room = [text] * rng.randint(1, 300), rng.randint(0, 300)
    requests, store = [b"ADMIN 733363726574\n", b"OPEN\n"], Store(policy)
    while store.changes < CHANGES - room:
        changes = []
        for _ in range(min(256, CHANGES - room - store.changes)):
            changes.append(text if len(store.live) < 100 or rng.random() < 0.5 else max(store.live))
            store.make(changes[-1])
        requests.append(spell_batch(changes))
    live, gone = max(store.live), store.additions + 1000
    for count in (256, room % 256 + 1, 256, 100, 45, 1, 1, 1):
        requests.append(spell_batch([text] * count))
    for last in ([text], [live], [gone], [gone, text], [text, gone]):
        requests.append(spell_batch(last))
    requests += [b"ADD 15\n" + text + b"\n"] * 60 + [b"DROP a%d\n" % live, b"DROP a%d\n" % gone, b"PIN 1\n"]
    requests += [b"LOG %d\n" % n for n in (0, 200, 250, 300, 400)] + [b"QUERY 1 no,yes\n", b"BYE\n"]
    drawn = Drawn.__new__(Drawn)
    drawn.keys, drawn.make, drawn.policy, drawn.requests = made.keys, Daemon, policy, requests
    return drawn
