"""The self-test of the checker of one history: it accepts the runs of a simulated daemon, and refuses each planted fault."""

import collections
import random

import protocol
from serving import conduct, daemon, history
from serving.daemon import Fault
from serving.history import Exchange, Transcript

# requests of a client in a simulated run, and the most of a burst
REQUESTS, BURST = 160, 6
# of so many runs with a planted fault one at least has to be refused
RUNS = 8
# faults are planted from this update on
PLANTED_AT = 12


class Caller:
    def __init__(self, name, simulated):
        self.name = name
        self.model = daemon.Connection(simulated.texts, lambda version: simulated.versions[version])


def pinned_version(request):
    """The version that a PIN names, or None."""
    return int(request.split()[2]) if request.startswith(b"PIN ") and request.count(b" ") == 2 else None


class Simulated:
    """A daemon of one thread in memory, without a fault."""

    def __init__(self, texts):
        first = {f"a{i}": assertion for i, assertion in enumerate(conduct.LOADED, 1)}
        self.texts, self.additions, self.has_come = texts, len(first), False
        self.versions = [dict(list(first.items())[:n]) for n in range(len(first) + 1)]
        # of each version the changes that made it
        self.changes = [None] + [[(assertion.text, None)] for assertion in conduct.LOADED]

    def newest(self):
        return len(self.versions) - 1

    def is_due(self):
        """Whether a fault that comes once is to come now, at the first addition from some version on."""
        due = not self.has_come and self.newest() >= len(conduct.LOADED) + PLANTED_AT
        self.has_come |= due
        return due

    def append(self, live, changes=()):
        self.versions.append(live)
        self.changes.append(changes)
        return self.newest()

    def pin(self, caller):
        return self.newest()

    def add(self, caller, assertion):
        self.additions += 1
        version = self.append({**self.versions[-1], f"a{self.additions}": assertion}, [(assertion.text, None)])
        return b"OK a%d %d\n" % (self.additions, version)

    def drop(self, caller, name):
        live = dict(self.versions[-1])
        if live.pop(name, None) is None:
            return b"NO 12 unknown\n"
        return b"OK %d\n" % self.append(live, [(None, int(name[1:]))])

    def batch(self, caller, items):
        live, additions = dict(self.versions[-1]), self.additions
        for at, (text, number) in enumerate(items, 1):
            if text is not None:
                additions += 1
                live[f"a{additions}"] = self.texts[text]
            elif live.pop(f"a{number}", None) is None:
                return b"NO 17 item %d 12 unknown\n" % at
        first, self.additions = self.additions + 1, additions
        return b"OK a%d %d %d\n" % (first, additions + 1 - first, self.append(live, items))

    def log(self, held):
        told = self.changes[held + 1:held + 17]
        text = b"LOG %d %d %d\n" % (held, len(told), self.newest())
        for version, items in enumerate(told, held + 1):
            text += b"UPDATE %d %d\n" % (version > len(conduct.LOADED), len(items))
            text += b"".join(b"DROP a%d\n" % number if text is None else b"ADD %d\n%s\n" % (len(text), text) for text, number in items)
        return text + b"END\n" if held <= self.newest() else b"NO 19 ahead %d\n" % self.newest()

    def pin_at(self, caller, version):
        kept = self.newest() - 16 < version <= self.newest()
        return b"OK %d %d\n" % (version, self.newest()) if kept else b"NO 18 retained %d\n" % self.newest()

    def news(self, caller):
        return self.newest()

    def half_block(self, caller, assertion):
        """A connection ended within the block of an ADD."""

    def credentials(self, caller, version):
        return self.versions[version]

    def private(self, session):
        return session.private

    def query(self, caller, session, values):
        assertions = {**self.credentials(caller, session.version), **self.private(session)}
        index, rows = daemon.Query(assertions, session.requesters, session.attributes, values).solve()
        return daemon.spell_value(index, values[index], session.version, rows)

    def reply(self, caller, request):
        word, model = request.split(b" ")[0].strip(), caller.model
        if pinned_version(request) is not None:
            return model.expected(request, self.pin_at(caller, pinned_version(request)))
        if word == b"LOG":
            return model.expected(request, self.log(int(request[4:-1])))
        if word == b"BATCH":
            items, _ = protocol.split_items(request.partition(b"\n")[2], 0, 256)
            due = b"OK a1 %d 1\n" % sum(text is not None for text, _ in items)
            permitted = model.expected(request, due)
            return permitted if permitted != due else self.batch(caller, items)
        if word == b"NEWS":
            return model.expected(request, b"NEWS 0 no %d\n" % self.news(caller))
        if word in (b"OPEN", b"PIN"):
            return model.expected(request, b"OK %d\n" % self.pin(caller))
        if word == b"ADD":
            permitted = model.expected(request, b"OK a1 1\n")
            return permitted if permitted != b"OK a1 1\n" else self.add(caller, self.texts[request.partition(b"\n")[2][:-1]])
        if word == b"DROP":
            permitted = model.expected(request, b"OK 1\n")
            return permitted if permitted != b"OK 1\n" else self.drop(caller, request[5:-1].decode())
        try:
            return model.expected(request, b"")
        except Fault:
            # a query that is answered: the model finds no VALUE in an empty reply
            _, number, values = request[:-1].split(b" ", 2)
            return self.query(caller, model.sessions[number], values.decode().split(","))


class LosesAnUpdate(Simulated):
    """an update is answered, and lost"""

    def add(self, caller, assertion):
        due = self.is_due()
        reply = super().add(caller, assertion)
        if due:
            self.versions[-1] = self.versions[-2]
        return reply


class TellsTwoSets(Simulated):
    """a version has another set of credentials for one client"""

    def credentials(self, caller, version):
        live = self.versions[version]
        return dict(list(live.items())[:-1]) if caller.name == "c1" and len(live) > len(conduct.LOADED) else live


class GivesAVersionTwice(Simulated):
    """two updates are told the same version, with different sets"""

    def add(self, caller, assertion):
        if self.is_due():
            self.versions.pop()
        return super().add(caller, assertion)


class SkipsAVersion(Simulated):
    """a version is made by nobody"""

    def add(self, caller, assertion):
        if self.is_due():
            self.append(self.versions[-1])
        return super().add(caller, assertion)


class AddsTwice(Simulated):
    """one update is made twice"""

    def add(self, caller, assertion):
        due = self.is_due()
        reply = super().add(caller, assertion)
        if due:
            super().add(caller, assertion)
        return reply


class PinsBack(Simulated):
    """a client is pinned to a version from before its own update"""

    def pin(self, caller):
        return max(len(conduct.LOADED), self.newest() - 3)


class PinsLate(Simulated):
    """a client that comes later is pinned to an older version than another was told"""

    def pin(self, caller):
        return self.newest() - (caller.name == "prober")


class AnswersNewest(Simulated):
    """a VALUE tells the pinned version, and is one of the newest"""

    def credentials(self, caller, version):
        return self.versions[-1]


class TellsNewest(Simulated):
    """a VALUE is one of another version than the session is pinned to"""

    def query(self, caller, session, values):
        pinned, session.version = session.version, self.newest()
        reply = super().query(caller, session, values)
        session.version = pinned
        return reply


class DropsTheGone(Simulated):
    """what is gone is dropped again"""

    def drop(self, caller, name):
        reply = super().drop(caller, name)
        return reply if reply.startswith(b"OK") else b"OK %d\n" % self.append(self.versions[-1])


class KeepsTheDropped(Simulated):
    """a drop is answered, and the credential stays"""

    def drop(self, caller, name):
        reply = super().drop(caller, name)
        if reply.startswith(b"OK"):
            self.versions[-1] = self.versions[-2]
        return reply


class RefusesADrop(Simulated):
    """a drop of what is there is refused"""

    def drop(self, caller, name):
        return b"NO 12 unknown\n" if self.newest() > len(conduct.LOADED) + PLANTED_AT else super().drop(caller, name)


class ForgetsPrivate(Simulated):
    """private assertions don't count"""

    def private(self, session):
        return {}


class CountsHalfABlock(Simulated):
    """a block that was cut off is an update"""

    def half_block(self, caller, assertion):
        self.add(caller, assertion)


class TellsAnotherId(Simulated):
    """an addition is told another id"""

    def add(self, caller, assertion):
        self.additions += self.is_due()
        return super().add(caller, assertion)


class LeavesOutARow(Simulated):
    """the rows of a VALUE are no proof"""

    def query(self, caller, session, values):
        index, name, version, rows = daemon.read_value(super().query(caller, session, values))
        return daemon.spell_value(index, name, version, rows[1:])


class MakesABatchInParts(Simulated):
    """a batch makes a version for each of its changes"""

    def batch(self, caller, items):
        if len(items) < 2 or super().batch(caller, items).startswith(b"NO"):
            return b"NO 17 item 1 12 unknown\n"
        whole, before = self.versions.pop(), self.versions[-1]
        self.append({name: it for name, it in whole.items() if name in before}, self.changes.pop())
        return b"OK a%d %d %d\n" % (self.additions + 1 - len(whole.keys() - before.keys()), len(whole.keys() - before.keys()), self.append(whole))


class DoesARefusedBatchInPart(Simulated):
    """of a batch that is refused the first changes are made"""

    def batch(self, caller, items):
        reply = super().batch(caller, items)
        if reply.startswith(b"NO") and items[0][0] is not None:
            self.add(caller, self.texts[items[0][0]])
        return reply


class RefusesABatch(Simulated):
    """a batch is refused for an item that is there"""

    def batch(self, caller, items):
        known = [at for at, (text, number) in enumerate(items, 1) if text is None and number < 999999]
        late = known and self.newest() > len(conduct.LOADED) + PLANTED_AT
        return b"NO 17 item %d 12 unknown\n" % known[0] if late else super().batch(caller, items)


class LogsInAnotherOrder(Simulated):
    """the log tells the changes of a batch in another order"""

    def append(self, live, changes=()):
        return super().append(live, list(changes)[::-1])


class LogsAnotherText(Simulated):
    """the log tells another text than was added"""

    def log(self, held):
        return super().log(held).replace(b" makes its number 1\n", b" makes its number 2\n")


class PinsTheNewest(Simulated):
    """a session is pinned to the newest version in place of the one that it named"""

    def reply(self, caller, request):
        reply = super().reply(caller, request)
        if pinned_version(request) is not None and reply.startswith(b"OK"):
            caller.model.sessions[request.split()[1]].version = self.newest()
        return reply


class RetainsFewer(Simulated):
    """a version is refused that is one of the newest 16"""

    def reply(self, caller, request):
        reply, version = super().reply(caller, request), pinned_version(request)
        old = version is not None and reply.startswith(b"OK") and version < self.newest() - 9
        return b"NO 18 retained %d\n" % self.newest() if old else reply


class RetainsMore(Simulated):
    """a version is pinned that is older than the newest 16"""

    def reply(self, caller, request):
        reply, version = super().reply(caller, request), pinned_version(request)
        gone = reply.startswith(b"NO 18 ") and version < self.newest()
        return b"OK %d %d\n" % (version, self.newest()) if gone else reply


class TellsOldNews(Simulated):
    """NEWS answers by a version from before the newest one"""

    def news(self, caller):
        return max(len(conduct.LOADED), self.newest() - 3)


class TellsNewsOfThePin(Simulated):
    """NEWS tells the newest version, and answers by that to which the session is pinned"""

    def reply(self, caller, request):
        reply = super().reply(caller, request)
        if not request.startswith(b"NEWS ") or not reply.startswith(b"NEWS "):
            return reply
        session = caller.model.sessions[request.split()[1]]
        index, name = caller.model.news(session.standing, session.version).split()[1:3]
        return b"NEWS %s %s %d\n" % (index, name, self.newest())


class TellsNewsOfNow(Simulated):
    """NEWS goes by the session's attributes and requesters as they are now"""

    def reply(self, caller, request):
        session = caller.model.sessions.get(request.split()[1]) if request.startswith(b"NEWS ") else None
        if session and session.standing:
            session.standing = session.standing._replace(requesters=session.requesters, attributes=session.attributes)
        return super().reply(caller, request)


class NeedsOneMore(Simulated):
    """of the critical credentials the last one isn't told"""

    def reply(self, caller, request):
        reply = super().reply(caller, request)
        lines = reply.splitlines(True)
        if not reply.startswith(b"CRITICAL ") or len(lines) < 3:
            return reply
        index, count = lines[0].split()[1:]
        return b"CRITICAL %s %d\n" % (index, int(count) - 1) + b"".join(lines[1:-2]) + lines[-1]


FAULTS = [
    MakesABatchInParts, DoesARefusedBatchInPart, RefusesABatch, LogsInAnotherOrder, LogsAnotherText, PinsTheNewest, RetainsFewer,
    RetainsMore, LosesAnUpdate, TellsTwoSets, GivesAVersionTwice, SkipsAVersion, AddsTwice, PinsBack, PinsLate, AnswersNewest, TellsNewest,
    DropsTheGone, KeepsTheDropped, RefusesADrop, ForgetsPrivate, CountsHalfABlock, TellsAnotherId, LeavesOutARow,
    TellsOldNews, TellsNewsOfThePin, TellsNewsOfNow, NeedsOneMore,
]


class Run:
    """Clients whose bursts of requests are answered in a drawn order, one by one."""

    def __init__(self, make, seed):
        self.texts, self.rng, self.time = conduct.Texts(), random.Random(seed), 0
        self.simulated = make(self.texts)
        self.clients = [conduct.Conduct(name, self.texts, seed * 100 + i) for i, name in enumerate(conduct.CLIENTS[:4])]
        self.callers = {client.name: Caller(client.name, self.simulated) for client in self.clients}
        self.transcripts = {client.name: Transcript(client.name, []) for client in self.clients}
        self.queues = {client.name: collections.deque() for client in self.clients}

    def tick(self):
        self.time += 1
        return float(self.time)

    def fill(self, client):
        """A client's next burst, once all replies to the last one are there."""
        queue, said = self.queues[client.name], self.transcripts[client.name].exchanges
        if not queue:
            requests = client.burst(BURST) if said else client.start()
            sent = self.tick()
            queue.extend((request, sent) for request in requests)

    def step(self):
        client = self.rng.choice(self.clients)
        self.fill(client)
        request, sent = self.queues[client.name].popleft()
        reply = self.simulated.reply(self.callers[client.name], request)
        self.transcripts[client.name].exchanges.append(Exchange(request, reply, sent, self.tick()))
        client.learn(request, reply)

    def speak_alone(self, name, requests):
        """A connection that sends one request after the other."""
        caller, transcript = Caller(name, self.simulated), Transcript(name, [])
        for request in requests:
            sent = self.tick()
            transcript.exchanges.append(Exchange(request, self.simulated.reply(caller, request), sent, self.tick()))
        self.transcripts[name] = transcript

    def cut_off(self, counts):
        """A client whose last ADD is answered to nobody: it counts, or it was never read."""
        other = conduct.Conduct(conduct.OTHERS[0], self.texts, 7)
        self.speak_alone(other.name, [b"ADMIN 733363726574\n", b"OPEN\n", conduct.block(b"ADD", other.credential())])
        unread = conduct.block(b"ADD", other.credential())
        sent = self.tick()
        if counts:
            self.simulated.add(Caller(other.name, self.simulated), self.texts.signed()[-1])
        self.transcripts[other.name].exchanges.append(Exchange(unread, None, sent, self.tick()))

    def play(self):
        for _ in range(REQUESTS * len(self.clients)):
            self.step()
            if self.time % 200 == 0:
                self.simulated.half_block(Caller("c0", self.simulated), conduct.LOADED[2])
        # what was drawn and not answered is never sent
        self.speak_alone("prober", [b"OPEN\n", b"SET 1 level 9\n", *conduct.probes(self.texts.signed())])

    def faults(self):
        transcripts = list(self.transcripts.values())
        return history.judge(transcripts, conduct.LOADED, self.texts, self.simulated.newest())[0]


def swap_updates(run):
    """two updates of a client stand there the other way round"""
    for transcript in run.transcripts.values():
        said = transcript.exchanges
        places = [i for i, e in enumerate(said) if e.request.startswith(b"ADD ") and e.reply.startswith(b"OK")]
        if len(places) > 1:
            one, two = places[:2]
            said[one], said[two] = said[one]._replace(reply=said[two].reply), said[two]._replace(reply=said[one].reply)
            return


def lose_a_reply(run):
    """a reply stands at another request"""
    said = run.transcripts["c0"].exchanges
    said[5:] = [e._replace(reply=next_one.reply) for e, next_one in zip(said[5:], said[6:])]


def is_refused(run):
    run.play()
    return bool(run.faults())


def try_checker():
    """Pairs of what is tried and why it fails, or nothing."""
    for seed in range(3):
        run = Run(Simulated, seed)
        run.play()
        yield f"a run without a fault is accepted, seed {seed}", "; ".join(run.faults())
    for counts in (True, False):
        run = Run(Simulated, 5)
        run.play()
        run.cut_off(counts)
        yield f"an update whose reply nobody read {'counts' if counts else 'may not count'}", "; ".join(run.faults())
    for fault in FAULTS:
        runs = (Run(fault, seed) for seed in range(1, RUNS + 1))
        yield f"refused: {fault.__doc__}", "" if any(map(is_refused, runs)) else "the checker accepts it"
    for change in (swap_updates, lose_a_reply):
        run = Run(Simulated, 2)
        run.play()
        change(run)
        yield f"refused: {change.__doc__}", "" if run.faults() else "the checker accepts it"
