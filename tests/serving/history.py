"""Whether what all clients saw is one history of updates, and their replies those of a daemon of one thread at places of it.

Each version that anybody was told is made by one request. Versions follow one another without a gap; one that nobody was
told is made by a request whose reply was never read. Each client's updates stand there once and in order. No reply tells a
version that is older than one that was told before its request was sent, or newer than all that was asked for when it
came. Each connection is then replayed over the credentials that its versions have.
"""

import bisect
import collections
import itertools
import re

import protocol
from serving import daemon
from serving.daemon import Fault

# a request, its reply (None where none was read whole), and the seconds at which the one was sent and the other was there
Exchange = collections.namedtuple("Exchange", "request reply sent heard")
# the exchanges of one connection of a client
Transcript = collections.namedtuple("Transcript", "client exchanges")
Update = collections.namedtuple("Update", "client exchange")
UPDATE = re.compile(rb"UPDATE (\d+) (\d+)\n")
# where a reply that isn't OK tells the newest version
NEWEST = re.compile(rb"(?:NO 18 retained|NO 19 ahead|LOG \d+ \d+|NEWS \d+ \S+) (\d+)\n")
# an item that was refused because what it names isn't there
UNKNOWN = re.compile(rb"NO (?:17 item (\d+) )?12 unknown\n")
# the most faults that are told
SHOWN = 10


def word_of(exchange):
    return exchange.request.split(None, 1)[0] if exchange.request.strip() else b""


def is_ok(exchange):
    return exchange.reply is not None and exchange.reply.startswith(b"OK")


def block_of(exchange):
    return exchange.request.partition(b"\n")[2][:-1]


def is_update(exchange):
    return word_of(exchange) in (b"ADD", b"DROP", b"BATCH")


def is_placed(exchange):
    return word_of(exchange) in (b"OPEN", b"PIN", b"LOG", b"NEWS") or is_update(exchange)


def items_of(exchange):
    """The changes that an update asks for: each a text and None, or None and a number."""
    if word_of(exchange) == b"ADD":
        return [(block_of(exchange), None)]
    if word_of(exchange) == b"DROP":
        return [(None, int(exchange.request[6:-1]))]
    return protocol.split_items(block_of(exchange), 0, daemon.ITEMS)[0]


def told_version(exchange):
    """The newest version as this exchange tells it, or None."""
    if exchange.reply is None or not is_placed(exchange):
        return None
    other = NEWEST.match(exchange.reply)
    if other and word_of(exchange) in (b"PIN", b"LOG", b"NEWS"):
        return int(other[1])
    return daemon.last_number(exchange.reply) if is_ok(exchange) else None


class History:
    """The updates behind the loaded assertions, and the credentials of each version."""

    def __init__(self, loaded, texts):
        self.texts = texts
        self.loaded, self.additions = len(loaded), len(loaded)
        self.updates = [None] * len(loaded)
        self.versions = [{f"a{i + 1}": a for i, a in enumerate(loaded[:n])} for n in range(len(loaded) + 1)]
        # of each id the first versions with and without it
        self.born = {name: n for n, name in enumerate(self.versions[-1], 1)}
        self.gone = {}

    def length(self):
        return len(self.updates)

    def credentials(self, version):
        if not 0 <= version <= self.length():
            raise Fault(f"version {version} is told, and there are {self.length()}")
        return self.versions[version]

    def append(self, update):
        version, live, first = self.length() + 1, dict(self.versions[-1]), self.additions + 1
        for text, number in items_of(update.exchange):
            if text is not None:
                self.additions += 1
                name = f"a{self.additions}"
                live[name] = self.texts[text]
                self.born[name] = version
            else:
                name = f"a{number}"
                if live.pop(name, None) is None:
                    raise Fault(f"version {version} drops {name}, which isn't there")
                self.gone[name] = version
        told = {b"ADD": b"OK a%d %d\n" % (first, version), b"DROP": b"OK %d\n" % version}
        due = told.get(word_of(update.exchange), b"OK a%d %d %d\n" % (first, self.additions + 1 - first, version))
        if is_ok(update.exchange) and update.exchange.reply != due:
            raise Fault(f"{update.client} is told {update.exchange.reply!r}, and {due!r} is due")
        self.updates.append(update)
        self.versions.append(live)

    def items(self, version):
        """The changes of the update that made this version."""
        update = self.updates[version - 1]
        return items_of(update.exchange) if update else [(self.versions[version][f"a{version}"].text, None)]

    def is_always_live(self, name, least, most):
        """Whether this credential is in each version between these two."""
        return self.born.get(name, most + 1) <= least and most < self.gone.get(name, most + 1)


def updates_told(transcripts):
    """The updates by the versions that their replies tell."""
    told = {}
    for transcript in transcripts:
        for exchange in filter(is_update, transcript.exchanges):
            version = told_version(exchange)
            if version in told:
                raise Fault(f"version {version} is told of two updates, of {told[version].client} and {transcript.client}")
            if version is not None:
                told[version] = Update(transcript.client, exchange)
    return told


def authors_told(transcripts):
    """The authorizers of shared credentials, by the rows of all proofs."""
    authors = {}
    for transcript in transcripts:
        values = (e.reply for e in transcript.exchanges if e.reply is not None and e.reply.startswith(b"VALUE "))
        for name, who in itertools.chain.from_iterable((row[1:] for row in daemon.read_value(value)[3]) for value in values):
            if name.startswith("a") and authors.setdefault(name, who) != who:
                raise Fault(f"{name} is by {who} in one reply and by {authors[name]} in another")
    return authors


class Unread:
    """The updates whose replies nobody read: each connection's in their order."""

    def __init__(self, transcripts, authors):
        self.authors = authors
        self.queues = [
            collections.deque(Update(t.client, e) for e in t.exchanges if is_update(e) and e.reply is None) for t in transcripts
        ]

    def fits(self, update, history):
        live, additions = set(history.versions[-1]), history.additions
        for text, number in items_of(update.exchange):
            if text is None and f"a{number}" not in live:
                return False
            if text is None:
                live.remove(f"a{number}")
                continue
            additions += 1
            live.add(f"a{additions}")
            assertion, author = history.texts[text], self.authors.get(f"a{additions}")
            if not isinstance(assertion, daemon.Assertion) or author not in (None, assertion.authorizer):
                return False
        return True

    def take(self, history):
        """The one update that can be the next of the history."""
        fitting = [queue for queue in self.queues if queue and self.fits(queue[0], history)]
        if len(fitting) != 1:
            raise Fault(f"version {history.length() + 1} is made by none of the requests" if not fitting else f"version {history.length() + 1} may be made by several requests")
        return fitting[0].popleft()


def read_history(transcripts, loaded, texts, last):
    """The one history that these transcripts tell. `last` is its length, where something else tells that."""
    told = updates_told(transcripts)
    versions = [told_version(e) for t in transcripts for e in t.exchanges]
    end = max(itertools.chain([len(loaded), last or 0], (v for v in versions if v is not None)))
    if last is not None and end != last:
        raise Fault(f"version {end} is told, and the last one is {last}")
    history, unread = History(loaded, texts), Unread(transcripts, authors_told(transcripts))
    while history.length() < end:
        history.append(told.get(history.length() + 1) or unread.take(history))
    if any(version <= len(loaded) for version in told):
        raise Fault("an update is told a version of the policy file")
    return history


def order_faults(transcripts):
    """Each client's updates stand in the history in the order in which it asked for them."""
    newest = {}
    for transcript in sorted(transcripts, key=lambda t: t.exchanges[0].sent if t.exchanges else 0.0):
        for exchange in filter(is_update, transcript.exchanges):
            version = told_version(exchange)
            if version is None:
                continue
            if version <= newest.get(transcript.client, 0):
                yield f"{transcript.client} is told version {version} of an update behind version {newest[transcript.client]}"
            newest[transcript.client] = version


def fall_faults(transcripts):
    """What a connection is told never goes back: a request stands at no place before that of the request before it."""
    for transcript in transcripts:
        versions = [v for v in map(told_version, transcript.exchanges) if v is not None]
        for before, behind in itertools.pairwise(versions):
            if behind < before:
                yield f"{transcript.client} is told version {behind} behind version {before} on one connection"


class Clock:
    """Which versions were told at what time."""

    def __init__(self, transcripts, history):
        told = [(e.heard, told_version(e), e.sent) for t in transcripts for e in t.exchanges]
        told = sorted(entry for entry in told if entry[1] is not None)
        self.heard = [entry[0] for entry in told]
        self.newest = list(itertools.accumulate((entry[1] for entry in told), max))
        later = sorted((entry[2], entry[1]) for entry in told)
        self.sent = [entry[0] for entry in later]
        self.oldest = list(itertools.accumulate((entry[1] for entry in reversed(later)), min))[::-1]
        # when the last of the first updates was asked for
        asked = (update.exchange.sent if update else 0.0 for update in history.updates)
        self.asked = list(itertools.accumulate(asked, max))
        self.first, self.last = history.loaded, history.length()

    def bounds(self, exchange):
        """The least and the greatest number of updates at which this exchange can stand."""
        before = bisect.bisect_left(self.heard, exchange.sent)
        least = self.newest[before - 1] if before else self.first
        behind = bisect.bisect_right(self.sent, exchange.heard)
        most = self.oldest[behind] if behind < len(self.oldest) else self.last
        return least, min(most, bisect.bisect_left(self.asked, exchange.heard))


def time_faults(transcripts, history):
    """No reply goes against what was told before its request, or tells what nobody had asked for yet."""
    clock = Clock(transcripts, history)
    for transcript in transcripts:
        for exchange in transcript.exchanges:
            if exchange.reply is None or not is_placed(exchange):
                continue
            version = told_version(exchange)
            least, most = clock.bounds(exchange)
            if version is not None and not least <= version <= most:
                yield f"{transcript.client} is told version {version} where {least} to {most} is due"
            name = refused_name(exchange)
            if name and history.is_always_live(name, least, most):
                yield f"{transcript.client} is refused {name}, which is there from version {least} to {most}"


def refused_name(exchange):
    """The id that this update is told isn't there, where no item before it in its batch drops it too."""
    unknown = UNKNOWN.fullmatch(exchange.reply) if is_update(exchange) else None
    if not unknown:
        return None
    items, at = items_of(exchange), int(unknown[1] or 1) - 1
    return f"a{items[at][1]}" if items[at] not in items[:at] else None


def log_faults(transcripts, history):
    """Each log tells the updates of the history, those of the policy file by caller 0 and no others."""
    for transcript in transcripts:
        for exchange in transcript.exchanges:
            if word_of(exchange) != b"LOG" or not exchange.reply or not exchange.reply.startswith(b"LOG "):
                continue
            version, at = int(exchange.request[4:-1]), exchange.reply.index(b"\n") + 1
            while update := UPDATE.match(exchange.reply, at):
                version += 1
                items, at = protocol.split_items(exchange.reply, update.end(), int(update[2]))
                if version > history.length() or items != history.items(version):
                    yield f"{transcript.client} is told another update of version {version} than made it"
                elif (update[1] == b"0") != (version <= history.loaded):
                    yield f"{transcript.client} is told that caller {update[1].decode()} made version {version}"


def replay(transcript, history):
    """The queries that a connection asked; a fault where a reply isn't the model's."""
    connection = daemon.Connection(history.texts, history.credentials)
    for exchange in transcript.exchanges:
        if exchange.reply is None:
            continue
        try:
            expected = connection.expected(exchange.request, exchange.reply)
        except Fault as why:
            raise Fault(f"{transcript.client}: {exchange.request!r:.80} is answered {exchange.reply!r:.120}: {why}") from None
        if expected != exchange.reply:
            raise Fault(f"{transcript.client}: {exchange.request!r:.80} is answered {exchange.reply!r:.120}, and not {expected!r:.120}")
    return connection.asked


def judge(transcripts, loaded, texts, last=None):
    """The faults of what all clients saw, the history, and the queries that were answered."""
    try:
        history = read_history(transcripts, loaded, texts, last)
    except Fault as why:
        return [str(why)], None, []
    parts = order_faults(transcripts), fall_faults(transcripts), time_faults(transcripts, history), log_faults(transcripts, history)
    told = itertools.chain(*parts)
    faults = list(itertools.islice(told, SHOWN))
    asked = []
    for transcript in transcripts:
        try:
            asked += replay(transcript, history)
        except Fault as why:
            faults.append(str(why))
    return faults[:SHOWN], history, asked
