"""Wrong models, each with one fault: what the program answers has to be told from what they answer."""

from modelling import wire
from modelling.daemon import LOGGED, Daemon, Refusal, Session, Store
from modelling.reading import normal_form


class CountsRemovalsInIds(Daemon):
    """the ids of additions count the removals before them"""

    def answer_add(self, text):
        reply = super().answer_add(text)
        return b"OK a%d %d\n" % (self.store().changes, self.newest()) if reply.startswith(b"OK") else reply


class TellsTheFirstChange(Daemon):
    """a batch tells the id of its first change, which may be a removal"""

    def answer_batch(self, block):
        reply = super().answer_batch(block)
        first = self.updates[-1][0]
        return reply if isinstance(first, bytes) else b"OK a%d %s" % (first, reply.split(b" ", 2)[2])


class TellsTheLastAddition(Daemon):
    """a batch tells the number of additions before it, and not the one behind that"""

    def answer_batch(self, block):
        words = super().answer_batch(block).split(b" ")
        return b"OK a%d %s %s" % (int(words[1][1:]) - 1, words[2], words[3])


class CountsAllChanges(Daemon):
    """a batch tells the number of its changes in place of that of its additions"""

    def answer_batch(self, block):
        words = super().answer_batch(block).split(b" ")
        return b"%s %s %d %s" % (words[0], words[1], len(self.updates[-1]), words[3])


class JudgesRemovalsBefore(Daemon):
    """a removal in a batch is judged by what was there before the batch"""

    def answer_batch(self, block):
        self.need_admin()
        store = self.store()
        try:
            changes = wire.split_items(block)
        except wire.BatchFault:
            return super().answer_batch(block)
        self.admit(changes)
        for at, change in enumerate(changes, 1):
            if not isinstance(change, bytes) and change not in store.live:
                raise Refusal(b"17 item %d 12 unknown" % at)
        return super().answer_batch(block)


class TriesItemsInTurn(Daemon):
    """each item of a batch is read, authenticated and made before the next one is read"""

    def admit(self, changes):
        store = self.store()
        for at, change in enumerate(changes, 1):
            fault = store.fault(change)
            if fault:
                raise Refusal(b"17 item %d %s" % (at, fault))
            super().admit([change] if at == 1 else changes[:at])
            store.make(change)


class MakesARefusedBatchInPart(Daemon):
    """of a batch that is refused the items before the refused one are made"""

    def update(self, changes):
        try:
            return super().update(changes)
        except Refusal as why:
            done = int(why.text.split(b" ")[2]) - 1
            if done:
                self.updates.append(list(changes[:done]))
            raise


class MakesAVersionForEachItem(Daemon):
    """a batch makes a version for each of its changes"""

    def update(self, changes):
        told = super().update(changes)
        self.updates[-1:] = [[change] for change in changes]
        return told


class LooksAtTheFormFirst(Daemon):
    """the form of a batch is looked at before whether an administrator asks"""

    def answer_batch(self, block):
        try:
            wire.split_items(block)
        except wire.BatchFault as why:
            raise Refusal(b"16 batch %d" % why.args) from None
        return super().answer_batch(block)


class TellsTheLastOfTooManyItems(Daemon):
    """a block of more than 256 items departs at item 256"""

    def answer_batch(self, block):
        try:
            return super().answer_batch(block)
        except Refusal as why:
            raise Refusal(why.text.replace(b"batch 257", b"batch 256")) from None


class TakesAnEmptyBatch(Daemon):
    """a batch without items is an update"""

    def answer_batch(self, block):
        self.need_admin()
        if block:
            return super().answer_batch(block)
        before, behind = self.update([])
        return b"OK a%d %d %d\n" % (before + 1, behind - before, self.newest())


class PinsTheNewest(Daemon):
    """PIN s v tells v, and pins the session to the newest version"""

    def answer_pin_at(self, s, version):
        reply = super().answer_pin_at(s, version)
        self.session(s).version = self.newest()
        return reply


class TellsThePinnedTwice(Daemon):
    """PIN s v tells v in place of the newest version"""

    def answer_pin_at(self, s, version):
        super().answer_pin_at(s, version)
        return b"OK %s %s\n" % (version, version)


class KeepsFifteen(Daemon):
    """15 versions are kept"""

    def is_kept(self, version):
        return max(0, self.newest() - 14) <= version <= self.newest()


class KeepsSeventeen(Daemon):
    """17 versions are kept"""

    def is_kept(self, version):
        return max(0, self.newest() - 16) <= version <= self.newest()


class KeepsNoVersionZero(Daemon):
    """version 0 isn't kept"""

    def is_kept(self, version):
        return super().is_kept(version) and version > 0


class ForgetsOldVersions(Daemon):
    """a session whose version is kept no longer is asked at the oldest one that is"""

    def queried_version(self, session):
        return max(session.version, self.newest() - 15)


class AsksTheNewest(Daemon):
    """a query goes by the newest version"""

    def queried_version(self, session):
        return self.newest()


class LogsNoRemovals(Daemon):
    """the log leaves out removals"""

    def answer_log(self, n):
        all_of_them = self.updates
        self.updates = [[change for change in changes if isinstance(change, bytes)] for changes in all_of_them]
        try:
            return super().answer_log(n)
        finally:
            self.updates = all_of_them


class LogsFifteen(Daemon):
    """the log tells at most 15 updates"""

    def answer_log(self, n):
        reply = super().answer_log(n)
        told = min(LOGGED - 1, self.newest() - int(n))
        kept = self.updates[int(n):int(n) + told]
        text = b"LOG %d %d %d\n" % (int(n), told, self.newest())
        text += b"".join(b"UPDATE 0 %d\n" % len(it) + b"".join(map(wire.spell_item, it)) for it in kept) + b"END\n"
        return text if reply.startswith(b"LOG") else reply


class LogsFromOneBefore(Daemon):
    """the log begins with update n"""

    def answer_log(self, n):
        reply, before = super().answer_log(n), max(0, int(n) - 1)
        return super().answer_log(b"%d" % before).replace(b"LOG %d " % before, b"LOG %s " % n, 1) if int(n) else reply


class RefusesTheEndOfTheLog(Daemon):
    """LOG of the newest version is refused"""

    def answer_log(self, n):
        self.need_admin()
        if int(n) == self.newest():
            raise Refusal(b"19 ahead %d" % self.newest())
        return super().answer_log(n)


class LogsForAnybody(Daemon):
    """LOG wants no administrator"""

    def answer_log(self, n):
        was, self.is_admin = self.is_admin, True
        try:
            return super().answer_log(n)
        finally:
            self.is_admin = was


class TakesBackAnAdmin(Daemon):
    """a wrong ADMIN takes back a right one"""

    def answer_admin(self, digits):
        self.is_admin = False
        return super().answer_admin(digits)


class UsesPrivateIdsAgain(Daemon):
    """the id of a private assertion is used again"""

    def answer_assert(self, s, text):
        session = self.session(s)
        session.asserted = max(session.private, default=0)
        return super().answer_assert(s, text)


class UsesSessionsAgain(Daemon):
    """the number of a session is used again"""

    def answer_open(self):
        self.opened = max(self.sessions, default=0)
        return super().answer_open()


class ClearsPrivateAssertions(Daemon):
    """CLEAR takes private assertions away"""

    def answer_clear(self, s):
        self.session(s).private = {}
        return super().answer_clear(s)


class ClearsThePin(Daemon):
    """CLEAR pins the session to the newest version"""

    def answer_clear(self, s):
        session = self.session(s)
        session.version, session.attributes, session.requesters = self.newest(), {}, []
        return b"OK\n"


class ComparesSpellings(Daemon):
    """requesters are compared by how they are spelled"""

    def answer_unauth(self, s, principal):
        self.session(s)
        if principal != normal_form(principal):
            raise Refusal(b"12 unknown")
        return super().answer_unauth(s, principal)


class RefusesWhatIsThere(Daemon):
    """a full session refuses the new value of an attribute that is there"""

    def answer_set(self, s, name, value):
        self.refuse_at(len(self.session(s).attributes), 256, b"attributes")
        return super().answer_set(s, name, value)


class CountsDroppedAsLive(Store):
    """The room of what a batch drops isn't used again by it."""

    def __init__(self, changes=()):
        super().__init__(changes)
        self.before = len(self.live)

    def fault(self, change):
        fault = super().fault(change)
        if isinstance(change, bytes) and not fault and max(self.before, len(self.live)) >= 4096:
            return b"13 limit live 4096"
        return fault


class FreesNoRoom(Daemon):
    """what a batch drops makes no room for what it adds behind that"""

    policy_size = "live"

    def store(self, version=None):
        return CountsDroppedAsLive(change for changes in self.updates[:version] for change in changes)


class LetsLiveGoOn(Daemon):
    """the number of live credentials has no limit"""

    policy_size = "live"

    def update(self, changes):
        before = self.store()
        try:
            return super().update(changes)
        except Refusal as why:
            if b"limit live " not in why.text:
                raise
        self.updates.append(list(changes))
        return before.additions, before.additions + sum(isinstance(change, bytes) for change in changes)


class PinsWhatIsRefused(Daemon):
    """a PIN s v that is refused pins the session to the newest version"""

    def answer_pin_at(self, s, version):
        session = self.session(s)
        if not self.is_kept(int(version)):
            session.version = self.newest()
        return super().answer_pin_at(s, version)


class OpensAtTheOldest(Daemon):
    """OPEN pins to the oldest version that is kept, and tells the newest"""

    def answer_open(self):
        reply = super().answer_open()
        self.sessions[self.opened] = Session(max(0, self.newest() - 15))
        return reply


class PinsByNews(Daemon):
    """NEWS pins the session too"""

    def answer_news(self, s):
        reply = super().answer_news(s)
        self.session(s).version = self.newest()
        return reply


class WatchesTheNewest(Daemon):
    """WATCH answers by the newest version, and not by that of the session"""

    def answer_watch(self, s, names):
        reply = super().answer_watch(s, names)
        standing = self.standing(s)
        standing.version = self.newest()
        return self.news(standing) if reply.startswith(b"NEWS") else reply


class StaysWhereItWasWatched(Daemon):
    """NEWS tells the newest version, and answers by that of WATCH"""

    def answer_news(self, s):
        standing = self.standing(s)
        index = self.equations(standing, standing.values, standing.version).least().get(b"POLICY", 0)
        return b"NEWS %d %s %d\n" % (index, standing.values[index], self.newest())


class StandsAtThePin(Daemon):
    """NEWS answers by the version to which the session is pinned"""

    def answer_news(self, s):
        self.standing(s).version = self.session(s).version
        return self.news(self.standing(s))


class SharesAttributes(Daemon):
    """NEWS goes by the session's attributes as they are now"""

    def answer_news(self, s):
        self.standing(s).attributes = self.session(s).attributes
        return super().answer_news(s)


class SharesRequesters(Daemon):
    """NEWS goes by the session's requesters as they are now"""

    def answer_news(self, s):
        self.standing(s).requesters = self.session(s).requesters
        return super().answer_news(s)


class SharesPrivateAssertions(Daemon):
    """NEWS goes by the session's private assertions as they are now"""

    def answer_news(self, s):
        self.standing(s).private = self.session(s).private
        return super().answer_news(s)


class ForgetsPrivateAssertions(Daemon):
    """WATCH keeps no private assertions"""

    def answer_watch(self, s, names):
        super().answer_watch(s, names)
        self.standing(s).private = {}
        return self.news(self.standing(s))


class KeepsTheFirstQuery(Daemon):
    """WATCH answers its query, and keeps an earlier one"""

    def answer_watch(self, s, names):
        before = self.session(s).standing
        reply = super().answer_watch(s, names)
        self.session(s).standing = before or self.session(s).standing
        return reply


class WatchesWhatIsRefused(Daemon):
    """a WATCH that is refused for its values ends the earlier standing query"""

    def answer_watch(self, s, names):
        try:
            return super().answer_watch(s, names)
        except Refusal:
            if int(s) in self.sessions:
                self.session(s).standing = None
            raise


class EndsByClear(Daemon):
    """CLEAR ends the standing query"""

    def answer_clear(self, s):
        self.session(s).standing = None
        return super().answer_clear(s)


class EndsByPin(Daemon):
    """PIN ends the standing query"""

    def answer_pin(self, s):
        self.session(s).standing = None
        return super().answer_pin(s)


class EndsNothingTwice(Daemon):
    """UNWATCH without a standing query is OK"""

    def answer_unwatch(self, s):
        self.session(s).standing = None
        return b"OK\n"


class HasOneForAll(Daemon):
    """a connection has one standing query, whatever its session"""

    def answer_watch(self, s, names):
        reply = super().answer_watch(s, names)
        for session in self.sessions.values():
            session.standing = self.session(s).standing
        return reply


class LooksAtTheValuesFirst(Daemon):
    """the values of CRITICAL are looked at before its session"""

    def answer_critical(self, s, names):
        self.values(names)
        return super().answer_critical(s, names)


class NeedsAllRows(Daemon):
    """CRITICAL tells each assertion that is worth something"""

    def critical_ids(self, equations):
        levels = equations.least()
        held = levels.get(b"POLICY", 0)
        return [name for name in equations.assertions if held and equations.worth(name, levels)]


class NeedsTheLastFirst(Daemon):
    """CRITICAL tells the assertions from the last one to the first"""

    def critical_ids(self, equations):
        return super().critical_ids(equations)[::-1]


class NeedsWhatGivesAnything(Daemon):
    """an assertion is critical only where POLICY has the lowest value without it"""

    def critical_ids(self, equations):
        return [name for name in super().critical_ids(equations) if not equations.least(name).get(b"POLICY", 0)]


class NeedsSharedOnes(Daemon):
    """private assertions are never critical"""

    def critical_ids(self, equations):
        return [name for name in super().critical_ids(equations) if name.startswith(b"a")]


class AsksTheNewestForCritical(Daemon):
    """CRITICAL goes by the newest version"""

    def answer_critical(self, s, names):
        session = self.session(s)
        version, session.version = session.version, self.newest()
        try:
            return super().answer_critical(s, names)
        finally:
            session.version = version


class TakesOneNodeLess(Daemon):
    """CRITICAL is refused from 16,384 nodes on"""

    policy_size = "nodes"

    def refuse_nodes(self, nodes):
        super().refuse_nodes(nodes)
        if nodes == 16384:
            raise Refusal(b"13 limit nodes %d" % nodes)


class TakesAnyNodes(Daemon):
    """CRITICAL takes any number of nodes"""

    policy_size = "nodes"

    def refuse_nodes(self, nodes):
        return


class CountsNoEmptyLicensees(Daemon):
    """missing licensees are no node"""

    policy_size = "nodes"

    def refuse_nodes(self, nodes):
        super().refuse_nodes(nodes - self.empty)

    def equations(self, asker, values, version):
        found = super().equations(asker, values, version)
        self.empty = sum(it.licensees is None for it in found.assertions.values())
        return found


FAULTS = [
    CountsRemovalsInIds, TellsTheFirstChange, TellsTheLastAddition, CountsAllChanges, JudgesRemovalsBefore,
    TriesItemsInTurn, MakesARefusedBatchInPart, MakesAVersionForEachItem, LooksAtTheFormFirst,
    TellsTheLastOfTooManyItems, TakesAnEmptyBatch, PinsTheNewest, TellsThePinnedTwice, KeepsFifteen, KeepsSeventeen,
    KeepsNoVersionZero, ForgetsOldVersions, AsksTheNewest, LogsNoRemovals, LogsFifteen, LogsFromOneBefore,
    RefusesTheEndOfTheLog, LogsForAnybody, TakesBackAnAdmin, UsesPrivateIdsAgain, UsesSessionsAgain,
    ClearsPrivateAssertions, ClearsThePin, ComparesSpellings, RefusesWhatIsThere, FreesNoRoom, LetsLiveGoOn,
    PinsWhatIsRefused, OpensAtTheOldest, PinsByNews, WatchesTheNewest, StaysWhereItWasWatched, StandsAtThePin,
    SharesAttributes, SharesRequesters, SharesPrivateAssertions, ForgetsPrivateAssertions, KeepsTheFirstQuery,
    WatchesWhatIsRefused, EndsByClear, EndsByPin, EndsNothingTwice, HasOneForAll, LooksAtTheValuesFirst, NeedsAllRows,
    NeedsTheLastFirst, NeedsWhatGivesAnything, NeedsSharedOnes, AsksTheNewestForCritical, TakesOneNodeLess,
    TakesAnyNodes, CountsNoEmptyLicensees,
]
