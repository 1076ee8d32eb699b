"""Wrong verifiers of transcripts, each with one fault: what the program tells has to be unlike what they tell."""

import re

from modelling import wire
from modelling.daemon import Refusal, Session
from modelling.replies import LINE
from modelling.transcripts import MISSING, REST, TEXT, WRONG, Asked, Fault, Verified, Verifier

NO_MEMORY = b"NOMEM\n"


class TakesRefusedUpdates(Verifier):
    """a text that the authenticator refuses is added all the same"""

    def answer_add(self, text):
        try:
            return super().answer_add(text)
        except Refusal as why:
            if why.text.startswith(b"7 auth"):
                self.update([text])
            raise


class TakesRefusedBatches(Verifier):
    """of a batch of which an item is refused the items before that one are made"""

    def update(self, changes):
        try:
            return super().update(changes)
        except Refusal as why:
            before = changes[:int(why.text.split(b" ")[2]) - 1]
            if before:
                self.updates.append(list(before))
            raise


class MakesNoUpdates(Verifier):
    """updates that are accepted by their replies aren't made"""

    def permits(self, request, told):
        judge = self.fork() if request.kind in ("add", "drop", "batch") else self
        return Verifier.permits(judge, request, told)


class LeavesTheLastReply(Verifier):
    """the last reply isn't looked at"""

    def go_on(self, requests, replies):
        self.last = len(requests)
        return super().go_on(requests, replies)

    def permits(self, request, told):
        return self.answered + 1 == self.last or super().permits(request, told)


class TakesNoMemoryAnywhere(Verifier):
    """NOMEM may be the reply to any request"""

    def may_lack_memory(self, request):
        return True


class TakesNoMemoryToClose(Verifier):
    """NOMEM may be the reply to CLOSE"""

    def may_lack_memory(self, request):
        return request.kind == "close" or super().may_lack_memory(request)


class TakesNoMemoryToNothing(Verifier):
    """NOMEM is no reply that is permitted"""

    def may_lack_memory(self, request):
        return False


class MakesWhatLackedMemory(Verifier):
    """a request that had NOMEM changes the state all the same"""

    def permits(self, request, told):
        is_kept = request.kind in ("query", "add", "drop", "batch") or not self.may_lack_memory(request)
        if told == NO_MEMORY and not is_kept:
            self.reply(request)
        return super().permits(request, told)


class BelievingAsked(Asked):
    def proves(self, index, rows, told):
        return True


class BelievesValues(Verifier):
    """the index of a VALUE reply is believed"""

    def answer_query(self, s, names):
        session = self.session(s)
        return BelievingAsked(self, session, self.values(names))


class UnnamedAsked(Asked):
    def is_name(self, index, name):
        return index < len(self.values)


class BelievesNames(Verifier):
    """the name of a VALUE reply is believed"""

    def answer_query(self, s, names):
        session = self.session(s)
        return UnnamedAsked(self, session, self.values(names))


class UnversionedAsked(Asked):
    def is_version(self, version):
        return True


class BelievesVersions(Verifier):
    """the version of a VALUE reply is believed"""

    def answer_query(self, s, names):
        session = self.session(s)
        return UnversionedAsked(self, session, self.values(names))


class NewestAsked(Asked):
    def is_version(self, version):
        return version == self.verifier.newest()


class TakesValuesOfTheNewest(Verifier):
    """a VALUE reply has to tell the newest version"""

    def answer_query(self, s, names):
        session = self.session(s)
        return NewestAsked(self, session, self.values(names))


class LeavesTheRest(Verifier):
    """bytes behind the last reply are passed over"""

    def end(self, replies):
        return Verified(self.answers, self.newest())


class CountsRestInReplies(Verifier):
    """the place of bytes behind the last reply counts replies"""

    def end(self, replies):
        told = super().end(replies)
        return Fault(REST, self.answered) if isinstance(told, Fault) else told


class CountsRestInLine(Verifier):
    """the place of bytes behind the last reply is the end of the replies"""

    def end(self, replies):
        told = super().end(replies)
        return Fault(REST, len(replies)) if isinstance(told, Fault) else told


class CountsFromZero(Verifier):
    """requests are counted from 0"""

    def step(self, request, replies):
        fault = super().step(request, replies)
        return fault and Fault(fault.number, fault.place - 1)


class JudgesForeign(Verifier):
    """a request that isn't judged is told only where it has a reply"""

    def step(self, request, replies):
        if self.is_foreign(request) and self.at == len(replies):
            return Fault(MISSING, self.answered + 1)
        return super().step(request, replies)


class ReadsForeignFirst(Verifier):
    """requests that aren't judged are looked for before any reply is"""

    def go_on(self, requests, replies):
        found = next((number for number, it in enumerate(requests, 1) if self.is_foreign(it)), None)
        return Fault(5, found) if found else super().go_on(requests, replies)


class SkipsForeign(Verifier):
    """requests that aren't judged are passed over with their replies"""

    def is_foreign(self, request):
        return False

    def permits(self, request, told):
        return super().is_foreign(request) or super().permits(request, told)


class TellsMissingAsText(Verifier):
    """where the replies have ended no text of a reply stands"""

    def step(self, request, replies):
        fault = super().step(request, replies)
        return Fault(TEXT, fault.place) if fault and fault.number == MISSING else fault


class TellsTextAsMissing(Verifier):
    """a reply that breaks off is missing"""

    def step(self, request, replies):
        fault = super().step(request, replies)
        broken = fault and fault.number == TEXT and b"\n" not in replies[self.at:]
        return Fault(MISSING, fault.place) if broken else fault


class TakesAnyLine(Verifier):
    """any line is the text of a reply"""

    def end_of_reply(self, replies):
        return super().end_of_reply(replies) or replies.find(b"\n", self.at) + 1 or None


class TakesNoOtherText(Verifier):
    """a text that isn't permitted is none of a reply"""

    def step(self, request, replies):
        fault = super().step(request, replies)
        return Fault(TEXT, fault.place) if fault and fault.number == WRONG else fault


class ReadsTextsFirst(Verifier):
    """all texts of replies are read before the first one is judged"""

    def go_on(self, requests, replies):
        at = self.at
        for request, number in zip(requests, range(1, len(requests) + 1)):
            self.at = at
            if self.is_foreign(request) or at == len(replies):
                break
            end = self.end_of_reply(replies)
            if end is None:
                return Fault(TEXT, number)
            at = end
        self.at = 0
        return super().go_on(requests, replies)


class TakesCarriageReturns(Verifier):
    """a line of a reply may end with a carriage return and a newline"""

    def verify(self, script, replies):
        return super().verify(script, replies.replace(b"\r\n", b"\n"))


class NeedsNoLastNewline(Verifier):
    """the last newline of the replies may be missing"""

    def verify(self, script, replies):
        return super().verify(script, replies if replies.endswith(b"\n") else replies + b"\n")


class TakesZeros(Verifier):
    """a number may have leading zeros"""

    def end_of_reply(self, replies):
        line = re.sub(rb"\b0+([0-9])", rb"\1", replies[self.at:self.at + 200].split(b"\n")[0]) + b"\n"
        return replies.find(b"\n", self.at) + 1 if LINE.fullmatch(line) else super().end_of_reply(replies)


class TakesAnyAdmin(Verifier):
    """each ADMIN is taken as right"""

    def answer_admin(self, digits):
        told = b"OK\n" if self.is_secret else b"NO 4 admin\n"
        self.is_admin = True
        return told


class TakesAdminBack(Verifier):
    """a wrong ADMIN takes back an earlier right one"""

    def answer_admin(self, digits):
        self.is_admin = False
        return super().answer_admin(digits)


class KeepsASecret(Verifier):
    """of two ADMIN of one secret both have to be right, or none"""

    secrets = None

    def answer_admin(self, digits):
        self.secrets = self.secrets or {}
        if self.secrets.setdefault(digits, self.is_secret) != self.is_secret:
            return None
        return super().answer_admin(digits)


class KeepsVerdicts(Verifier):
    """a text that an authenticator refused has to be refused again"""

    refused = frozenset()

    def refuse_unadmitted(self, text):
        if text in self.verdicts:
            self.refused = self.refused | {text}
        elif text in self.refused:
            raise Refusal(b"7 auth 0")
        super().refuse_unadmitted(text)


class TakesHigherVerdicts(Verifier):
    """an authenticator may have any fault"""

    def believe(self, request, told):
        super().believe(request, told)
        found = re.fullmatch(rb"NO 7 auth ([1-9][0-9]*)\n", told)
        if request.kind == "add" and found:
            self.verdicts = {request.parts[0]: int(found[1])}


class TakesFewerVerdicts(Verifier):
    """an authenticator has at most four faults"""

    def believe(self, request, told):
        super().believe(request, told)
        self.verdicts = {text: fault for text, fault in self.verdicts.items() if fault < 5}


class AsksNoVerdicts(Verifier):
    """an authenticator admits all texts"""

    def believe(self, request, told):
        super().believe(request, told)
        self.verdicts = {}


class TakesVerdictsOfAnyItem(Verifier):
    """of two items with one text the later one may be refused by the authenticator"""

    def believe(self, request, told):
        super().believe(request, told)
        found = re.fullmatch(rb"NO 17 item ([0-9]+) 7 auth [1-5]\n", told)
        self.item = int(found[1]) if found and request.kind == "batch" else 0

    def admit(self, changes):
        if not self.verdicts:
            return super().admit(changes)
        kept, self.verdicts = self.verdicts, {}
        super().admit(changes[:self.item - 1])
        self.verdicts = kept
        return self.admit_last(changes)

    def admit_last(self, changes):
        try:
            if not isinstance(changes[self.item - 1], int):
                self.refuse_unadmitted(changes[self.item - 1])
        except Refusal as why:
            raise Refusal(b"17 item %d %s" % (self.item, why.text)) from None


class ReadsTextsBehindVerdicts(Verifier):
    """a text that isn't read may be refused by the authenticator"""

    def refuse_unadmitted(self, text):
        if text in self.verdicts:
            raise Refusal(b"7 auth %d" % self.verdicts[text])
        self.read(text)


class JudgesNoAdmins(Verifier):
    """updates need no right ADMIN"""

    def need_admin(self):
        pass


class GoesOnBehindBye(Verifier):
    """requests behind BYE are meant too"""

    def requests(self, script):
        requests, at = [], 0
        while taken := wire.take_request(script, at):
            request, at = taken
            requests.append(request)
        return requests


class CountsQueries(Verifier):
    """the answers that are told count the replies to QUERY, with its refusals"""

    def step(self, request, replies):
        before, fault = self.answers, super().step(request, replies)
        self.answers = before + (request.kind == "query" and not fault)
        return fault


class CountsChanges(Verifier):
    """the version that is told counts the changes of all updates"""

    def end(self, replies):
        told = super().end(replies)
        return told if isinstance(told, Fault) else Verified(told.answers, self.store().changes)


class CountsOwnUpdates(Verifier):
    """the version that is told counts the connection's updates alone"""

    def end(self, replies):
        told = super().end(replies)
        return told if isinstance(told, Fault) else Verified(told.answers, told.version - len(self.texts))

    def __init__(self, policy, readings, known):
        super().__init__(policy, readings, known)
        self.texts = policy


class OpensAtThePolicy(Verifier):
    """a session is opened at the version of the policy"""

    def __init__(self, policy, readings, known):
        super().__init__(policy, readings, known)
        self.first = len(policy)

    def answer_open(self):
        told = super().answer_open()
        self.sessions[self.opened] = Session(self.first)
        return told


class ForgetsOlderVersions(Verifier):
    """15 versions are retained, and not 16"""

    def is_kept(self, version):
        return max(0, self.newest() - 14) <= version <= self.newest()


class NumbersSessionsAnew(Verifier):
    """a session that is closed makes its number free"""

    def answer_close(self, s):
        told = super().answer_close(s)
        self.opened = max(self.sessions, default=0)
        return told


class NumbersPrivatesAnew(Verifier):
    """a private assertion that is retracted makes its number free"""

    def answer_retract(self, s, k):
        told = super().answer_retract(s, k)
        session = self.session(s)
        session.asserted = max(session.private, default=0)
        return told


class CountsLiveAdditions(Verifier):
    """the id of an addition counts those that are live"""

    def store(self, version=None):
        store = super().store(version)
        store.additions = max(store.live, default=0)
        return store


FAULTS = [it for it in Verifier.__subclasses__() if it.__name__ != "Learner"]
