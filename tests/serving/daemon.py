"""A daemon of one thread as a model: what assertions give, what a connection holds, and which reply a request has.

It knows the assertions that these tests make, and no others: their licensees are formulas over plain names, and their
conditions compare the attribute `level` with numbers.
"""

import collections
import hashlib
import hmac
import re

import protocol

ALGORITHM = b"sig-hmac-sha256-hex:"
SECRET = b"733363726574"
SESSIONS = 16
LINE_BYTES = 8192
# items of a batch, versions that PIN can name, updates of a reply to LOG
ITEMS, RETAINED, LOGGED = 256, 16, 16
VALUE = re.compile(rb"VALUE (\d+) (\S+) (\d+) (\d+)\n((?:ROW [^\n]*\n)*)END\n")
ROW = re.compile(rb'ROW (\d+) ([ap])(\d+) "([^"\n]*)"\n')
LOG = re.compile(rb"LOG \d+ \d+ (\d+)\n")
NEWS = re.compile(rb"NEWS \d+ \S+ (\d+)\n")

# `formula` is a name, or a pair (how many parts it needs, its parts); `clauses` are pairs (number, value), or None
Assertion = collections.namedtuple("Assertion", "text authorizer formula clauses")


class Fault(Exception):
    """What was seen isn't what a daemon with one history does."""


# -- assertions


def spell(formula):
    if isinstance(formula, str):
        return f'"{formula}"'
    need, parts = formula
    spelled = [f"({spell(part)})" if not isinstance(part, str) else spell(part) for part in parts]
    if need == 1:
        return " || ".join(spelled)
    if need == len(parts):
        return " && ".join(spelled)
    return f"{need}-of({','.join(spelled)})"


def make_assertion(authorizer, formula, clauses=None, comment="", key=None):
    """An assertion with its text, signed where a key is given."""
    text = f"Comment: {comment}\n" if comment else ""
    text += f'Authorizer: "{authorizer}"\nLicensees: {spell(formula)}\n'
    if clauses is not None:
        text += "Conditions: " + " ".join(f'@level > {number} -> "{value}";' for number, value in clauses) + "\n"
    text = text.encode()
    if key is not None:
        code = hmac.new(key, text + ALGORITHM, hashlib.sha256).hexdigest().encode()
        text += b'Signature: "' + ALGORITHM + code + b'"\n'
    return Assertion(text, authorizer, formula, clauses)


def formula_level(formula, levels):
    if isinstance(formula, str):
        return levels.get(formula, 0)
    need, parts = formula
    return sorted((formula_level(part, levels) for part in parts), reverse=True)[need - 1]


class Query:
    """The assertions, requesters, attributes and values of a question."""

    def __init__(self, assertions, requesters, attributes, values):
        self.assertions, self.requesters, self.values = assertions, requesters, values
        self.top = len(values) - 1
        number = int(attributes.get("level") or 0)
        self.ceilings = {name: self.ceiling(a.clauses, number) for name, a in assertions.items()}

    def ceiling(self, clauses, number):
        if clauses is None:
            return self.top
        due = [value for least, value in clauses if number > least and value in self.values]
        return max((self.values.index(value) for value in due), default=0)

    def worth(self, name, levels):
        return min(self.ceilings[name], formula_level(self.assertions[name].formula, levels))

    def start(self):
        return dict.fromkeys(self.requesters, self.top)

    def solve(self):
        """The rows of a proof of POLICY's level: the highest levels first, each by an assertion that gives it."""
        levels, rows = self.start(), []
        for level in range(self.top, 0, -1):
            raised = True
            while raised:
                due = [(n, a.authorizer) for n, a in self.assertions.items() if a.authorizer not in levels and self.worth(n, levels) >= level]
                raised = bool(due)
                for name, authorizer in due[:1]:
                    levels[authorizer] = level
                    rows.append((level, name, authorizer))
        return levels.get("POLICY", 0), rows

    def critical(self):
        """POLICY's level, and the assertions without which it is lower: rows of its proof name each of them."""
        level, rows = self.solve()
        named, whole, found = {name for _, name, _ in rows}, self.assertions, []
        for tried in [name for name in whole if name in named]:
            self.assertions = {name: it for name, it in whole.items() if name != tried}
            found += [tried] if self.solve()[0] < level else []
        self.assertions = whole
        return level, found

    def judge(self, value, rows):
        """Raises a fault where these rows are no proof of the value."""
        levels = self.start()
        for level, name, principal in rows:
            if principal in levels or not 1 <= level <= self.top:
                raise Fault(f"{principal} has a level already, or gets {level}")
            if name not in self.assertions or self.assertions[name].authorizer != principal:
                raise Fault(f"{name} isn't there, or {principal} isn't its authorizer")
            if self.worth(name, levels) < level:
                raise Fault(f"{name} isn't worth {level} before its row")
            levels[principal] = level
        for name, assertion in self.assertions.items():
            if self.worth(name, levels) > levels.get(assertion.authorizer, 0):
                raise Fault(f"{name} is worth more than {assertion.authorizer} has")
        if levels.get("POLICY", 0) != value:
            raise Fault(f"POLICY has {levels.get('POLICY', 0)}, and the reply says {value}")


def read_value(reply):
    """The index, name, version and rows of a VALUE reply."""
    match = VALUE.fullmatch(reply)
    if not match:
        raise Fault(f"{reply!r:.100} isn't of a VALUE reply's form")
    rows = [(int(level), (sort + k).decode(), who.decode()) for level, sort, k, who in ROW.findall(match[5])]
    if not len(rows) == int(match[4]) == match[5].count(b"\n"):
        raise Fault(f"{reply!r:.100} has another number of rows than it says")
    return int(match[1]), match[2].decode(), int(match[3]), rows


def spell_value(index, name, version, rows):
    lines = [f'ROW {level} {by} "{who}"\n' for level, by, who in rows]
    return (f"VALUE {index} {name} {version} {len(rows)}\n" + "".join(lines) + "END\n").encode()


# -- connections


class Session:
    def __init__(self, version):
        self.version, self.private, self.made = version, {}, 0
        self.attributes, self.requesters = {}, []
        # the requests that made it what it is, without its number
        self.script = []
        # what was asked by WATCH
        self.standing = None


# a standing query: private assertions, requesters, attributes and values, as a session had them
Standing = collections.namedtuple("Standing", "private requesters attributes values")


# a VALUE reply, with the version that its session is pinned to and a script that makes the same query
Asked = collections.namedtuple("Asked", "version script reply")


class Connection:
    """What a connection holds."""

    def __init__(self, texts, credentials):
        # the assertion of a block, or its refusal; the credentials of a version
        self.texts, self.credentials = texts, credentials
        self.sessions, self.started, self.admin = {}, 0, False
        # the answered queries
        self.asked = []

    def expected(self, request, reply):
        """The reply that this request has, given what a reply alone can tell: versions, ids and the choice of rows."""
        line, _, block = request.partition(b"\n")
        if len(line) > LINE_BYTES:
            return b"NO 14 long\n"
        word, _, rest = line.partition(b" ")
        handler = getattr(self, "on_" + word.decode("latin-1").lower(), None)
        if not word.isupper() or handler is None:
            return b"NO 2 command\n"
        if word in (b"OPEN", b"BYE", b"ADMIN", b"ADD", b"DROP", b"BATCH", b"LOG"):
            return handler(rest, block[:-1], reply)
        number, _, rest = rest.partition(b" ")
        session = self.sessions.get(number)
        if session is None:
            return b"NO 3 session\n"
        return handler(number, session, rest, block[:-1], reply)

    def on_open(self, rest, block, reply):
        if rest:
            return b"NO 1 syntax\n"
        if len(self.sessions) == SESSIONS:
            return b"NO 13 limit sessions %d\n" % SESSIONS
        self.started += 1
        version = last_number(reply)
        self.sessions[b"%d" % self.started] = Session(version)
        return b"OK %d %d\n" % (self.started, version)

    def on_bye(self, rest, block, reply):
        return b"OK\n"

    def on_admin(self, rest, block, reply):
        if rest.lower() != SECRET:
            return b"NO 4 admin\n"
        self.admin = True
        return b"OK\n"

    def on_add(self, rest, block, reply):
        if not self.admin:
            return b"NO 4 admin\n"
        if not isinstance(self.texts[block], Assertion):
            return self.texts[block]
        return reply if re.fullmatch(rb"OK a\d+ \d+\n", reply) else b"OK aK version\n"

    def on_drop(self, rest, block, reply):
        if not self.admin:
            return b"NO 4 admin\n"
        return reply if re.fullmatch(rb"OK \d+\n|NO 12 unknown\n", reply) else b"OK version\n"

    def on_batch(self, rest, block, reply):
        if not self.admin:
            return b"NO 4 admin\n"
        items, end = protocol.split_items(block, 0, ITEMS)
        if not items or end < len(block):
            return b"NO 16 batch %d\n" % (len(items) + 1)
        for at, (text, _) in enumerate(items, 1):
            if text is not None and not isinstance(self.texts[text], Assertion):
                return b"NO 17 item %d " % at + self.texts[text][3:]
        unknown = re.fullmatch(rb"NO 17 item (\d+) 12 unknown\n", reply)
        if unknown and int(unknown[1]) <= len(items) and items[int(unknown[1]) - 1][0] is None:
            return reply
        added = sum(text is not None for text, _ in items)
        return reply if re.fullmatch(rb"OK a\d+ %d \d+\n" % added, reply) else b"OK aF %d version\n" % added

    def on_log(self, rest, block, reply):
        if not self.admin:
            return b"NO 4 admin\n"
        ahead, log = re.fullmatch(rb"NO 19 ahead (\d+)\n", reply), LOG.match(reply)
        newest = int((ahead or log or [0, 0])[1])
        if int(rest) > newest:
            return b"NO 19 ahead %d\n" % newest
        head = b"LOG %s %d %d\n" % (rest, min(LOGGED, newest - int(rest)), newest)
        return reply if reply.startswith(head) else head

    def on_close(self, number, session, rest, block, reply):
        del self.sessions[number]
        return b"OK\n"

    def on_pin(self, number, session, rest, block, reply):
        refused = re.fullmatch(rb"NO 18 retained (\d+)\n", reply)
        newest = int(refused[1]) if refused else last_number(reply)
        version = int(rest or newest)
        if not newest - RETAINED < version <= newest:
            return b"NO 18 retained %d\n" % newest
        session.version = version
        return b"OK %d %d\n" % (version, newest) if rest else b"OK %d\n" % newest

    def on_assert(self, number, session, rest, block, reply):
        assertion = self.texts[block]
        if not isinstance(assertion, Assertion):
            return assertion
        if assertion.authorizer == "POLICY":
            return b"NO 6 policy\n"
        session.made += 1
        session.private[f"p{session.made}"] = assertion
        session.script.append(b"ASSERT 1 %s\n%s\n" % (rest, block))
        return b"OK p%d\n" % session.made

    def on_retract(self, number, session, rest, block, reply):
        if session.private.pop(rest.decode(), None) is None:
            return b"NO 12 unknown\n"
        session.script.append(b"RETRACT 1 %s\n" % rest)
        return b"OK\n"

    def set_attribute(self, session, name, value):
        if name.startswith("_"):
            return b"NO 8 name\n"
        session.attributes[name] = value
        session.script.append(f"SET 1 {name} {value}\n".encode())
        return b"OK\n"

    def on_set(self, number, session, rest, block, reply):
        name, _, value = rest.decode().partition(" ")
        return self.set_attribute(session, name, value)

    def on_setx(self, number, session, rest, block, reply):
        name, _, digits = rest.decode().partition(" ")
        return self.set_attribute(session, name, bytes.fromhex(digits).decode())

    def on_unset(self, number, session, rest, block, reply):
        if session.attributes.pop(rest.decode(), None) is None:
            return b"NO 12 unknown\n"
        session.script.append(b"UNSET 1 %s\n" % rest)
        return b"OK\n"

    def on_auth(self, number, session, rest, block, reply):
        if rest in (b"", b"POLICY"):
            return b"NO 11 principal\n"
        if rest.decode() not in session.requesters:
            session.requesters.append(rest.decode())
        session.script.append(b"AUTH 1 %s\n" % rest)
        return b"OK\n"

    def on_unauth(self, number, session, rest, block, reply):
        if rest.decode() not in session.requesters:
            return b"NO 12 unknown\n"
        session.requesters.remove(rest.decode())
        session.script.append(b"UNAUTH 1 %s\n" % rest)
        return b"OK\n"

    def on_clear(self, number, session, rest, block, reply):
        session.attributes, session.requesters = {}, []
        session.script.append(b"CLEAR 1\n")
        return b"OK\n"

    def news(self, standing, version):
        private, requesters, attributes, values = standing
        level = Query({**self.credentials(version), **private}, requesters, attributes, values).solve()[0]
        return b"NEWS %d %s %d\n" % (level, values[level].encode(), version)

    def on_watch(self, number, session, rest, block, reply):
        values = rest.decode().split(",")
        if not are_values(values):
            return b"NO 10 values\n"
        kept = Standing(dict(session.private), list(session.requesters), dict(session.attributes), values)
        session.standing = kept
        return self.news(kept, session.version)

    def on_news(self, number, session, rest, block, reply):
        if session.standing is None:
            return b"NO 12 unknown\n"
        told = NEWS.fullmatch(reply)
        return self.news(session.standing, int(told[1])) if told else b"NEWS index name version\n"

    def on_unwatch(self, number, session, rest, block, reply):
        if session.standing is None:
            return b"NO 12 unknown\n"
        session.standing = None
        return b"OK\n"

    def on_critical(self, number, session, rest, block, reply):
        values = rest.decode().split(",")
        if not are_values(values):
            return b"NO 10 values\n"
        shared = self.credentials(session.version)
        query = Query({**shared, **session.private}, session.requesters, session.attributes, values)
        level, ids = query.critical()
        return b"CRITICAL %d %d\n%sEND\n" % (level, len(ids), b"".join(b"NEED %s\n" % name.encode() for name in ids))

    def on_query(self, number, session, rest, block, reply):
        values = rest.decode().split(",")
        if not are_values(values):
            return b"NO 10 values\n"
        index, name, version, rows = read_value(reply)
        if version != session.version:
            raise Fault(f"version {version} is told, and the session is pinned to {session.version}")
        if index >= len(values) or values[index] != name:
            raise Fault(f"{name} isn't value {index}")
        shared = self.credentials(version)
        query = Query({**shared, **session.private}, session.requesters, session.attributes, values)
        query.judge(index, rows)
        script = b"OPEN\n" + b"".join(session.script) + b"QUERY 1 " + rest + b"\n"
        self.asked.append(Asked(version, script, reply))
        return reply


def are_values(values):
    return 2 <= len(set(values)) == len(values) <= 64


def last_number(reply):
    """The version that a reply tells."""
    match = re.fullmatch(rb"OK(?: [ap]?\d+)*? (\d+)\n", reply)
    if not match:
        raise Fault(f"{reply!r:.80} tells no version")
    return int(match[1])
