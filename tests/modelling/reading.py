"""Assertions of a small part of the language, read and evaluated as POLICIES.md says.

What isn't of this part is `Unreadable`, so that no text is read otherwise than the pages say. Texts with a fault are
known by heart: each has its fault and its place.
"""

import collections
import re

TOKEN = re.compile(
    rb'[ \t\n]*(?:"(?P<text>(?:[^"\\\n\r\0]|\\(?!000)[0-3][0-7]{2}|\\["\\])*)"|(?P<name>[A-Za-z_][A-Za-z0-9_]*)'
    rb"|(?P<number>0|[1-9][0-9]{0,8})|(?P<sign>->|&&|\|\||[=!<>]=|[-<>!@$(){},;=]))"
)
LABEL = re.compile(rb"([A-Za-z][-A-Za-z0-9_]*):(.*)")
LABELS = [b"comment", b"local-constants", b"authorizer", b"licensees", b"conditions", b"signature"]
COMPARISONS = {
    b"==": lambda a, b: a == b, b"!=": lambda a, b: a != b, b"<": lambda a, b: a < b,
    b">": lambda a, b: a > b, b"<=": lambda a, b: a <= b, b">=": lambda a, b: a >= b,
}
A = b'Authorizer: "a"\n'
# texts without their last newline: the fault and its place
FAULTY = {
    b"": (12, 0),
    b'Licensees: "a"': (12, 0),
    b"# nothing": (12, 0),
    b'Author: "a"': (9, 0),
    b"not an assertion": (9, 0),
    b"OPEN": (9, 0),
    b'Authorizer: "alice': (2, 12),
    b'Authorizer: "a" ?': (3, 16),
    b'Authorizer: "a"\0': (1, 15),
    b"Authorizer: \xc3\xa9": (1, 12),
    b"Authorizer: alice": (19, 1),
    b'Authorizer: ""': (19, 1),
    b'KeyNote-Version: 3\nAuthorizer: "a"': (13, 0),
    b'Signature: "a"\nAuthorizer: "a"': (11, 15),
    A + A[:-1]: (10, 16),
    A + b'Foo: "b"': (9, 16),
    A + b'\nLicensees: "b"': (7, 16),
    A + b"Conditions: @x < 1.5;": (4, 33),
    A + b'Conditions: x ~= "a";': (5, 30),
    A + b'Conditions: "a";': (17, 3),
    A + b'Conditions: @x == "1";': (17, 3),
    A + b"Conditions: 1 < 2 < 3;": (16, 3),
    A + b"Conditions: !!!!!!!!!true;": (15, 3),
    A + b'Licensees: 2147483648-of("a")': (6, 27),
    A + b'Licensees: 4-of("x","y","z")': (18, 5),
    A + b'Licensees: 0-of("x")': (18, 5),
    A + b'Licensees: "b" "c"': (16, 5),
    A + b"Licensees: Q": (19, 5),
    A + b'Local-Constants: A "x"': (14, 35),
    A + b'Local-Constants: _A = "x"': (14, 33),
    b"a" * 16384: (9, 0),
    A + b"Comment: " + b"x" * 16000 + b"\nComment: y": (10, 16 + 9 + 16000 + 1),
}


class Unreadable(Exception):
    """The text isn't of the part of the language that is read here."""


class ReadFault(Exception):
    """The text has this fault at this place."""


class EvaluationFault(Exception):
    """An expression can't be evaluated."""


Assertion = collections.namedtuple("Assertion", "authorizer licensees program constants signature signed")


def normal_form(principal):
    before, colon, behind = principal.partition(b":")
    if not colon:
        return principal
    return before.lower() + b":" + (behind.lower() if before.lower().endswith(b"-hex") else behind)


def text_value(spelled):
    """The bytes of a literal's inside."""
    return re.sub(rb"\\([0-7]{3}|.)", lambda m: bytes([int(m[1], 8)]) if len(m[1]) == 3 else m[1], spelled)


class Tokens:
    """The tokens of a field, one after the other."""

    def __init__(self, text):
        self.left, at = [], 0
        text = text.rstrip(b" \t\n")
        while at < len(text):
            found = TOKEN.match(text, at)
            if not found:
                raise Unreadable(text)
            self.left.append((found.lastgroup, found[found.lastgroup]))
            at = found.end()
        self.left.reverse()

    def next(self):
        return self.left[-1] if self.left else ("end", b"")

    def take(self, sort=None):
        if not self.left or (sort and self.next()[0] != sort):
            raise Unreadable(self.left[::-1])
        return self.left.pop()[1]

    def takes(self, *signs):
        """The sign, where one of these is next."""
        return self.take() if self.left and self.next() in [("sign", sign) for sign in signs] else None

    def needs(self, sign):
        if not self.takes(sign):
            raise Unreadable(self.left[::-1])


def read_principal(tokens, constants):
    sort, value = tokens.next()
    tokens.take()
    if sort == "name" and value != b"POLICY":
        if value not in constants:
            raise Unreadable(value)
        return normal_form(constants[value])
    if sort not in ("name", "text"):
        raise Unreadable(value)
    principal = text_value(value)
    if not 0 < len(principal) <= 4096:
        raise Unreadable(value)
    return normal_form(principal)


def read_joined(tokens, sign, word, read_part):
    parts = [read_part()]
    while tokens.takes(sign):
        parts.append(read_part())
    return parts[0] if len(parts) == 1 else (word, parts)


def read_formula(tokens, constants):
    def read_both():
        return read_joined(tokens, b"&&", "all", lambda: read_one(tokens, constants))
    return read_joined(tokens, b"||", "any", read_both)


def read_one(tokens, constants):
    if tokens.takes(b"("):
        formula = read_formula(tokens, constants)
        tokens.needs(b")")
        return formula
    if tokens.next()[0] != "number":
        return ("who", read_principal(tokens, constants))
    need = int(tokens.take())
    tokens.needs(b"-")
    if tokens.take("name") != b"of":
        raise Unreadable(need)
    tokens.needs(b"(")
    parts = [read_formula(tokens, constants)]
    while tokens.takes(b","):
        parts.append(read_formula(tokens, constants))
    tokens.needs(b")")
    if not 1 <= need <= len(parts):
        raise Unreadable(need)
    return ("of", need, parts)


def read_program(tokens, end):
    """A list of clauses, each a test and what stands behind its arrow."""
    clauses = []
    while tokens.next() != end:
        if tokens.takes(b";"):
            continue
        test, value = read_or(tokens), None
        if tokens.takes(b"->"):
            value = read_consequence(tokens)
        clauses.append((test, value))
        if tokens.next() not in (end, ("sign", b";")):
            raise Unreadable(tokens.left[::-1])
    return clauses


def read_consequence(tokens):
    if not tokens.takes(b"{"):
        return ("value", read_or(tokens))
    program = read_program(tokens, ("sign", b"}"))
    tokens.needs(b"}")
    return ("program", program)


def read_or(tokens):
    def read_and():
        return read_joined(tokens, b"&&", "and", lambda: read_not(tokens))
    return read_joined(tokens, b"||", "or", read_and)


def read_not(tokens):
    if tokens.takes(b"!"):
        return ("not", read_not(tokens))
    left = read_atom(tokens)
    sign = tokens.takes(*COMPARISONS)
    return ("compare", sign, left, read_atom(tokens)) if sign else left


def read_atom(tokens):
    sign = tokens.takes(b"(", b"@", b"$")
    if sign == b"(":
        inner = read_or(tokens)
        tokens.needs(b")")
        return inner
    if sign:
        return ("number of" if sign == b"@" else "value of", read_atom(tokens))
    sort, value = tokens.next()
    tokens.take()
    if sort == "sign":
        raise Unreadable(value)
    if sort == "name" and value.lower() in (b"true", b"false"):
        return ("is", value.lower() == b"true")
    if sort == "name":
        return ("name", value)
    return ("is", text_value(value) if sort == "text" else int(value))


def split_fields(text):
    fields, name = {}, None
    for line in text.rstrip(b"\n").split(b"\n"):
        label = LABEL.fullmatch(line)
        if label and label[1].lower() in LABELS and label[1].lower() not in fields and name != b"signature":
            name = label[1].lower()
            fields[name] = label[2]
        elif line.startswith(b" ") and line.strip() and name not in (None, b"comment"):
            fields[name] += b"\n" + line
        else:
            raise Unreadable(text)
    if b"authorizer" not in fields or b"\0" in text or b"\r" in text or len(text) > 16384:
        raise Unreadable(text)
    return fields


def read_constants(text):
    tokens, constants = Tokens(text), {}
    while tokens.left:
        name = tokens.take("name")
        tokens.needs(b"=")
        if name.startswith(b"_") or name in constants:
            raise Unreadable(text)
        constants[name] = text_value(tokens.take("text"))
    return constants


def read_whole(text, read_part, *words):
    """What the tokens of a field spell, all of them; nothing where there is none."""
    tokens = Tokens(text)
    if not tokens.left:
        return None
    part = read_part(tokens, *words)
    if tokens.left:
        raise Unreadable(text)
    return part


def read_signature(tokens):
    return text_value(tokens.take("text"))


def read(text):
    """The assertion that the text spells."""
    known = FAULTY.get(text.rstrip(b"\n"))
    if known:
        raise ReadFault(*known)
    fields = split_fields(text)
    constants = read_constants(fields.get(b"local-constants", b""))
    authorizer = read_whole(fields[b"authorizer"], read_principal, constants)
    if authorizer is None:
        raise Unreadable(text)
    return Assertion(
        authorizer, read_whole(fields.get(b"licensees", b""), read_formula, constants),
        read_whole(fields.get(b"conditions", b""), read_program, ("end", b"")), constants,
        read_whole(fields.get(b"signature", b""), read_signature),
        text[:text.lower().rfind(b"\nsignature:") + 1],
    )


class Environment:
    """The names of a query, as they stand in one assertion."""

    def __init__(self, constants, query):
        self.constants, self.query = constants, query

    def value(self, name):
        query = self.query
        special = {
            b"_MIN_TRUST": query.values[0], b"_MAX_TRUST": query.values[-1], b"_VALUES": b",".join(query.values),
            b"_ACTION_AUTHORIZERS": b",".join(query.requesters),
        }
        for names in (self.constants, special, {} if name.startswith(b"_") else query.attributes):
            if name in names:
                return names[name]
        return b""


Query = collections.namedtuple("Query", "values attributes requesters")


def number_of(text):
    number = int(re.match(rb"-?[0-9]+|", text)[0] or b"0")
    if not -2147483648 <= number <= 2147483647:
        raise EvaluationFault(text)
    return number


def evaluate(node, environment):
    """A truth, a number or a text, from left to right."""
    word = node[0]
    if word == "is":
        return node[1]
    if word == "name":
        return environment.value(node[1])
    if word == "number of":
        return number_of(evaluate(node[1], environment))
    if word == "value of":
        return environment.value(evaluate(node[1], environment))
    if word == "not":
        return not evaluate(node[1], environment)
    if word == "compare":
        return COMPARISONS[node[1]](evaluate(node[2], environment), evaluate(node[3], environment))
    # all and any stop at the first part that decides
    return {"and": all, "or": any}[word](evaluate(part, environment) for part in node[1])


def try_evaluate(node, environment):
    """The value, and nothing where it is a fault."""
    try:
        return evaluate(node, environment)
    except EvaluationFault:
        return None


def clause_value(clause, environment):
    (test, consequence), values = clause, environment.query.values
    if not try_evaluate(test, environment):
        return 0
    if consequence is None:
        return len(values) - 1
    if consequence[0] == "program":
        return program_value(consequence[1], environment)
    named = try_evaluate(consequence[1], environment)
    return values.index(named) if named in values else 0


def program_value(program, environment):
    return max((clause_value(clause, environment) for clause in program), default=0)


def conditions_value(assertion, query):
    if assertion.program is None:
        return len(query.values) - 1
    return program_value(assertion.program, Environment(assertion.constants, query))


def formula_value(formula, levels):
    """The value of licensees, by the levels of principals; who has none there has the lowest."""
    if formula is None:
        return 0
    if formula[0] == "who":
        return levels.get(formula[1], 0)
    parts = sorted((formula_value(part, levels) for part in formula[-1]), reverse=True)
    return parts[needed(formula) - 1]


def nodes_of(formula):
    """How many principals and lists licensees have; where there are none, they are a list of no parts."""
    if formula is None:
        return 1
    return 1 if formula[0] == "who" else 1 + sum(map(nodes_of, formula[-1]))


def needed(formula):
    """How many parts have to reach a value."""
    return {"all": len(formula[-1]), "any": 1, "of": formula[1]}[formula[0]]


class Equations:
    """The assertions of a query under their ids, each with the value of its conditions."""

    def __init__(self, assertions, query):
        self.query, self.top = query, len(query.values) - 1
        self.assertions = dict(assertions)
        self.conditions = {name: conditions_value(it, query) for name, it in self.assertions.items()}
        # without licensees an assertion gives nothing
        self.giving = {name: it for name, it in self.assertions.items() if it.licensees}

    def worth(self, name, levels):
        return min(self.conditions[name], formula_value(self.assertions[name].licensees, levels))

    def start(self):
        return {requester: self.top for requester in self.query.requesters}

    def round(self, levels, without):
        """The levels that the assertions give where principals have these."""
        given = self.start()
        for name, assertion in self.giving.items():
            if name != without:
                given[assertion.authorizer] = max(given.get(assertion.authorizer, 0), self.worth(name, levels))
        return given

    def least(self, without=None):
        """The levels of the least solution, from the lowest ones up until a round changes nothing; without one of the
        assertions where that is named."""
        levels, following = self.start(), self.round(self.start(), without)
        while following != levels:
            levels, following = following, self.round(following, without)
        return levels

    def nodes(self):
        return sum(nodes_of(assertion.licensees) for assertion in self.assertions.values())

    def critical(self):
        """The assertions without which POLICY has less, in their order; one that is worth nothing never counts."""
        levels = self.least()
        worthy = [name for name in self.giving if self.worth(name, levels)]
        return [name for name in worthy if self.least(name).get(b"POLICY", 0) < levels.get(b"POLICY", 0)]

    def why_no_proof(self, rows, index):
        """Why rows of a level, an id and a principal don't prove that POLICY has this value, or nothing."""
        levels = self.start()
        for level, name, principal in rows:
            if principal in levels or not 1 <= level <= self.top:
                return f"the row of {principal!r} stands there again, or has no such level"
            assertion = self.assertions.get(name)
            if not assertion or assertion.authorizer != principal or self.worth(name, levels) < level:
                return f"{name!r} doesn't give {principal!r} the level {level}"
            levels[principal] = level
        for name, assertion in self.assertions.items():
            if self.worth(name, levels) > levels.get(assertion.authorizer, 0):
                return f"{name!r} is worth more than its authorizer has"
        return None if levels.get(b"POLICY", 0) == index else "POLICY has another value"
