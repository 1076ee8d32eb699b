"""Random texts of assertions: such as are admitted, and such as have a fault or no right code."""

import hashlib

from modelling import reading, wire
from modelling.daemon import Keys

PRINCIPALS = [b"alice", b"bob", b"carol", b"dave", b"Key:One", b"rsa-hex:1023abcd", b'we"ird\\ \x07\xc8']
# other spellings of some of them
SPELLINGS = {b"Key:One": [b"KEY:One", b"key:One"], b"rsa-hex:1023abcd": [b"RSA-HEX:1023ABCD", b"rsa-hex:1023abcd"]}
ATTRIBUTES = [b"hour", b"action", b"level", b"note", b"Hour"]
VALUES = [b"9", b"17", b"-3", b"99999999999", b"read", b"write", b"", b"12ab", b"hour", b"_MAX_TRUST", b"alice,bob"]
NAMED = [b"no", b"maybe", b"yes", b"v0", b"v1", b"v2", b"v3", b"other"]
# texts that give somebody a higher value in most queries
STRONG = [
    b'Authorizer: "POLICY"\nLicensees: "alice" || "bob"\n',
    b'Authorizer: "POLICY"\nLicensees: "dave" || "carol" || "rsa-hex:1023abcd"\n',
    b'Authorizer: POLICY\nLicensees: 2-of("alice", "bob", "carol", "Key:One")\n'
    b'Conditions: true -> "v2"; true -> "maybe";\n',
    b'Authorizer: "POLICY"\nLicensees: "carol"\nConditions: @hour > 8; true -> "v1"; true -> "maybe"; true -> "w9"\n',
    b'Authorizer: "alice"\nLicensees: "carol" || "dave"\n'
    b'Conditions: action == "" -> "yes"; !(@hour < 3) -> _MAX_TRUST;\n',
    b'Authorizer: "carol"\nLicensees: "dave" || ("RSA-HEX:1023abcd" && "key:One") || "alice"\n',
    b'Authorizer: "bob"\nLicensees: "we\\"ird\\\\ \\007\\310"\n'
    b'Conditions: true -> "v3"; true -> "yes"; true -> "w1";\n',
    b'Authorizer: "rsa-hex:1023ABCD"\nLicensees: "dave" || "bob" || POLICY\n',
]
COMMENTS = [0] * 12 + [40, 900, 16000]
LISTED = 8


def quote(text):
    return b'"%s"' % wire.spell_principal(text)


def spell_principal(rng, principal):
    return rng.choice(SPELLINGS.get(principal, [principal]))


def draw_formula(rng, depth=2):
    sort = rng.choice(["who", "who", "who", "all", "any", "any", "any", "of"]) if depth else "who"
    if sort == "who":
        return quote(spell_principal(rng, rng.choice(PRINCIPALS * 3 + [b"POLICY"])))
    parts = [draw_formula(rng, depth - 1) for _ in range(rng.randint(1, 3))]
    if sort == "of":
        return b"%d-of(%s)" % (rng.randint(1, len(parts)), b", ".join(parts))
    return b"(" + {"all": b" && ", "any": b" || "}[sort].join(parts) + b")"


def draw_test(rng, depth=2):
    sort = rng.choice(["truth", "text", "text", "number", "number", "special", "not", "and", "or"][:9 if depth else 6])
    if sort == "truth":
        return rng.choice([b"true", b"TRUE", b"false"])
    if sort == "text":
        return rng.choice(ATTRIBUTES) + b" " + rng.choice(list(reading.COMPARISONS)) + b" " + quote(rng.choice(VALUES))
    if sort == "number":
        parts = rng.choice(ATTRIBUTES), rng.choice(list(reading.COMPARISONS)), rng.choice([0, 3, 9, 12, 17])
        return b"@%s %s %d" % parts
    if sort == "special":
        return rng.choice([
            b'_ACTION_AUTHORIZERS == "alice,bob"', b'_MIN_TRUST == "no"', b'_VALUES == "no,yes"', b'_other == ""',
            b'$note == "9"', b'$"hour" != ""', b"$note == _MAX_TRUST", b"@$note > 8",
        ])
    if sort == "not":
        return b"!(" + draw_test(rng, depth - 1) + b")"
    return b"(" + {"and": b" && ", "or": b" || "}[sort].join(draw_test(rng, depth - 1) for _ in range(2)) + b")"


def draw_clause(rng, depth=1):
    test = draw_test(rng)
    sort = rng.choice(["alone", "value", "value", "special", "block"][:5 if depth else 4])
    if sort == "alone":
        return test
    if sort == "value":
        return test + b" -> " + quote(rng.choice(NAMED))
    if sort == "special":
        return test + b" -> " + rng.choice([b"_MAX_TRUST", b"_MIN_TRUST", b"note", b"$note"])
    return test + b" -> { " + b"; ".join(draw_clause(rng, 0) for _ in range(rng.randint(0, 2))) + b" }"


def draw_assertion(rng, authorizer=None):
    """A text whose authorizer is this one, or one of the pool."""
    fields, comment = [], rng.choice(COMMENTS)
    authorizer = authorizer or rng.choice(PRINCIPALS + [b"POLICY"] * 6)
    spelled = quote(spell_principal(rng, authorizer))
    if comment:
        fields.append(b"Comment: " + b"x" * (comment + rng.randint(0, 100)))
    if rng.random() < 0.1:
        fields.append(b"Local-Constants: K = " + spelled + b"\n  L = " + quote(rng.choice(VALUES)))
        spelled = b"K"
    fields.append(rng.choice([b"Authorizer: ", b"AUTHORIZER:"]) + (b"POLICY" if authorizer == b"POLICY" else spelled))
    if rng.random() < 0.95:
        fields.append(b"Licensees: " + draw_formula(rng))
    if rng.random() < 0.4:
        clauses = [draw_clause(rng) for _ in range(rng.randint(1, 3))]
        fields.append(b"Conditions: " + b";\n  ".join(clauses) + rng.choice([b"", b";"]))
    return b"\n".join(fields) + b"\n"


def draw_link(rng):
    """A text by which somebody trusts the guest, whom nothing else licenses."""
    some = b'Conditions: action != "read" -> "maybe"; @hour > 8;\n'
    conditions = rng.choice([b"", b"", b'Conditions: hour == "9";\n', some])
    return b"Authorizer: %s\nLicensees: \"guest\"\n%s" % (quote(rng.choice(PRINCIPALS[:4])), conditions)


def draw_chain(rng):
    """Texts by which POLICY trusts somebody, who trusts the next one, and so on; some links stand there twice."""
    links = [b"POLICY", *rng.sample(PRINCIPALS, rng.randint(2, len(PRINCIPALS)))]
    chain = []
    for authorizer, licensee in zip(links, links[1:]):
        conditions = rng.choice([b"", b"", b'Conditions: true -> "maybe"; true -> "v2";\n'])
        text = b"Authorizer: %s\nLicensees: %s\n%s" % (quote(authorizer), quote(licensee), conditions)
        chain += [text] * rng.choice([1, 1, 1, 1, 2])
    rng.shuffle(chain)
    return chain


class Texts:
    """The texts and keys of one script."""

    def __init__(self, rng):
        self.rng = rng
        self.listed = [draw_assertion(rng) for _ in range(LISTED)] + STRONG
        self.listed += [b'Authorizer:"a"\n', b'Authorizer:POLICY\nLicensees:"bob"']
        self.listed += [self.sized(16384), self.sized(16373)]
        digests = [hashlib.sha256(text).hexdigest() for text in self.listed]
        codes = {b"alice": b"k" * 20, b"rsa-hex:1023abcd": b"\x01", b"POLICY": bytes(range(64))}
        self.keys = Keys(digests, codes)

    def sized(self, size):
        """A text of so many bytes."""
        text = b'Authorizer: "bob"\nLicensees: "carol"\nComment: '
        return text + b"y" * (size - len(text) - 1) + b"\n"

    def faulty(self):
        text = self.rng.choice(list(reading.FAULTY))
        return text + (b"\n" if len(text) < 16384 and self.rng.random() < 0.5 else b"")

    def signed(self):
        authorizer = self.rng.choice(list(self.keys.codes))
        return self.rng.choice(self.keys.sign(draw_assertion(self.rng, authorizer), authorizer))

    def unadmitted(self):
        """A text without a right signature, for one of four causes."""
        text = draw_assertion(self.rng)
        wrong = b'Signature: "sig-hmac-sha256-hex:%s"\n' % (b"0" * 64)
        return text + self.rng.choice([b"", b'Signature: "sig-dsa-sha1-hex:00"\n', wrong, wrong])

    def admitted(self):
        short = [text for text in self.listed if len(text) < 2000]
        sorts = [STRONG, STRONG, STRONG, short, short, self.listed]
        return self.signed() if self.rng.random() < 0.25 else self.rng.choice(self.rng.choice(sorts))

    def any(self):
        return self.rng.choice([self.admitted] * 5 + [self.unadmitted, self.faulty])()

    def private(self):
        """A text for ASSERT; those by POLICY among them are refused."""
        sorts = [lambda: draw_assertion(self.rng, self.rng.choice(PRINCIPALS))] * 4
        return self.rng.choice([*sorts, self.admitted, self.admitted, self.unadmitted, self.faulty])()
