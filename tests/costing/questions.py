"""The questions: QUERY, WATCH, NEWS and CRITICAL over policies that take long to build, to settle and to evaluate."""

import collections

from costing import texts
from costing.family import ADMIN, Family, block, encode, file_of, trial
from costing.sessions import HELD, READ, assert_all, filled, private_of
from costing.texts import LIVE, LIVE_BYTES, PRIVATE, PRIVATE_BYTES, assertion, name_of

# the most nodes that CRITICAL takes
NODES = 16384
# the last credential, which may go without a change of any answer, though it is the policy's
SPARE = 'Authorizer: "POLICY"\n'
# what is asked over: shared texts, private ones, what the session is told, and the values
World = collections.namedtuple("World", "shared private told values", defaults=((), (), "no,yes"))
WANTED = {"QUERY": b"VALUE ", "WATCH": b"NEWS ", "NEWS": b"NEWS ", "CRITICAL": b"CRITICAL "}


def ask(word, world):
    """A question over a world. That of NEWS stands, and comes to a version from which a credential was removed."""
    shared = [*world.shared, SPARE]
    before = [b"OPEN\n", *world.told, *(block(b"ASSERT 1", encode(text)) for text in world.private)]
    request = b"%s 1 %s\n" % (word.encode(), encode(world.values))
    if word == "NEWS":
        before += [b"WATCH" + request[4:], ADMIN, b"DROP a%d\n" % len(shared)]
        request = b"NEWS 1\n"
    return trial(request, before, WANTED[word], file_of(shared))


def asker(world_of):
    """What builds the trials of a question over a world of a size."""
    return lambda word: lambda size, **choices: ask(word, world_of(size, **choices))


def auth(name):
    return b"AUTH 1 " + encode(name) + b"\n"


def set_value(style):
    return b"SET 1 v " + encode(texts.value_of(style)) + b"\n"


# -- what is evaluated


def slow(size, style, parts, each):
    """Credentials that all are reached, with conditions of so many bytes together."""
    shared = [texts.slow_assertion(f"b{i}", '"r"', style, parts, each) for i in range(max(1, (size - 64) // each))]
    return World(shared, told=[auth("r"), set_value(style)], values=texts.VALUES if style == "values" else "no,yes")


def slow_private(size, style, parts, each):
    """The same of private assertions, which anybody may have."""
    private = [texts.slow_assertion(f"b{i}", '"r"', style, parts, each) for i in range(max(1, size // each))]
    return World([assertion("POLICY", '"r"')], private, [auth("r"), set_value(style)])


# -- what is built and settled


def licensees(size, sign, reached, each):
    """Credentials of many licensees: the principals with credentials of their own, or different ones."""
    count, made, number = max(1, (size - 64) // each), [], 0
    front, back = {"||": ("", ""), "&&": ("", ""), ",": ("1-of(", ")")}[sign]
    for i in range(count):
        text, names = f'Authorizer: "{name_of(i)}"\nLicensees: {front}"r"', []
        for _ in range((each - len(text) - 2) // (6 + len(sign))):
            names.append(f'{sign}"{name_of(number % count if reached else number)}"')
            number += 1
        made.append(text + "".join(names) + back + "\n")
    return World(made, told=[auth("r")])


def constants(size, need, each):
    """Credentials of many licensees that take two bytes each: a local constant, which stands for the requester."""
    made = []
    for i in range(max(1, (size - 64) // each)):
        text = f'Local-Constants: A="r"\nAuthorizer: "{name_of(i)}"\nLicensees: {need}-of('
        made.append(text + "A," * ((each - len(text) - 4) // 2) + "A)\n")
    return World(made, told=[auth("r")])


def chain(size, name):
    """A chain of so many credentials to the requester, by short names or by long ones whose bytes are escaped."""
    front = "" if name == "short" else "\x01" * (LIVE_BYTES // LIVE // 2 - 32)
    names = ["POLICY"] + [front + name_of(i) for i in range(size)]
    shared = [assertion(one, f'"{other}"') for one, other in zip(names, names[1:])]
    return World(shared, told=[b"AUTH 1 " + encode(names[-1]) + b"\n"] if name == "short" else [auth(names[-1])])


def levels(size, links):
    """Credentials of all levels, which license one another on cycles."""
    values = [f"v{i}" for i in range(64)]
    shared = []
    for i in range(size):
        others = "||".join(f'"{name_of((i * 7 + 13 * k + 1) % size)}"' for k in range(links))
        whom = f'"r"||{others}' if i % 3 == 0 else others
        shared.append(assertion(name_of(i), whom, f'Conditions: true->"v{(i * 37) % 64}";\n'))
    return World(shared, told=[auth("r")], values=",".join(values))


# -- what a standing query copies and gives back


def full(size, style):
    """WATCH in a full session, where a standing query of the same size stands already."""
    before = [*filled(1, size, style), b"WATCH 1 no,yes\n"]
    return trial(b"WATCH 1 no,yes\n", before, b"NEWS ")


def copies(size, style, each):
    """WATCH beside private assertions of so many bytes, which are read anew."""
    private = [private_of(style, i, each) for i in range(max(1, size // each))]
    return trial(b"WATCH 1 no,yes\n", [b"OPEN\n", *(block(b"ASSERT 1", text) for text in private)], b"NEWS ")


# -- what is critical


def star(size, links):
    """So many credentials, each critical for a threshold of all, and each with further uses of the requester."""
    others = [f"b{i}" for i in range(size - 1)]
    shared = [assertion(name, "||".join(['"r"'] * links)) for name in others]
    whole = "&&".join(f'"{name}"' for name in others)
    return World([*spread(whole, others), *shared], told=[auth("r")])


def spread(whole, others, each=400):
    """POLICY wants all of these, by parts that fit into assertions."""
    parts = [others[at:at + each] for at in range(0, len(others), each)]
    made = [assertion("POLICY", "&&".join(f'"part{i}"' for i in range(len(parts))))]
    return made + [assertion(f"part{i}", "&&".join(f'"{name}"' for name in part)) for i, part in enumerate(parts)]


def critical_chain(size, doubled):
    """A chain whose links are critical, but for so many behind each, which stand there twice."""
    shared, number = [], 0
    while len(shared) < size:
        one, other = (name_of(number) if number else "POLICY"), name_of(number + 1)
        shared += [assertion(one, f'"{other}"')] * (2 if number % (doubled + 1) else 1)
        number += 1
    return World(shared[:size], told=[auth(name_of(number))])


def slow_star(size, style, parts, each):
    """Critical credentials with slow conditions."""
    others = [f"b{i}" for i in range(size)]
    shared = [texts.slow_assertion(name, '"r"', style, parts, each) for name in others]
    return World([*spread("", others), *shared], told=[auth("r"), set_value(style)])


def slow_private_star(size, style, parts, each):
    """Private ones with slow conditions: what anybody may ask."""
    others = [f"b{i}" for i in range(size)]
    whole = assertion("POLICY", "&&".join(f'"{name}"' for name in others))
    private = [texts.slow_assertion(name, '"r"', style, parts, each) for name in others]
    return World([whole], private, [auth("r"), set_value(style)])


STYLES = ["number", "name", "join", "equal", "before", "constant", "signs", "sums", "powers", "values", "braces"]
SLOW = {"style": STYLES, "parts": texts.PARTS, "each": [2048, 4096, 16384]}
OWN = {"style": STYLES, "parts": texts.PARTS, "each": [4096, 16384]}
COSTS = [
    ("slow conditions", "bytes", LIVE_BYTES, slow, SLOW),
    ("slow conditions, private", "bytes", PRIVATE_BYTES, slow_private, OWN),
    ("licensees", "bytes", LIVE_BYTES, licensees,
     {"sign": ["||", "&&", ","], "reached": [False, True], "each": [16384, 2048, 4096]}),
    ("local constants", "bytes", LIVE_BYTES, constants, {"need": [1, 2, 1000], "each": [4096, 2048, 16384]}),
    ("a chain", "credentials", LIVE - 1, chain, {"name": ["long", "short"]}),
    ("all levels", "credentials", LIVE - 1, levels, {"links": [60, 16, 4, 1]}),
]
SHARED = [
    Family(word, name, unit, limit, asker(world)(word), choices)
    for word in ("QUERY", "WATCH", "NEWS") for name, unit, limit, world, choices in COSTS
]
FAMILIES = SHARED + [
    Family("WATCH", "in a full session", "of 64", 64, full, {"style": HELD}),
    Family("WATCH", "private texts", "bytes", PRIVATE_BYTES, copies, {"style": READ, "each": [16384, 4096]}),
    Family("CRITICAL", "each of many", "credentials", 4080, asker(star)("CRITICAL"), {"links": [2, 1]}),
    Family("CRITICAL", "a chain", "credentials", LIVE - 1, asker(critical_chain)("CRITICAL"),
           {"doubled": [0, 1, 2, 3]}),
    Family("CRITICAL", "slow conditions", "credentials", 4080, asker(slow_star)("CRITICAL"),
           {**SLOW, "each": [2040]}),
    Family("CRITICAL", "slow conditions, private", "assertions", PRIVATE, asker(slow_private_star)("CRITICAL"),
           {**OWN, "each": [4096]}),
]
