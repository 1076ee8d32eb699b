"""The requests about a session, its end, and those that are refused."""

import functools

from costing import texts
from costing.family import ADMIN, BLOCK_BYTES, Family, SMALL, block, encode, file_of, keys_of, trial
from costing.texts import ASSERTION_BYTES, ATTRIBUTES, LIVE, LIVE_BYTES, PRINCIPAL_BYTES, PRIVATE, REQUESTERS
from costing.texts import VALUE_BYTES

NAME_BYTES, LINE_BYTES, SESSIONS = 128, 8192, 16
# each request to set an attribute, by digits or as it is
LONGEST = {"SET": VALUE_BYTES, "SETX": (LINE_BYTES - NAME_BYTES - 10) // 2}


def attribute(number):
    """One of the longest names of attributes, which differ at their ends."""
    return b"n" * (NAME_BYTES - 3) + encode(texts.name_of(number, 3))


def principal(number):
    """One of the longest principals whose letters have no case, which differ at their ends."""
    return encode("RSA-HEX:" + "A" * (PRINCIPAL_BYTES - 12) + texts.name_of(number))


def set_all(session, count, size=VALUE_BYTES):
    return [b"SET %d %s %s\n" % (session, attribute(i), b"x" * size) for i in range(count)]


def auth_all(session, count):
    return [b"AUTH %d %s\n" % (session, principal(i)) for i in range(count)]


def private_of(style, number, size):
    """A private assertion of so many bytes that takes much to hold, or as many tests as there is room for."""
    if style in texts.READ:
        return encode(texts.READ[style](size - 4)[:-1] + f"#{number:02}\n")
    return encode(texts.slow_assertion(f"b{number}", '"r"', style, 16, size))


def assert_all(session, count, size, style):
    return [block(b"ASSERT %d" % session, private_of(style, i, size)) for i in range(count)]


def filled(session, count, style):
    """What fills a session up to a part of its limits, of 64."""
    requests = [b"OPEN\n", *set_all(session, 4 * count), *auth_all(session, count)]
    return requests + assert_all(session, count, VALUE_BYTES, style)


# -- what a session holds


def opened(size):
    return trial(b"OPEN\n", [b"OPEN\n"] * (SESSIONS - 1), policy=file_of(plain_policy(size)))


def plain_policy(count):
    each = LIVE_BYTES // LIVE
    return [texts.by_comment("x")(each - 8).replace('"a"', f'"a{i:04}"') for i in range(count)]


def set_one(word, size, there):
    value = b"78" * size if word == "SETX" else b"x" * size
    before = [b"OPEN\n", *set_all(1, there)]
    return trial(b"%s 1 %s %s\n" % (word.encode(), attribute(ATTRIBUTES - 1), value), before)


def unset(size, at):
    place = {"first": 0, "last": size - 1}[at]
    return trial(b"UNSET 1 %s\n" % attribute(place), [b"OPEN\n", *set_all(1, size)])


def auth(size):
    return trial(b"AUTH 1 %s\n" % principal(REQUESTERS), [b"OPEN\n", *auth_all(1, size - 1)])


def unauth(size, at):
    place = {"first": 0, "last": size - 1}[at]
    return trial(b"UNAUTH 1 %s\n" % principal(place), [b"OPEN\n", *auth_all(1, size)])


def clear(size):
    return trial(b"CLEAR 1\n", filled(1, size, "comment"))


def assert_one(size, style):
    text = encode(texts.READ[style](size))
    return trial(block(b"ASSERT 1", text), [b"OPEN\n"])


def assert_faulty(size, style, fault):
    """A text that is refused for what stands at its end."""
    return trial(block(b"ASSERT 1", encode(texts.faulty(style, fault, size))), [b"OPEN\n"], b"NO 5 ")


def assert_behind(size, style):
    """The last of 64 private assertions."""
    before = [b"OPEN\n", *assert_all(1, size - 1, VALUE_BYTES, "comment")]
    return trial(block(b"ASSERT 1", private_of(style, 63, VALUE_BYTES)), before)


def retract(size, style, at):
    place = {"first": 1, "last": size}[at]
    return trial(b"RETRACT 1 p%d\n" % place, [b"OPEN\n", *assert_all(1, size, VALUE_BYTES, style)])


def large_retract(size, style):
    return trial(b"RETRACT 1 p1\n", [b"OPEN\n", block(b"ASSERT 1", private_of(style, 0, size))])


def close(size, style, stands):
    before = filled(1, size, style)
    return trial(b"CLOSE 1\n", before + ([b"WATCH 1 no,yes\n"] if stands else []))


def unwatch(size, style):
    return trial(b"UNWATCH 1\n", [*filled(1, size, style), b"WATCH 1 no,yes\n"])


def bye(size, style):
    """The end of a connection all of whose sessions are full."""
    before = []
    for session in range(1, size + 1):
        before += [*filled(session, REQUESTERS, style), b"WATCH %d no,yes\n" % session]
    return trial(b"BYE\n", before, ends=True)


# -- versions that nobody holds any more


def dropped(count, first=1):
    """Batches that drop the first credentials, and so many changes behind them that no version before is kept."""
    items = [b"DROP a%d\n" % number for number in range(first, first + count)]
    batches = [block(b"BATCH", b"".join(items[at:at + 256])) for at in range(0, count, 256)]
    return batches + [block(b"ADD", SMALL)] * 16


def policy_of(size, style, each):
    """As many texts of a size as there is room for in so many bytes, and at least one."""
    text = texts.READ[style](each - 8)
    count = min(LIVE - 17, max(1, size // each))
    return [text.replace('Authorizer: "a"', f'Authorizer: "a{i:04}"') for i in range(count)]


def released(request, size, style, each):
    """A request that gives back the last hold of a version whose credentials were all dropped."""
    policy = policy_of(size, style, each)
    requests = [b"OPEN\n", ADMIN, *dropped(len(policy))]
    return trial(request, requests, policy=file_of(policy), keys=keys_of([SMALL]))


def pin_newest(size, style, each):
    return released(b"PIN 1\n", size, style, each)


def pin_older(size, style, each):
    made = released(b"PIN 1\n", size, style, each)
    count = len(policy_of(size, style, each))
    newest = count + len(dropped(count))
    return made._replace(request=b"PIN 1 %d\n" % (newest - 15))


def close_older(size, style, each):
    return released(b"CLOSE 1\n", size, style, each)


def unwatch_older(size, style, each):
    """A standing query stays at the old version, and the session moves on."""
    policy = policy_of(size, style, each)
    before = [b"OPEN\n", b"WATCH 1 no,yes\n", ADMIN, *dropped(len(policy)), b"PIN 1\n"]
    return trial(b"UNWATCH 1\n", before, policy=file_of(policy), keys=keys_of([SMALL]))


# -- what is refused


def refused(size, request):
    made = {
        "word": b"x" * (size - 1) + b"\n",
        "session": b"SET 9 " + b"x" * (size - 7) + b"\n",
        "values": b"QUERY 1 " + b"a," * ((size - 10) // 2) + b"a\n",
        "names": b"WATCH 1 " + encode(texts.VALUES)[:size - 9] + b"\n",
        "principal": b"AUTH 1 " + b"x" * (size - 8) + b"\n",
        "digits": b"ADMIN " + b"78" * ((size - 8) // 2) + b"\n",
        "name": b"SET 1 _" + b"x" * (size - 8) + b"\n",
    }[request]
    return trial(made, [b"OPEN\n"], b"")


def refused_block(size, request):
    return trial(block(b"ADD" if request == "admin" else b"ASSERT 9", b"x" * size), [b"OPEN\n"], b"NO ")


def long_line(size):
    return trial(b"x" * (LINE_BYTES + size) + b"\n", [], b"NO 14")


def admin(size):
    secret = b"78" * size
    return trial(b"ADMIN " + secret + b"\n", keys=b"secret " + secret + b"\n")


READ = ["names", "constants", "brackets", "sums", "clauses", "signs", "texts", "semicolons", "parts", "both",
        "threshold", "principals", "escapes", "comment", "comments", "quotes"]
HELD = ["parts", "sums", "threshold", "both", "constants", "clauses", "brackets", "texts", "signs", "comment"]
OLD = {"style": HELD, "each": [16384, 8192, 4096]}
FAMILIES = [
    Family("OPEN", "behind 15 sessions", "credentials", LIVE, opened),
    Family("CLOSE", "a full session", "of 64", 64, close, {"style": HELD, "stands": [True, False]}),
    Family("CLOSE", "an old version", "bytes", LIVE_BYTES, close_older, OLD),
    Family("PIN s", "an old version", "bytes", LIVE_BYTES, pin_newest, OLD),
    Family("PIN s v", "an old version", "bytes", LIVE_BYTES, pin_older, OLD),
    Family("ASSERT", "a text", "bytes", ASSERTION_BYTES, assert_one, {"style": READ}),
    Family("ASSERT", "a faulty text", "bytes", ASSERTION_BYTES, assert_faulty,
           {"style": READ, "fault": list(texts.FAULTS)}),
    Family("ASSERT", "behind 63 others", "of 64", PRIVATE, assert_behind, {"style": READ}),
    Family("RETRACT", "one of 64", "of 64", PRIVATE, retract, {"style": HELD, "at": ["first", "last"]}),
    Family("RETRACT", "a text", "bytes", ASSERTION_BYTES, large_retract, {"style": HELD}),
    Family("SET", "a value", "bytes", LONGEST["SET"], functools.partial(set_one, "SET"), {"there": [255, 0]}),
    Family("SETX", "a value", "bytes", LONGEST["SETX"], functools.partial(set_one, "SETX"), {"there": [255, 0]}),
    Family("UNSET", "one of 256", "attributes", ATTRIBUTES, unset, {"at": ["first", "last"]}),
    Family("AUTH", "behind 63 others", "requesters", REQUESTERS, auth),
    Family("UNAUTH", "one of 64", "requesters", REQUESTERS, unauth, {"at": ["last", "first"]}),
    Family("CLEAR", "a full session", "of 64", 64, clear),
    Family("UNWATCH", "a full session", "of 64", 64, unwatch, {"style": HELD}),
    Family("UNWATCH", "an old version", "bytes", LIVE_BYTES, unwatch_older, OLD),
    Family("BYE", "full sessions, to the end", "sessions", SESSIONS, bye, {"style": HELD}),
    Family("ADMIN", "a secret", "bytes", 128, admin),
    Family("refused line", "a line", "bytes", LINE_BYTES, refused,
           {"request": ["values", "names", "word", "session", "principal", "digits", "name"]}),
    Family("refused block", "a block", "bytes", BLOCK_BYTES, refused_block, {"request": ["session", "admin"]}),
    Family("NO 14", "a long line", "bytes", 1 << 20, long_line),
]
