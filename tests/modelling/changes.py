"""Random changes of the replies of a transcript: one is changed, dropped, doubled or moved."""

import collections
import re

from modelling import replies as texts

NUMBERS = [b"0", b"1", b"2", b"3", b"4", b"5", b"6", b"16", b"64", b"255", b"256", b"4096", b"65536", b"999999999",
           b"1000000000", b"01", b"00", b"9" * 63, b"9" * 64, b"0" * 63 + b"1", b"1" * 65]
DIGITS = re.compile(rb"[0-9]+")
# replies that only another secret or another authenticator would give, or another state
LIKELY = {
    "admin": [b"OK", b"NO 4 admin"], "add": [b"NO 7 auth %d" % fault for fault in range(8)],
    "batch": [b"NO 17 item %d 7 auth %d" % (item, fault) for item in range(4) for fault in range(1, 7)],
    "open": [b"OK", b"NO 3 session", b"NO 12 unknown", b"NO 1 syntax"],
}
# longer replies are changed in their first bytes alone
SHOWN_BYTES = 2000

# `how` is changed, dropped, doubled or moved, `place` and `other` count replies from 0; `text` is the changed reply
Change = collections.namedtuple("Change", "how place other text")


def first_of(change):
    """The first reply that may be another one."""
    return min(change.place, change.other)


def in_words(change):
    told = {"changed": f" to {change.text!r:.200}", "moved": f" to {change.other + 1}"}
    return f"reply {change.place + 1} is {change.how}{told.get(change.how, '')}"


def make(change, replies):
    """All replies with this change, as one text."""
    others = list(replies)
    if change.how == "changed":
        others[change.place] = change.text
    elif change.how == "doubled":
        others.insert(change.place, others[change.place])
    else:
        moved = others.pop(change.place)
        others[change.other:change.other] = [moved] if change.how == "moved" else []
    return b"".join(others)


def places_of(requests):
    """Where the requests of each kind stand, by their kinds."""
    places = collections.defaultdict(list)
    for place, request in enumerate(requests):
        places[request.kind].append(place)
    return places


def draw(rng, replies, places):
    """A change after which the replies are another text, if there is one that is found.

    All kinds of requests are as likely to be the one whose reply is changed.
    """
    for _ in range(20):
        how, kind = rng.choice(["changed", "changed", "dropped", "doubled", "moved"]), rng.choice(list(places))
        place = rng.choice(places[kind])
        other, text = place, replies[place]
        if how == "moved":
            other = rng.choice([rng.randrange(len(replies)), min(place + 1, len(replies) - 1), max(place - 1, 0)])
        if how == "changed":
            text = draw_text(rng, replies, place, kind)
        stays = {"changed": text == replies[place], "moved": replies[place] == replies[other]}
        if not stays.get(how):
            return Change(how, place, other, text)
    return None


def draw_text(rng, replies, place, kind):
    """Another text in place of the reply to a request of this kind."""
    text, likely = replies[place], LIKELY.get(kind, LIKELY["open"])
    ways = [
        lambda: rng.choice(replies), lambda: filled(rng, rng.choice(texts.LINES)), lambda: b"NOMEM\n",
        lambda: filled(rng, rng.choice(likely)), lambda: filled(rng, rng.choice(likely)),
        lambda: near(rng, text, DIGITS, another_number), lambda: near(rng, text, DIGITS, another_number),
        lambda: other_byte(rng, text), lambda: other_byte(rng, text), lambda: other_lines(rng, text),
        lambda: rng.choice([b"NEWS 1 yes 1\n", b"CRITICAL 1 1\nNEED a1\nEND\n", b"CRITICAL 0 0\nEND\n",
                            b"LOG 0 0 0\nEND\n", b"LOG 0 1 1\nUPDATE 0 1\nDROP a1\nEND\n", b"VALUE 0 no 1 0\nEND\n"]),
    ]
    return rng.choice(ways)()


def filled(rng, form):
    """A line of this form with some numbers."""
    return re.sub(b"#", lambda _: rng.choice(NUMBERS), form) + b"\n"


def near(rng, text, part, change):
    """The text with one of these parts changed."""
    found = list(part.finditer(text, 0, SHOWN_BYTES))
    if not found:
        return text
    it = rng.choice(found)
    return text[:it.start()] + change(rng, it[0]) + text[it.end():]


def another_number(rng, digits):
    near_it = int(digits) + rng.choice([-1, 1, 1, 2, 10])
    return rng.choice([b"%d" % max(0, near_it), b"%d" % max(0, near_it), rng.choice(NUMBERS), b"0" + digits, b""])


def other_byte(rng, text):
    """The text with a byte changed, left out, doubled, or put in; or it breaks off there."""
    at = rng.randrange(min(len(text), SHOWN_BYTES))
    byte = rng.choice([b"x", b" ", b"\n", b"\r\n", b"0", b"9", b"\0", b"\xff", bytes([(text[at] + 1) % 256])])
    return rng.choice([text[:at] + byte + text[at + 1:], text[:at] + text[at + 1:], text[:at + 1] + text[at:],
                       text[:at] + byte + text[at:], text[:at]])


def other_lines(rng, text):
    """The text with a line left out, doubled, or exchanged with the next one."""
    lines = text.split(b"\n")[:-1]
    at = rng.randrange(len(lines))
    lines[at:at + 2] = rng.choice([lines[at + 1:at + 2], [lines[at], *lines[at:at + 2]], lines[at:at + 2][::-1]])
    return b"".join(line + b"\n" for line in lines)
