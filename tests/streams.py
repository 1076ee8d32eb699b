"""Random streams of bytes that are requests, and nearly requests, and ways to cut them."""

import hashlib

# the most bytes of one read: a longer piece would lose its end
PIECE_BYTES = 4096
CUTS = 10
ASSERTION = b'Authorizer: "alice"\nLicensees: "bob"\n'
# the secret is s3cret
KEYS = "digest " + hashlib.sha256(ASSERTION).hexdigest() + "\nsecret 733363726574\n"


def number(rng):
    return rng.choice([b"0", b"1", b"2", b"17", b"01", b"", b"+1", b"999999999", b"1000000000", b"x"])


def name(rng):
    return rng.choice([b"v", b"hour", b"_v", b"", b"a.b", b"\xff", b"\0", b"n" * rng.randint(1, 140)])


def rest(rng):
    return rng.choice([b"", b" ", b"alice", b"no,yes", b"no,maybe,yes", b"a b  c ", bytes(rng.randrange(256) for _ in range(9)), b"x" * rng.choice([4095, 4096, 4097])])


def digits(rng):
    return bytes(rng.choice(b"0123456789abcdefABCDEFg ") for _ in range(rng.randint(0, 12)))


def block(rng, word):
    text = rng.choice([ASSERTION, b"", b"\n", b"not an assertion", b"\0\xff", b"a" * rng.choice([100, 16383, 16384])])
    count = rng.choice([len(text)] * 6 + [len(text) + 1, max(len(text) - 1, 0), 16384, 16385])
    return word + b"%d" % count + b"\n" + text + rng.choice([b"\n"] * 8 + [b"", b"\r\n", b"x\n"])


def batch(rng):
    """A block of items, and nearly items."""
    items = b"".join(rng.choice([
        b"ADD %d\n" % len(ASSERTION) + ASSERTION + rng.choice([b"\n"] * 8 + [b"", b"\r\n"]),
        b"DROP a" + number(rng) + rng.choice([b"\n"] * 8 + [b"", b"\r\n"]),
        b"ADD 0\n\n",
    ]) for _ in range(rng.choice([0, 1, 2, 5, 300])))[:rng.choice([16384] * 8 + [40])]
    count = rng.choice([len(items)] * 6 + [len(items) + 1, 16385])
    return b"BATCH %d\n" % count + items + rng.choice([b"\n"] * 8 + [b"", b"x\n"])


def line(rng):
    s = rng.choice([b"1"] * 5 + [number(rng)])
    end = rng.choice([b"\n"] * 8 + [b"\r\n", b"\r\r\n", b" \n"])
    return rng.choice([
        lambda: b"OPEN" + end,
        lambda: b"CLOSE " + s + end,
        lambda: b"PIN " + s + end,
        lambda: b"PIN " + s + b" " + number(rng) + end,
        lambda: b"LOG " + number(rng) + end,
        lambda: b"CLEAR " + s + end,
        lambda: b"RETRACT " + s + b" p" + number(rng) + end,
        lambda: b"SET " + s + b" " + name(rng) + b" " + rest(rng) + end,
        lambda: b"SET " + s + b" " + name(rng) + end,
        lambda: b"SETX " + s + b" " + name(rng) + b" " + digits(rng) + end,
        lambda: b"UNSET " + s + b" " + name(rng) + end,
        lambda: b"AUTH " + s + b" " + rest(rng) + end,
        lambda: b"UNAUTH " + s + b" " + rest(rng) + end,
        lambda: b"QUERY " + s + b" " + rest(rng) + end,
        lambda: rng.choice([b"WATCH ", b"CRITICAL "]) + s + b" " + rest(rng) + end,
        lambda: rng.choice([b"NEWS ", b"UNWATCH "]) + s + end,
        lambda: b"ADMIN " + rng.choice([digits(rng), b"733363726574"]) + end,
        lambda: b"DROP a" + number(rng) + end,
        lambda: block(rng, b"ADD "),
        lambda: batch(rng),
        lambda: block(rng, b"ASSERT " + s + b" "),
        lambda: b"A" * rng.choice([8191, 8192, 8193, 20000]) + end,
        lambda: bytes(rng.randrange(256) for _ in range(rng.randint(0, 30))) + end,
        lambda: bytes(rng.choice(b"OPENSTAUHQRYDB 1\r\n\0") for _ in range(rng.randint(0, 30))),
    ])()


def stream(rng):
    text = b"OPEN\n" + b"".join(line(rng) for _ in range(rng.randint(0, 12)))
    if rng.random() < 0.3:
        text += b"BYE\n" + rng.choice([b"", b"OPEN\n"])
    return text[:rng.randint(0, len(text))] if rng.random() < 0.2 else text


def pieces(rng, text, way):
    """The stream in pieces: whole, in single bytes near its front, or at random places."""
    most = [PIECE_BYTES, 1, 2, 7, 16, 64, 256, 1000, 4095, 4096][way]
    cut, at = [], 0
    while at < len(text):
        # many single bytes of a long text only take time: from there on the pieces are larger
        size = most if way in (0, 1, 2) and at < 600 else rng.randint(1, most if way > 2 else PIECE_BYTES)
        cut.append(text[at:at + size])
        at += size
    return cut
