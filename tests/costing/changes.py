"""The requests that change the shared credentials, and the log."""

from costing import texts
from costing.family import ADMIN, BLOCK_BYTES, Family, ITEM_BYTES, SMALL, block, encode, file_of, keys_of, trial
from costing.sessions import HELD, READ, plain_policy, policy_of
from costing.texts import ASSERTION_BYTES, LIVE, LIVE_BYTES

# the digests that a key file of the most bytes lists
DIGESTS = (16777216 - 100 * 72) // 72
ITEMS, LOGGED = 256, 16


def add_text(size, style):
    text = encode(texts.READ[style](size))
    return trial(block(b"ADD", text), [ADMIN], keys=keys_of([text]))


def add_faulty(size, style, fault):
    """A text that is refused for what stands at its end."""
    return trial(block(b"ADD", encode(texts.faulty(style, fault, size))), [ADMIN], b"NO 5 ")


def add_behind(size):
    """An addition where so many are live."""
    return trial(block(b"ADD", SMALL), [ADMIN], policy=file_of(plain_policy(size - 1)), keys=keys_of([SMALL]))


def add_listed(size):
    """A text whose digest stands behind so many others."""
    return trial(block(b"ADD", SMALL), [ADMIN], keys=keys_of([SMALL], size))


def drop(size, at):
    place = {"first": 1, "last": size}[at]
    return trial(b"DROP a%d\n" % place, [ADMIN], policy=file_of(plain_policy(size)))


# -- batches


def item(text):
    return b"ADD %d\n%s\n" % (len(text), text)


def batch_text(size, style):
    text = encode(texts.READ[style](size))
    return trial(block(b"BATCH", item(text)), [ADMIN], keys=keys_of([text]))


def batch_adds(size, listed):
    """Additions of short texts whose digest stands behind others, where as many are live as there may be before."""
    policy = plain_policy(LIVE - ITEMS)
    return trial(block(b"BATCH", item(SHORT) * size), [ADMIN], policy=file_of(policy), keys=keys_of([SHORT], listed))


SHORT = b'Authorizer:"a"\n'


def batch_drops(size, at):
    """Removals from 4,096 credentials, side by side or far apart."""
    step = LIVE // ITEMS if at == "apart" else 1
    items = b"".join(b"DROP a%d\n" % (1 + number * step) for number in range(size))
    return trial(block(b"BATCH", items), [ADMIN], policy=file_of(plain_policy(LIVE)))


def batch_passing(size):
    """Additions, each of which is dropped again."""
    items = b"".join(item(SHORT) + b"DROP a%d\n" % (LIVE - ITEMS + 1 + number) for number in range(size // 2))
    policy = plain_policy(LIVE - ITEMS)
    return trial(block(b"BATCH", items), [ADMIN], policy=file_of(policy), keys=keys_of([SHORT]))


def gone(size, style):
    """An update behind which the version is no longer kept that alone has so many bytes of credentials."""
    policy = policy_of(size, style, ASSERTION_BYTES)
    items = [b"DROP a%d\n" % number for number in range(1, len(policy) + 1)]
    before = [ADMIN, block(b"BATCH", b"".join(items[:ITEMS])), *[block(b"ADD", SMALL)] * (LOGGED - 1)]
    return trial(b"DROP a%d\n" % (len(policy) + 1), before, policy=file_of(policy), keys=keys_of([SMALL]))


def batch_refused(size, style):
    """A block whose last item is refused, when all its texts were read."""
    text = encode(texts.READ[style](size - 20))
    return trial(block(b"BATCH", item(text) + b"DROP a999999\n"), [ADMIN], b"NO 17 item 2", keys=keys_of([text]))


# -- the log


def log_texts(size, style):
    """Updates of the longest texts."""
    texts_of = [encode(texts.READ[style](ITEM_BYTES - 8) + f"#{number}\n") for number in range(size)]
    before = [ADMIN, *(block(b"BATCH", item(text)) for text in texts_of)]
    return trial(b"LOG 1\n", before, b"LOG 1 ", keys=keys_of(texts_of))


def log_items(size):
    """Updates of the most additions."""
    text = b'Authorizer:"a"\nComment: ' + b"x" * 30 + b"\n"
    before = [ADMIN, *[block(b"BATCH", item(text) * ITEMS)] * (LOGGED - 1), block(b"BATCH", item(text) * (ITEMS - 1))]
    return trial(b"LOG %d\n" % (1 + LOGGED - size), before, b"LOG ", keys=keys_of([text]))


def log_behind(size):
    """The newest updates behind so many changes."""
    pair = b"ADD %d\n%s\nDROP a%%d\n" % (len(SHORT), SHORT)
    firsts = range(2, 2 + (size - 2) // 2 - 127, 128)
    blocks = [b"".join(pair % number for number in range(first, first + 128)) for first in firsts]
    newest = 1 + len(blocks)
    before = [ADMIN, *(block(b"BATCH", items) for items in blocks)]
    return trial(b"LOG %d\n" % max(0, newest - LOGGED), before, b"LOG ", keys=keys_of([SHORT]))


FAMILIES = [
    Family("ADD", "a text", "bytes", ASSERTION_BYTES, add_text, {"style": READ}),
    Family("ADD", "a faulty text", "bytes", ASSERTION_BYTES, add_faulty,
           {"style": READ, "fault": list(texts.FAULTS)}),
    Family("ADD", "many live", "credentials", LIVE, add_behind),
    Family("ADD", "many digests", "digests", DIGESTS, add_listed),
    Family("DROP", "many live", "credentials", LIVE, drop, {"at": ["first", "last"]}),
    Family("DROP", "an old version goes", "bytes", LIVE_BYTES // 2, gone, {"style": HELD}),
    Family("BATCH", "a text", "bytes", ITEM_BYTES, batch_text, {"style": READ}),
    Family("BATCH", "a refused item", "bytes", BLOCK_BYTES - 12, batch_refused, {"style": READ}),
    Family("BATCH", "additions", "items", ITEMS, batch_adds, {"listed": [0]}),
    Family("BATCH", "additions, most digests", "items", ITEMS, batch_adds, {"listed": [DIGESTS]}),
    Family("BATCH", "removals", "items", ITEMS, batch_drops, {"at": ["apart", "first"]}),
    Family("BATCH", "additions and removals", "items", ITEMS, batch_passing),
    Family("LOG", "long texts", "updates", LOGGED, log_texts, {"style": ["comment", "parts"]}),
    Family("LOG", "many items", "updates", LOGGED, log_items),
    Family("LOG", "behind many changes", "changes", 65536, log_behind),
]
