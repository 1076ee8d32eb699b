"""A family of requests that cost more the larger they are, and the small policies that most of them are asked over."""

import collections
import hashlib

from costing.measuring import Trial

# the request, what makes it dear, what its size counts, the greatest size, what builds a trial of a size, and the other
# things that may be chosen: the names of the words of `build`, each with the choices, the first of which is tried first
Family = collections.namedtuple("Family", "word name unit limit build choices", defaults=({},))

SECRET = b"733363726574"
ADMIN = b"ADMIN " + SECRET + b"\n"
SMALL = b'Authorizer: "POLICY"\nLicensees: "r"\n'
# the longest text that an item of a batch may add, and the longest block
ITEM_BYTES, BLOCK_BYTES = 16373, 16384


def encode(text):
    return text.encode("latin-1")


def block(word, text):
    return b"%s %d\n%s\n" % (word, len(text), text)


def file_of(texts):
    return b"\n".join(encode(text) if isinstance(text, str) else text for text in texts)


def keys_of(texts, others=0):
    """A key file by which these texts are admitted, behind so many other digests."""
    lines = [b"secret " + SECRET + b"\n"]
    lines += [b"digest %064x\n" % number for number in range(others)]
    lines += sorted({b"digest " + hashlib.sha256(text).hexdigest().encode() + b"\n" for text in texts})
    return b"".join(lines)


def trial(request, before=(), wanted=b"OK", policy=SMALL, keys=keys_of([]), ends=False):
    return Trial(policy, keys, list(before), request, wanted, ends)
