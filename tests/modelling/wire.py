"""The requests of a byte stream, the items of a batch, and the form of a VALUE reply, as PROTOCOL.md says."""

import collections
import re

LINE_BYTES, BLOCK_BYTES, ITEMS = 8192, 16384, 256
NUMBER = rb"(0|[1-9][0-9]{0,8})"
PAIRS = rb"((?:[0-9a-fA-F]{2})%s)"
# the forms of lines: an empty part that is left out is the empty text
FORMS = [
    ("open", rb"OPEN"),
    ("close", rb"CLOSE " + NUMBER),
    ("pin", rb"PIN " + NUMBER),
    ("pin_at", rb"PIN " + NUMBER + b" " + NUMBER),
    ("assert", rb"ASSERT " + NUMBER + b" " + NUMBER),
    ("retract", rb"RETRACT " + NUMBER + b" p" + NUMBER),
    ("set", rb"SET " + NUMBER + rb" ([^ ]+)(?: (.*))?"),
    ("setx", rb"SETX " + NUMBER + rb" ([^ ]+)(?: " + PAIRS % b"*" + b")?"),
    ("unset", rb"UNSET " + NUMBER + b" ([^ ]+)"),
    ("auth", rb"AUTH " + NUMBER + b" (.*)"),
    ("unauth", rb"UNAUTH " + NUMBER + b" (.*)"),
    ("clear", rb"CLEAR " + NUMBER),
    ("query", rb"QUERY " + NUMBER + b" (.*)"),
    ("watch", rb"WATCH " + NUMBER + b" (.*)"),
    ("news", rb"NEWS " + NUMBER),
    ("unwatch", rb"UNWATCH " + NUMBER),
    ("critical", rb"CRITICAL " + NUMBER + b" (.*)"),
    ("admin", rb"ADMIN " + PAIRS % b"+"),
    ("add", rb"ADD " + NUMBER),
    ("drop", rb"DROP a" + NUMBER),
    ("batch", rb"BATCH " + NUMBER),
    ("log", rb"LOG " + NUMBER),
    ("bye", rb"BYE"),
]
FORMS = [(kind, re.compile(form, re.DOTALL)) for kind, form in FORMS]
COMMANDS = {form.pattern.split(b" ")[0] for _, form in FORMS}
WITH_BLOCK = ("assert", "add", "batch")
ITEM = re.compile(rb"ADD " + NUMBER + rb"\n|DROP a" + NUMBER + rb"\n")
VALUE = re.compile(rb"VALUE " + NUMBER + rb" ([!-+\--~]+) " + NUMBER + b" " + NUMBER)
ROW = re.compile(rb"ROW " + NUMBER + rb" ([ap](?:0|[1-9][0-9]{0,8})) " + rb'"((?:[ !#-\[\]-~]|\\["\\]|\\[0-7]{3})*)"')

# kind is one of FORMS or a fault of the line or the block: syntax, command, long, block
Request = collections.namedtuple("Request", "kind parts")
FAULTS = {"syntax": b"NO 1 syntax\n", "command": b"NO 2 command\n", "long": b"NO 14 long\n", "block": b"NO 15 block\n"}


class BatchFault(Exception):
    """A block of BATCH departs from its form at this item."""


def read_line(line):
    """The request that the line spells; parts are the numbers, and then bytes."""
    if line.split(b" ")[0] not in COMMANDS:
        return Request("command", [])
    for kind, form in FORMS:
        found = form.fullmatch(line)
        if found:
            return Request(kind, [part or b"" for part in found.groups()])
    return Request("syntax", [])


def take_request(text, at):
    """The first request from this place on and where it ends; None where it isn't whole."""
    end = text.find(b"\n", at, at + LINE_BYTES + 1)
    if end < 0 and len(text) - at <= LINE_BYTES:
        return None
    if end < 0:
        end = text.find(b"\n", at)
        return Request("long", []), (end + 1 or len(text))
    line = text[at:end]
    request = read_line(line[:-1] if line.endswith(b"\r") else line)
    if request.kind not in WITH_BLOCK:
        return request, end + 1
    return take_block(text, end + 1, request)


def take_block(text, at, request):
    size = int(request.parts[-1])
    behind = text[at + size:at + size + 1]
    if size > BLOCK_BYTES or behind not in (b"", b"\n"):
        return Request("block", [size]), len(text)
    if not behind:
        return None
    return Request(request.kind, [*request.parts[:-1], text[at:at + size]]), at + size + 1


def split_items(block):
    """The changes that a block of BATCH spells: texts that are added, and numbers of ids that are removed."""
    changes, at = [], 0
    while at < len(block) or not changes:
        found = ITEM.match(block, at)
        if len(changes) == ITEMS or not found:
            raise BatchFault(len(changes) + 1)
        at = found.end()
        if found[1] is None:
            changes.append(int(found[2]))
            continue
        text = block[at:at + int(found[1])]
        at += len(text) + 1
        if len(text) < int(found[1]) or block[at - 1:at] != b"\n":
            raise BatchFault(len(changes) + 1)
        changes.append(text)
    return changes


def spell_item(change):
    return b"ADD %d\n%s\n" % (len(change), change) if isinstance(change, bytes) else b"DROP a%d\n" % change


def spell_principal(principal):
    return b"".join(
        b"\\" + bytes([byte]) if byte in b'"\\' else bytes([byte]) if 32 <= byte <= 126 else b"\\%03o" % byte
        for byte in principal
    )
