"""The line protocol as the scripts of this folder need it: the requests of an input, and the replies of an output."""

import re

LINE_BYTES = 8192
BLOCK_BYTES = 16384
BLOCK_LINE = re.compile(rb"(?:ADD|BATCH|ASSERT (?:0|[1-9][0-9]{0,8})) (0|[1-9][0-9]{0,8})\r?")
LOG_LINE = re.compile(rb"LOG \d+ (\d+) \d+\n")
UPDATE_LINE = re.compile(rb"UPDATE \d+ (\d+)\n")
ITEM_LINE = re.compile(rb"ADD (0|[1-9][0-9]{0,8})\n|DROP a(0|[1-9][0-9]{0,8})\n")


def split_requests(text):
    """The places where the requests of an input end, one by one. What is left behind the last one is no whole request."""
    ends, at = [], 0
    while True:
        line = text.find(b"\n", at, at + LINE_BYTES + 1)
        if line < 0:
            if len(text) - at <= LINE_BYTES:
                return ends
            line = text.find(b"\n", at)
            at = len(text) if line < 0 else line + 1
            ends.append(at)
            continue
        block = BLOCK_LINE.fullmatch(text, at, line)
        at = line + 1
        if block:
            behind = at + int(block[1])
            if int(block[1]) > BLOCK_BYTES or text[behind:behind + 1] not in (b"", b"\n"):
                return ends + [len(text)]
            if behind >= len(text):
                return ends
            at = behind + 1
        ends.append(at)


def split_items(text, at, most):
    """The items with which a text begins at this place, at most so many, and where they end.

    An item is the text that it adds and None, or None and the number of the id that it drops.
    """
    items = []
    while len(items) < most:
        line = ITEM_LINE.match(text, at)
        if not line:
            break
        end = line.end() + (int(line[1]) + 1 if line[1] else 0)
        if end > len(text):
            break
        items.append((text[line.end():end - 1], None) if line[1] else (None, int(line[2])))
        at = end
    return items, at


def end_of_reply(text, at):
    """Where the reply that begins at this place ends; 0 where it breaks off."""
    line = text.find(b"\n", at) + 1
    log = LOG_LINE.match(text, at)
    if text.startswith((b"VALUE ", b"CRITICAL "), at):
        end = text.find(b"\nEND\n", line - 1) if line else -1
        return end + len(b"\nEND\n") if end >= 0 else 0
    if not log:
        return line
    at = line
    for _ in range(int(log[1])):
        update = UPDATE_LINE.match(text, at)
        items, at = split_items(text, update.end(), int(update[1])) if update else ([], 0)
        if not update or len(items) < int(update[1]):
            return 0
    return at + len(b"END\n") if text.startswith(b"END\n", at) else 0


def split_replies(text):
    """The replies of an output: lines, and from VALUE, LOG or CRITICAL to END. An `error` line behind them is none."""
    replies, at = [], 0
    while end := end_of_reply(text, at):
        if not text.startswith(b"error ", at):
            replies.append(text[at:end])
        at = end
    return replies
