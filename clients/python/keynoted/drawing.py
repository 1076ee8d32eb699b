"""The picture of a proof, and its form for Graphviz. The rows are the program's, and so is what `check` says."""

from __future__ import annotations

import os
import re
import subprocess
import tempfile
from typing import Dict, FrozenSet, Iterator, List, NamedTuple, Set, Tuple

from .answers import Row
from .connection import program_of
from .errors import LinkEnded
from .explaining import explain
from .parts import Part, normal, parts_of, requests_of, words
from .sending import requests_in
from .texts import read_file
from .wire import ANY, VALUE, Replies, Request

LONGEST = 72  # characters of a principal, and of a line of a text
LINES = 14  # of a text in its box
SHAPES = {
    "credential": "shape=box", "critical": "shape=box, style=bold", "principal": "shape=box, style=rounded",
    "requester": 'shape=box, style="rounded,bold"', "absent": 'shape=box, style="rounded,dashed"',
}


class Question(NamedTuple):
    """What the last query of a script is asked by."""

    requesters: List[bytes]
    values: List[str]
    private: Dict[str, Part]


class Box(NamedTuple):
    """A box of the picture: a principal, or a credential with its text."""

    key: str
    sort: str  # requester, principal, absent, credential or critical, which is a credential too
    level: int
    head: str
    whole: str
    lines: Tuple[str, ...]
    rank: int


class Edge(NamedTuple):
    """What a principal brings to a credential, or a credential gives to its authorizer, by the level's index."""

    start: str
    end: str
    level: int


class Picture(NamedTuple):
    boxes: Dict[str, Box]
    edges: List[Edge]


class Proof:
    """A VALUE reply with the policy and the script that it answers."""

    def __init__(self, policy: str, script: str, output: bytes) -> None:
        found = [it.group() for it in re.finditer(rb"^VALUE .*?^END\n", output, re.S | re.M)]
        if not found:
            raise ValueError("there is no reply from VALUE to END")
        self.reply = found[-1]
        index, name, version, self.rows = rows_of(self.reply)
        self.index, self.name, self.version = int(index), words(name), int(version)
        self.question = question_of(script)
        self.parts = {f"a{at}": part for at, part in enumerate(parts_of(policy), 1)}
        self.parts.update(self.question.private)
        self.verdict = verdict_of(policy, script, self.reply)
        # what the answer hangs on; nothing is known of that where the files don't prove the reply
        self.critical = critical_ids(policy, script) if self.verdict.startswith("PROVED ") else frozenset()

    def level(self, index: int) -> str:
        """The name of a value; its index where the script doesn't name it."""
        if index == self.index:
            return self.name
        return self.question.values[index] if index < len(self.question.values) else str(index)

    @property
    def highest(self) -> int:
        return max([len(self.question.values) - 1, self.index, *(row.level for row in self.rows)])

    def licensees(self, row: Row) -> List[bytes]:
        part = self.parts.get(row.id)
        return list(dict.fromkeys(who for _, who in part.principals(5))) if part else []

    def leading(self) -> List[Row]:
        """The rows on which that of POLICY leans; all of them where POLICY has none."""
        wanted: Set[bytes] = {b"POLICY"}
        for row in reversed(self.rows):
            if row.principal in wanted:
                wanted |= set(self.licensees(row))
        return [row for row in self.rows if row.principal in wanted] if self.index else list(self.rows)


def rows_of(text: bytes) -> Tuple[bytes, bytes, bytes, Tuple[Row, ...]]:
    """The value, its name, the version and the rows of a reply."""
    request = Request(b"QUERY", None, VALUE)
    replies = Replies([request])
    if not replies.feed(text):
        raise ValueError("the reply isn't of its form")
    index, name, version, _ = replies.whole[0].parts(request)
    return index, name, version, replies.whole[0].rows


def question_of(script: str) -> Question:
    """What the last query of a script is asked by, where each of its requests is taken."""
    data, count = read_file(script), 0
    sessions: Dict[bytes, Question] = {}
    last = Question([], [], {})
    for _, line, start, end in requests_of(data):
        word, number, rest = (line.split(b" ", 2) + [b"", b""])[:3]
        if word == b"OPEN":
            count += 1
            sessions[b"%d" % count] = Question([], [], {})
        session = sessions.get(number)
        if not session:
            continue
        if word == b"AUTH" and normal(rest) not in session.requesters:
            session.requesters.append(normal(rest))
        elif word == b"UNAUTH" and normal(rest) in session.requesters:
            session.requesters.remove(normal(rest))
        elif word == b"CLEAR":
            session.requesters.clear()
        elif word == b"ASSERT":
            session.private[f"p{len(session.private) + 1}"] = Part(script, data, start, end)
        elif word == b"QUERY":
            last = Question(list(session.requesters), words(rest).split(","), dict(session.private))
    return last


def verdict_of(policy: str, script: str, reply: bytes) -> str:
    """What the program's `check` says of the reply, in its words and, where it is refused, in ours."""
    with tempfile.TemporaryDirectory() as room:
        name = os.path.join(room, "reply")
        with open(name, "wb") as file:
            file.write(reply)
        check = [program_of(), "check", policy, script, name]
        run = subprocess.run(check, stdin=subprocess.DEVNULL, stdout=subprocess.PIPE)
    line = run.stdout.decode("utf-8", "replace").strip()
    told = explain(line) if run.returncode else ""
    return f"{line} ({told})" if told else line


def critical_ids(policy: str, script: str) -> FrozenSet[str]:
    """What the answer to the script's last query hangs on, by the program: it is asked CRITICAL in place of QUERY."""
    asked = requests_in(read_file(script))
    requests = [Request(re.sub(rb"^QUERY ", b"CRITICAL ", it.line), it.block, ANY) for it in asked]
    given = b"".join(it.text() for it in requests)
    run = subprocess.run([program_of(), "ask", policy], input=given, stdout=subprocess.PIPE)
    replies = Replies(requests)
    try:
        replies.feed(run.stdout)
    except LinkEnded:
        pass  # the line behind the replies that says how the connection ended
    told = [reply for request, reply in zip(requests, replies.whole) if request.line.startswith(b"CRITICAL ")]
    meant = [it for it in told if it.lines[0] not in (b"NO 1 syntax", b"NO 3 session", b"NO 10 values")]
    return frozenset(meant[-1].ids if meant else ())


def picture_of(proof: Proof) -> Picture:
    """The boxes and edges of the rows on which the answer leans."""
    boxes: Dict[str, Box] = {}
    edges: List[Edge] = []
    held: Dict[bytes, int] = {}
    for who in proof.question.requesters:
        held[who] = proof.highest
    for row in proof.leading():
        licensees = proof.licensees(row)
        for who in (it for it in licensees if it in proof.question.requesters):
            boxes.setdefault(f"p{words(who)}", principal_box(who, "requester", proof.highest, 0))
        there = [f"p{words(it)}" for it in licensees if held.get(it)]
        rank = 1 + max((boxes[it].rank for it in there if it in boxes), default=0)
        key = f"c{row.id}"
        boxes[key] = credential_box(proof, row, rank)
        edges += [Edge(f"p{words(it)}", key, held.get(it, 0)) for it in licensees]
        edges.append(Edge(key, f"p{words(row.principal)}", row.level))
        boxes[f"p{words(row.principal)}"] = principal_box(row.principal, "principal", row.level, rank + 1)
        held[row.principal] = row.level
    for edge in edges:
        if edge.start not in boxes:
            boxes[edge.start] = principal_box(edge.start[1:].encode(), "absent", 0, boxes[edge.end].rank - 1)
    if "pPOLICY" not in boxes:
        top = 1 + max((it.rank for it in boxes.values()), default=-1)
        boxes["pPOLICY"] = principal_box(b"POLICY", "principal", proof.index, top)
    return Picture(boxes, edges)


def principal_box(who: bytes, sort: str, level: int, rank: int) -> Box:
    name = printable(words(who))
    return Box(f"p{words(who)}", sort, level, shortened(name), name, (), rank)


def credential_box(proof: Proof, row: Row, rank: int) -> Box:
    part, key = proof.parts.get(row.id), f"c{row.id}"
    sort = "critical" if row.id in proof.critical else "credential"
    if not part:
        lines = ["(added: its text", " isn't in the files)"]
        return Box(key, sort, row.level, row.id, f"{row.id}, whose text isn't in the files", tuple(lines), rank)
    place = printable(part.place(0))
    lines = [it for it in words(part.text).split("\n") if it.strip() and not it.startswith("#")]
    lines = [piece for it in lines for piece in wrapped(printable(it.replace("\t", "    ").rstrip()))]
    shown = lines[:LINES] + (["…"] if len(lines) > LINES else [])
    head = shortened(f"{row.id}, {os.path.basename(place)}")
    return Box(key, sort, row.level, head, f"{row.id}, {place}", tuple(shown), rank)


def shortened(text: str) -> str:
    return text if len(text) <= LONGEST else text[:LONGEST - 1] + "…"


def wrapped(line: str) -> List[str]:
    """A line in pieces that fit, cut behind spaces where there are some."""
    pieces = []
    while len(line) > LONGEST:
        cut = line.rfind(" ", LONGEST // 2, LONGEST) + 1 or LONGEST
        pieces.append(line[:cut])
        line = "    " + line[cut:]
    return pieces + [line]


def printable(text: str) -> str:
    """A text in which each character that isn't seen is spelled, since it might turn or hide others."""
    return "".join(it if it.isprintable() else f"\\u{ord(it):04x}" for it in text)


def dot_of(proof: Proof) -> Iterator[str]:
    """The picture in the language of Graphviz."""
    picture = picture_of(proof)
    names = {key: f"n{at}" for at, key in enumerate(picture.boxes)}
    yield "digraph proof {"
    yield "    rankdir=BT; node [fontname=\"monospace\", fontsize=10]; edge [fontname=\"monospace\", fontsize=9];"
    yield f"    label={dot_text(f'POLICY has {proof.name}; check says: {proof.verdict}')};"
    for key, box in picture.boxes.items():
        level = "" if box.sort in ("credential", "critical", "absent") else f"\n{proof.level(box.level)}"
        text = "\n".join([box.head, *box.lines]) + "\n" if box.lines else box.head + level
        yield f"    {names[key]} [label={dot_text(text, bool(box.lines))}, {SHAPES[box.sort]}];"
    for edge in picture.edges:
        look = f"label={dot_text(proof.level(edge.level))}" if edge.level else "style=dashed, color=gray"
        yield f"    {names[edge.start]} -> {names[edge.end]} [{look}];"
    yield "}"


def dot_text(text: str, left: bool = False) -> str:
    """A text in quotes, its lines on the left or in the middle."""
    spelled = text.replace("\\", "\\\\").replace('"', '\\"').replace("\n", "\\l" if left else "\\n")
    return f'"{spelled}"'
