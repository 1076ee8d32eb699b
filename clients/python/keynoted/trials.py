"""What the program says of scripts of requests where a comparison of the policy were true, or false: so it is seen
whether an answer hangs on an attribute that no request sets."""

from __future__ import annotations

import os
import re
import subprocess
import tempfile
from typing import Iterator, List, Optional, Sequence, Tuple

from .comparing import attribute_of
from .parts import Part, Script, words
from .texts import read_file
from .trees import COMPARISONS, Node, nodes_of
from .vocabulary import COUNTER, NULLS

MOST = 12  # comparisons that are tried
TIME = 10.0  # seconds for one run
INDEX = re.compile(rb"^(?:VALUE|NEWS|CRITICAL) ([0-9]+) ", re.M)  # of the reply to a question
YES = {b"yes", b"true", b"1", b"on", b"y"}


class Trials:
    """Runs of a policy's scripts, each with another text in place of a comparison."""

    def __init__(self, policy: str, scripts: Sequence[str], keys: Optional[str], program: str) -> None:
        self.policy, self.keys, self.program = read_file(policy), keys, program
        self.scripts = [read_file(it) for it in scripts]
        self.first = self.indices(self.policy)

    def indices(self, policy: bytes) -> List[int]:
        """The indices of all replies to questions; none where the program gives none in its time."""
        with tempfile.TemporaryDirectory() as room:
            name = os.path.join(room, "policy.kn")
            with open(name, "wb") as file:
                file.write(policy)
            told = [self.program, "ask", name] + ([self.keys] if self.keys else [])
            try:
                outputs = [run_once(told, script) for script in self.scripts]
            except subprocess.TimeoutExpired:
                return []
        return [int(it) for output in outputs for it in INDEX.findall(output)]

    def with_text(self, part: Part, node: Node, text: bytes) -> List[int]:
        start, end = part.start + node.start, part.start + node.end
        return self.indices(self.policy[:start] + text + self.policy[end:])


def run_once(told: Sequence[str], script: bytes) -> bytes:
    """What a command writes over a script."""
    run = subprocess.run(told, input=script, stdout=subprocess.PIPE, timeout=TIME, check=False)
    return run.stdout


def lint_unset(own: Sequence[Part], script: Script, trials: Trials) -> Iterator[Tuple[Part, str, int, str]]:
    """Comparisons of attributes that no request sets, where an answer hangs on that."""
    if not trials.first:
        return
    tried = 0
    for part in own:
        for node in (it for it in nodes_of(part.clauses) if it.sign in COMPARISONS):
            name = unset_name(part, node, script)
            if not name or tried >= MOST:
                continue
            tried += 1
            what = hangs_on(part, node, name, trials)
            if what:
                at = next(it.start for it in node.walk() if it.sign == "name" and it.text == name)
                yield part, "unset", at, f"no request sets {words(name)}, so {what}"


def lint_unmet(own: Sequence[Part], script: Script, trials: Trials) -> Iterator[Tuple[Part, str, int, str]]:
    """The one comparison without which a query would be granted, where no query of the scripts is."""
    if not trials.first or any(trials.first):
        return
    nodes = [(part, it) for part in own for it in nodes_of(part.clauses) if it.sign in COMPARISONS]
    found = [(part, it) for part, it in nodes[:MOST] if differs(trials.with_text(part, it, b"true"), trials.first)]
    for part, node in found if len(found) == 1 and len(nodes) <= MOST else ():
        if not unset_name(part, node, script):
            yield part, "unmet", node.start, "no query of the script meets this test, and without it one would get more"


def unset_name(part: Part, node: Node, script: Script) -> bytes:
    """The attribute of a comparison that no request sets, where it may matter."""
    sides = [it.parts[0] if it.sign == "@" else it for it in node.parts]
    values = [part.value(it) for it in sides]
    names = [attribute_of(part, it) for it in sides]
    unset = [it for it in names if it and it not in script.settings and it[:1] != b"_" and it.lower() not in NULLS]
    is_guard = b"" in values
    is_flag = any(it is not None and it.lower() in YES for it in values)
    return b"" if not unset or is_guard or is_flag else unset[0]


def hangs_on(part: Part, node: Node, name: bytes, trials: Trials) -> str:
    """How the answer to a query hangs on an attribute that isn't set; empty where that may be meant."""
    if differs(trials.first, trials.with_text(part, node, b"false")):
        is_count = COUNTER.search(name) and node.sign in ("<", "<=", ">", ">=")
        return "" if is_count else "it is the empty text, and this test is true: a query gets more by that"
    are_names = all(attribute_of(part, it.parts[0] if it.sign == "@" else it) for it in node.parts)
    if (are_names or not any(trials.first)) and differs(trials.with_text(part, node, b"true"), trials.first):
        return "it is the empty text, and this test is false: a query gets less by that"
    return ""


def differs(more: List[int], less: List[int]) -> bool:
    """Whether one run has a higher answer than the other."""
    return len(more) == len(less) and any(one > other for one, other in zip(more, less))
