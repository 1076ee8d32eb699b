"""The rules of `lint` on one assertion: all of them, and those on remarks, letters and escapes."""

from __future__ import annotations

import re
from typing import Iterator, Optional, Tuple

from .clauses import lint_program
from .comparing import lint_bare, lint_comparisons, lint_joined
from .computing import lint_numbers
from .joining import lint_joined_tests
from .licensing import lint_licensees
from .naming import lint_constants, lint_special, lint_values_behind, lint_words
from .parts import Found, Part, Script, words
from .texts import ESCAPE, Token

# how a folder, an account or a host of Windows begins, before what the language takes for an escape
FOLDER = re.compile(rb'"(?:[A-Za-z]:|[A-Z][A-Z0-9_.-]+|\\\\[^\\"]+)(?=\\[nrtf][a-z])')
# letters that aren't seen, quotes of print, and Greek or Cyrillic letters in a word of Latin ones
UNSEEN = re.compile(
    "[\u00a0\u00ad\u200b-\u200f\u202a-\u202e\u2060\ufeff\u201c-\u201f]|[A-Za-z][\u0370-\u052f]"
    "|(?<=[\u0370-\u052f])[\u0370-\u052f](?=[A-Za-z])|^\"[\u0370-\u052f](?=[A-Za-z])"
)
CUT_OFF = re.compile(rb"#[ \t]*(?:&&|\|\||->)[^\n]*[;\"){}][ \t\r]*$", re.M)


def lint_part(part: Part, script: Script) -> Iterator[Found]:
    """What is surely not meant in one assertion."""
    yield from lint_constants(part, script)
    yield from lint_words(part, script)
    yield from lint_special(part)
    yield from lint_values_behind(part, script)
    yield from lint_comparisons(part, script)
    yield from lint_bare(part, script)
    yield from lint_joined(part, script)
    yield from lint_numbers(part)
    yield from lint_remarks(part)
    yield from lint_program(part, part.clauses, script)
    yield from lint_licensees(part, script)
    yield from lint_joined_tests(part)
    yield from lint_escapes(part)
    yield from lint_letters(part)


def lint_remarks(part: Part) -> Iterator[Found]:
    """What goes on behind a # within a line of a field, where a comment begins."""
    for field in (it for it in part.fields if it.number in (3, 5)):
        following = [it.label.start for it in part.fields if it.label.start > field.label.start]
        end = min(following, default=len(part.text))
        texts = [it for it in field.tokens if it.sort == "text"]
        for match in CUT_OFF.finditer(part.text[field.label.end:end]):
            at = field.label.end + match.start()
            if not any(it.start < at < it.end for it in texts):
                yield "remark", at, "# begins a comment here, and what stands behind it counts for nothing"


def lint_letters(part: Part) -> Iterator[Found]:
    """Letters that aren't seen, or that look like others."""
    for field in part.fields:
        for token in field.tokens if field.number in (1, 3, 5, 6) else ():
            found = UNSEEN.search(token.text.decode("utf-8", "replace")) if token.sort == "text" else None
            if found:
                what = f"this text has the letter {found[0][-1]!a}, which looks like another or isn't seen"
                yield "letters", token.start, what


def lint_escapes(part: Part) -> Iterator[Found]:
    for field in part.fields:
        for token in field.tokens if field.number in (1, 3, 5, 6) else ():
            found = unmeant(token, field.number in (1, 5)) if token.sort == "text" else None
            if found:
                yield "escape", token.start + found[0], found[1]


def unmeant(token: Token, principal: bool) -> Optional[Tuple[int, str]]:
    """The first escape of a literal in place of which a backslash was meant, and what is wrong."""
    for match in ESCAPE.finditer(token.text):
        if not is_meant(token, match.start(), match[1], principal):
            sign = words(match[1])
            return match.start(), f"the backslash before {sign} isn't part of the text: write \\\\{sign} for one"
    return None


def is_meant(token: Token, at: int, escape: bytes, principal: bool) -> bool:
    """Whether an escape is one of the language's, and stands where one is meant."""
    if escape[:1] in (b"\r", b"\n", b"\\", b'"'):
        return True
    if len(escape) == 1 and escape not in b"nrtf":
        return False
    start = FOLDER.match(token.text)
    return not (start and start.end() == at) and not (principal and len(escape) == 1)
