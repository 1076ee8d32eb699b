"""The rules of `lint` on key files, and what is wrong in a line of one that the program refuses."""

from __future__ import annotations

import os
import re
import stat
from typing import Dict, Iterator, Tuple

from .licensing import is_list
from .near import near_in
from .parts import Script, normal, words
from .texts import read_file

LINE = re.compile(rb"(mac|secret|digest)([ \t]*)(\S*)([ \t]*)(.*?)\r?", re.S)
MAC = re.compile(rb"(mac ([0-9A-Fa-f]+) )(.*?)\r?", re.S)
SECRET = re.compile(rb"(secret )([0-9A-Fa-f]+)\r?")
SHORT = 16  # digits of a key that can be guessed
Told = Tuple[str, str, str]  # the rule's word, the place, and what is wrong


def lint_keys(name: str, script: Script) -> Iterator[Told]:
    """What is surely not meant in a key file, by its lines and by who may read it."""
    mode = os.stat(name).st_mode
    if stat.S_ISREG(mode) and mode & (stat.S_IRWXO | stat.S_IWGRP):
        yield "key-mode", f"{name}:1:1", f"others may read or write this file of secrets: chmod 600 {name}"
    seen: Dict[bytes, bytes] = {}
    for number, line in enumerate(read_file(name).split(b"\n"), 1):
        match = MAC.fullmatch(line) or SECRET.fullmatch(line)
        if not match:
            continue
        who = normal(match[3]) if match.re is MAC else b""
        for rule, what in lint_principal(match[3], script) if who else ():
            yield rule, f"{name}:{number}:{len(match[1]) + 1}", what
        digits = match[2].lower()
        place = f"{name}:{number}:{match.start(2) + 1}"
        if seen.setdefault(digits, who) != who:
            yield "key-same", place, "these digits stand before, for somebody else: each needs digits of its own"
        if len(digits) < SHORT or len(set(digits)) < 3:
            yield "key-short", place, "these digits can be guessed: take 32 by chance (openssl rand -hex 16)"


def lint_principal(principal: bytes, script: Script) -> Iterator[Tuple[str, str]]:
    """What is surely not meant in the principal of a key."""
    known = script.authors | script.licensed
    single, told = b" ".join(principal.split()), words(principal)
    remark = re.search(rb"\s+(#|//|;)(?=\s|[A-Za-z]|$)", principal)
    if len(principal) > 1 and principal[:1] == principal[-1:] and principal[:1] in (b'"', b"'"):
        yield "key-quotes", "the quotes are part of this principal: write it without them"
    elif remark and normal(principal) not in known:
        yield "key-comment", f"no comment stands behind a principal: this one is {told!r}"
    elif principal != principal.strip() or single != principal and normal(single) in known:
        yield "key-spaces", f"each space counts, and this principal has one too many: {told!r}"
    elif is_list(principal, script):
        yield "key-list", f"one principal has a key by one line: this one is {told!r}"
    elif principal.upper() == b"POLICY":
        yield "key-policy", "who has this key may sign assertions by POLICY, and so grant anything"
    elif known and normal(principal) not in known:
        near = near_in(normal(principal), known)
        if near:
            yield "key-name", f"no assertion names {told}: is {words(near)} meant?"


def fault_of(line: bytes) -> str:
    """What is wrong in a line of a key file that the program refuses; empty where that isn't seen."""
    match = LINE.fullmatch(line)
    if not match:
        word = line.split(b" ")[0].lower()
        return f"{words(word)} is written in small letters" if word in (b"mac", b"secret", b"digest") else ""
    word, space, digits, _, rest = match.groups()
    told = f"{words(word)} takes hexadecimal digits"
    if space != b" ":
        return f"one space stands behind {words(word)}"
    if re.fullmatch(rb"0[xX][0-9A-Fa-f]+", digits):
        return f"{told}, without 0x"
    if not re.fullmatch(rb"[0-9A-Fa-f]+", digits):
        return f"{told}, two for each byte"
    if word == b"digest" and len(digits) != 64:
        return f"digest takes 64 hexadecimal digits, and these are {len(digits)}"
    if word in (b"digest", b"secret") and rest:
        return f"nothing stands behind the digits of {words(word)}"
    if len(digits) % 2:
        return f"{told}, two for each byte, and these are {len(digits)}"
    return "the principal is missing" if word == b"mac" and not rest else ""
