"""The command: asks once, explains errors, and warns (keynoted.py --help)."""

from __future__ import annotations

import argparse
import os
import subprocess
import sys
from typing import Optional, Sequence

from .agent import add_agent
from .connection import Connection, connect, program_of, start
from .errors import KeynotedError, LinkEnded
from .explaining import explain
from .hanging import add_hanging
from .keeping import add_log
from .linting import lint, lint_values
from .pages import run_drawing
from .restoring import add_restore
from .rotating import add_rotating
from .sending import add_record
from .texts import place_of, read_file, split_file
from .why import add_commands as add_why


def run_query(args: argparse.Namespace) -> int:
    values = args.values.split(",")
    for warning in lint_values(values):
        print(f"{args.prog}: {warning}", file=sys.stderr)
    with connected(args) as daemon:
        answer = daemon.ask(args.auth, dict(pair.partition("=")[::2] for pair in args.set), values)
    for principal in args.auth:
        print(f"{principal} asks, and has {values[-1]}")
    starts = split_file(read_file(args.policy)) if args.policy else []
    for row in answer.rows:
        number = int(row.id[1:])
        known = row.id.startswith("a") and number <= len(starts)
        where = f", {args.policy}:{place_of(read_file(args.policy), starts[number - 1][0])}" if known else ""
        print(f"{row.principal.decode('utf-8', 'replace')} has {values[row.level]} by {row.id}{where}")
    print(f"answer: {answer.name}, which is {answer.index} of {args.values}")
    return 0 if answer.at_least(args.at_least or values[-1]) else 1


def connected(args: argparse.Namespace) -> Connection:
    if bool(args.policy) == bool(args.connect):
        raise ValueError("either a policy file or --connect HOST:PORT is wanted")
    if args.connect:
        return connect(args.connect, record=args.record)
    return start(args.policy, args.keys, loading=None, record=args.record)


def run_explain(args: argparse.Namespace) -> int:
    """Draws a proof, or explains these lines, or copies standard input and explains what in it is an error."""
    if args.picture:
        return run_drawing(args)
    lines = [os.fsencode(line) for line in args.line]
    found = False
    for raw in lines or sys.stdin.buffer:
        if not lines:
            sys.stdout.buffer.write(raw)
            sys.stdout.buffer.flush()
        line = raw.rstrip(b"\n").decode("utf-8", "surrogateescape")
        try:
            told = explain(line, args.file or "")
        except OSError as why:
            told = f"{line}: {why}"
        found = found or bool(told)
        if told or lines:
            print(told or f"no error line: {line}", file=sys.stderr, flush=True)
    return 0 if found or not lines else 2


def run_lint(args: argparse.Namespace) -> int:
    if not (args.policy or args.keys):
        raise ValueError("a policy file or --keys KEYS is wanted")
    files = [args.policy or os.devnull] + ([args.keys] if args.keys else [])
    run = subprocess.run([program_of(), "ask", *files], stdin=subprocess.DEVNULL, stdout=subprocess.PIPE)
    if run.returncode:
        line = run.stdout.decode("utf-8", "surrogateescape").strip()
        raise LinkEnded(explain(line, args.keys or "") or f"the program ended with status {run.returncode}", line)
    told = lint(args.policy, args.script, args.keys, program_of())
    for line in told:
        print(line)
    return 1 if told else 0


def main(words: Optional[Sequence[str]] = None) -> int:
    """Runs the command with these words, or those of the process, and answers its status."""
    parser = argparse.ArgumentParser(prog="keynoted.py", description="Asks keynoted, explains its errors, and warns of what is surely not meant.")
    commands = parser.add_subparsers(required=True, metavar="query|why|critical|who|explain|lint|record|list|rotate|drop|log|restore|agent|submit")
    query = commands.add_parser("query", help="asks once: 0 at least the value named, 1 less, 2 an error")
    query.add_argument("policy", nargs="?", help="the policy file, unless --connect is given")
    query.add_argument("--connect", metavar="HOST:PORT", help="a daemon that serves, as localhost or [::1]:2704")
    query.add_argument("--keys", help="the key file")
    query.add_argument("--auth", action="append", default=[], metavar="PRINCIPAL", help="who asks")
    query.add_argument("--set", action="append", default=[], metavar="NAME=VALUE", help="an attribute of the action")
    query.add_argument("--values", required=True, help="the values, the lowest first, with commas between")
    query.add_argument("--at-least", metavar="VALUE", help="the value that is wanted (else the highest)")
    query.add_argument("--record", metavar="PREFIX", help="keeps what is sent and what comes: two new files")
    query.set_defaults(run=run_query, prog=parser.prog)
    told = commands.add_parser("explain", help="tells lines 'error ..' and 'NO ..' in words, on standard error")
    told.add_argument("--file", help="the text or key file that was refused, where the line doesn't name it")
    told.add_argument("line", nargs="*", help="lines (else standard input, which is copied)")
    told.add_argument("--html", dest="picture", action="store_const", const="html", help="draws a proof as a page: POLICY SCRIPT [OUTPUT] as words")
    told.add_argument("--dot", dest="picture", action="store_const", const="dot", help="the same for Graphviz")
    told.set_defaults(run=run_explain)
    warned = commands.add_parser("lint", help="warns of what is accepted and surely not meant: 0 nothing, 1 warnings, 2 an error")
    warned.add_argument("policy", nargs="?", help="the policy file; without it the key file alone is looked at")
    warned.add_argument("script", nargs="*", help="files of requests")
    warned.add_argument("--keys", help="the key file")
    warned.set_defaults(run=run_lint)
    add_record(commands, connected)
    add_why(commands)
    add_hanging(commands, connected)
    add_rotating(commands)
    add_log(commands)
    add_restore(commands)
    add_agent(commands)
    args = parser.parse_args(words)
    try:
        return int(args.run(args))
    except (KeynotedError, ValueError, OSError) as why:
        in_words = isinstance(why, LinkEnded) and why.line
        print(why if in_words else f"{parser.prog}: {why}", file=sys.stderr)
        return 2
