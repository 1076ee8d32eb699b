#!/usr/bin/env bash
# Prints how fast `ask` loads policy files of 2,048 assertions, with an empty input: megabytes a second, and its time as a
# ratio to those of `wc -l` and `sha256sum` over the same file in the same run. The policies are
#
#   short      an authorizer, a licensee and one test in each assertion, some 90 bytes
#   comments   comments within and behind the lines and in a Comment field, and blank lines between, 2 KiB each
#   dense      one condition of short tests, 2 KiB each
#   licensees  a hundred principals joined by ||, 2 KiB each
#
# Each time is the least of several runs, with the start of the program in it. The three programs run in turn, since the
# machine's own speed may change meanwhile.
#
# Usage: load.sh [RUNS]
set -u

top=$(cd "$(dirname "${BASH_SOURCE[0]}")/.." && pwd -P) || exit 1
runs=${1:-15}
room=$(mktemp -d) || exit 1
trap 'rm -rf "$room"' EXIT

# what isn't built yet is built here, where nobody looks at the clock
"$top/keynoted" ask "$top/crates/keynoted/data/p.kn" </dev/null >/dev/null
[[ $? == 125 ]] && exit 1

python3 - "$top/crates/keynoted/out/keynoted" "$room" "$runs" <<'PYTHON'
import os
import subprocess
import sys
import time

program, room, runs = sys.argv[1], sys.argv[2], int(sys.argv[3])
# the texts may have 4,194,304 bytes together, which those of 2 KiB have exactly
COUNT, SIZE = 2048, 2048


def filled(text):
    """A text of SIZE bytes, whose rest is dots."""
    return text + "." * (SIZE - len(text) - 1) + "\n"


def front(i):
    return f'Authorizer: "p{i}"\nLicensees: "p{(i * 7 + 1) % COUNT}"\n'


def short(i):
    return front(i) + f'Conditions: app == "mail" && @level > {i % 9} -> "true";\n'


def comments(i):
    text = f"# about assertion {i}\n#\nComment: it has one,\n of two lines\n{front(i)}"
    lines = [
        "    # a line of words in a comment, and its number\n",
        "          \t   # short\n",
        '# "quoted" words, and (more) of them; with signs &&\n',
    ]
    k = 0
    while len(text) + len(lines[k % 3]) < SIZE - 10:
        text += lines[k % 3]
        k += 1
    return filled(text + " # ")


def tests(i):
    """Short tests without end, each with the sign that joins it to those before."""
    k = 0
    while True:
        v = (i * 31 + k * 17) % 97
        test = [f'a{v}=="v{v}"', f"@b{v}<{v * 3}", f"(@c{v}+1)*2!=@d{v}", f'!(e{v}.f{v}<="x")', f'$g{v}>="h"'][k % 5]
        yield ("&&" if k % 3 else "\n ||") + test
        k += 1


def dense(i):
    text, last = f"{front(i)}Conditions: true", ' -> "true";\nComment: '
    for test in tests(i):
        if len(text) + len(test) + len(last) >= SIZE - 1:
            return filled(text + last)
        text += test


def licensees(i):
    names = " || ".join(f'"p{(i * 7 + k) % COUNT}"' for k in range(100))
    return filled(f'Authorizer: "p{i}"\nLicensees: {names}\nComment: ')


def seconds(command):
    """The time of one run of a command that writes little."""
    start = time.perf_counter()
    ran = subprocess.run(command, stdin=subprocess.DEVNULL, capture_output=True)
    spent = time.perf_counter() - start
    if ran.returncode != 0:
        sys.exit(f"{command[0]} ended with {ran.returncode}: {ran.stdout!r}")
    return spent


def least_seconds(*commands):
    """The least time of each command over some runs of all in turn."""
    rounds = [[seconds(command) for command in commands] for _ in range(runs)]
    return [min(times) for times in zip(*rounds)]


print(f"loading {COUNT} assertions, the least of {runs} runs; how many times as long as `wc -l` and `sha256sum` that takes")
print(f"{'policy':10} {'bytes':>8} {'seconds':>8} {'MB/s':>6} {'wc -l':>6} {'sha256sum':>9}")
for policy in (short, comments, dense, licensees):
    name = os.path.join(room, policy.__name__)
    with open(name, "w") as file:
        file.write("\n".join(map(policy, range(COUNT))))
    size = os.path.getsize(name)
    asked, lines, hashed = least_seconds([program, "ask", name], ["wc", "-l", name], ["sha256sum", name])
    print(f"{policy.__name__:10} {size:8} {asked:8.4f} {size / 1e6 / asked:6.1f} {asked / lines:6.1f} {asked / hashed:9.1f}")
PYTHON
