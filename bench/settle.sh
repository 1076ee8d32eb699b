#!/usr/bin/env bash
# Prints what settling takes: first of systems alone, beside a C program of the same algorithm, then of whole queries.
#
# The systems are those of `crates/kn_bench`, which wants `rt`, and of `bench/settle_c`, which is built with -O2: chains
# of 128 to 4,096 rows in the order that is worst for scans of the rows, in the best, and mixed formulas. Printed are the
# microseconds of building and of settling, the ratio to C's and that at each doubling, each from the least of several
# rounds. Both programs print first what they settled, and must agree.
#
# The queries are over generated policies of 128 to 2,048 assertions: seconds of the processor, the ratio at each doubling,
# and peak memory. Three kinds of policy: a chain whose assertions stand in the worst order, the same chain in the best, and
# a mixed one of `||`, thresholds and conditions with four compliance values. The time of a query is that of a run with one
# less that of a run with an empty input, each the least of several runs.
#
# Usage: settle.sh [RUNS]
set -u

top=$(cd "$(dirname "${BASH_SOURCE[0]}")/.." && pwd -P) || exit 1
runs=${1:-5}
room=$(mktemp -d) || exit 1
trap 'rm -rf "$room"' EXIT

# what isn't built yet is built here and before the queries, where nobody looks at the clock
ours=$top/crates/kn_bench/out/kn_bench
(cd "$top/crates/kn_bench" && rt run -- settling) >"$room/ours" || exit 1
cc -O2 -o "$room/c" "$top/bench/settle_c/settle.c" || exit 1
"$room/c" | diff "$room/ours" - || exit 1

# the two take turns, and of each the least of three counts; freed pages are kept, since the C library else gives those of a
# large list back to the system in each round
export GLIBC_TUNABLES=glibc.malloc.mmap_threshold=64000000:glibc.malloc.trim_threshold=256000000
for _ in 1 2 3; do
    "$ours" settling time >>"$room/times.ours" && "$room/c" time >>"$room/times.c" || exit 1
done
python3 - "$room" <<'PYTHON'
import sys

room = sys.argv[1]


def least(name):
    """The nanoseconds of building and of settling, by shape and size."""
    times = {}
    with open(f"{room}/times.{name}") as file:
        for line in file:
            shape, size, building, settling = line.split()
            key = (shape, int(size))
            before = times.get(key, (10**18, 10**18))
            times[key] = (min(before[0], int(building)), min(before[1], int(settling)))
    return times


ours, c = least("ours"), least("c")
for place, part in enumerate(("building", "settling")):
    print(f"{part}, microseconds{'':3}   ours    growth         C      of C")
    for shape, size in ours:
        spent, other = ours[shape, size][place], c[shape, size][place]
        before = ours.get((shape, size // 2))
        growth = f"{spent / before[place]:10.2f}" if before else f"{'':10}"
        print(f"{shape:12} {size:6} {spent / 1000:10.1f}{growth}{other / 1000:10.1f}{spent / other:10.2f}")
PYTHON

unset GLIBC_TUNABLES

"$top/keynoted" ask "$top/crates/keynoted/data/p.kn" </dev/null >/dev/null
[[ $? == 125 ]] && exit 1

python3 - "$top/crates/keynoted/out/keynoted" "$room" "$runs" <<'PYTHON'
import os
import random
import resource
import subprocess
import sys

TIME = "/usr/bin/time"
program, room, runs = sys.argv[1], sys.argv[2], int(sys.argv[3])


def chain(size):
    """POLICY licenses p1, and each p licenses the next one. The last one requests."""
    pairs = [("POLICY", "p1"), *((f"p{i}", f"p{i + 1}") for i in range(1, size))]
    return [f'Authorizer: "{a}"\nLicensees: "{b}"\n' for a, b in pairs], f"p{size}"


def worst(size):
    return chain(size)


def best(size):
    texts, requester = chain(size)
    return texts[::-1], requester


def mixed(size):
    """Each p licenses a later one or two of three others, under conditions. The last one requests."""
    draw = random.Random(size).randrange
    texts = ['Authorizer: "POLICY"\nLicensees: "p0"\n']
    for i in range(size - 1):
        a = draw(i + 1, size)
        b, c, d = (draw(size) for _ in range(3))
        texts.append(
            f'Authorizer: "p{i}"\nLicensees: "p{a}" || 2-of("p{b}","p{c}","p{d}")\n'
            f'Conditions: @level > {draw(10)} -> "v{draw(4)}"; true -> "v1";\n'
        )
    return texts, f"p{size - 1}"


def write(name, text):
    with open(f"{room}/{name}", "w") as file:
        file.write(text)


def processor_seconds():
    """What the programs that have ended took of the processor so far."""
    used = resource.getrusage(resource.RUSAGE_CHILDREN)
    return used.ru_utime + used.ru_stime


def run_program(measure=()):
    """Runs the program once, and tells what it wrote and the seconds that it took."""
    with open(f"{room}/input") as given:
        start = processor_seconds()
        ran = subprocess.run([*measure, program, "ask", f"{room}/p.kn"], stdin=given, capture_output=True, text=True)
        seconds = processor_seconds() - start
    if ran.returncode != 0:
        sys.exit(f"the program ended with {ran.returncode} and wrote {ran.stdout!r}")
    return ran.stdout, seconds


def peak_memory():
    """The most memory of one run, in KiB. A child of python3 counts what python3 had, so this wants time's."""
    if not os.access(TIME, os.X_OK):
        return 0
    run_program((TIME, "-f", "%M", "-o", f"{room}/memory"))
    with open(f"{room}/memory") as file:
        return int(file.read())


def least_seconds(text):
    write("input", text)
    return min(run_program()[1] for _ in range(runs))


def query_seconds(size, make):
    texts, requester = make(size)
    write("p.kn", "\n".join(texts))
    loading = least_seconds("")
    whole = least_seconds(f"OPEN\nSET 1 level 5\nAUTH 1 {requester}\nQUERY 1 v0,v1,v2,v3\n")
    reply = run_program()[0]
    if f" {size} {size}\n" not in reply:
        sys.exit(f"a reply without {size} rows: {reply[:200]!r}")
    return max(whole - loading, 0.0)


print(f"the least seconds of the processor of {runs} runs; the most KiB of one" + ("" if os.access(TIME, os.X_OK) else f", not measured without {TIME}"))
for make in (worst, best, mixed):
    print(f"{make.__name__:12}      query   ratio      KiB")
    before = 0.0
    for size in (128, 256, 512, 1024, 2048):
        query = query_seconds(size, make)
        ratio = f"{query / before:8.2f}" if before else f"{'':8}"
        print(f"{size:12} {query:10.4f}{ratio} {peak_memory():8}", flush=True)
        before = query
PYTHON
