#!/usr/bin/env bash
# Runs the program on each folder of tests/cases and each of examples, or on those of the cases that are named.
#
# A case is a folder with these files; it is copied, and the program is started in the copy:
#   words     the words after the program's name, one a line (no file: ask p.kn)
#   input     standard input (no file: nothing)
#   output    what standard output must be; nothing may be written to standard error
#   status    the exit status
#   memory    the KiB of address space that the program has (no file: as the shell has)
#   seconds   the seconds of processor time that the program has (no file: as the shell has)
#   make      a script that writes the large ones of these files into the copy
#   start     a script that starts the program, whose path is its first word, with an input or an output of another
#             kind, or more than once; what it writes and its status count as the program's
#
# An example is a folder with policy.kn, requests.txt and replies.txt: what `ask` writes for the requests, with the
# key file keys.txt where there is one.
#
# KEYNOTED names another program than the one that is built here. LIMIT is the seconds that a case may take, 120 where
# it isn't set: one that goes on fails.
#
# Each VALUE reply of a case is given to `check` too, which has to prove it (tests/prove). With no names given, the
# tests that README.md of this folder calls parts of it run too, those in Python where there is python3.
set -u

top=$(cd "$(dirname "${BASH_SOURCE[0]}")/.." && pwd -P) || exit 1
program=${KEYNOTED:-$top/crates/keynoted/out/keynoted}
limit=${LIMIT:-120}
# of a part that has cases of its own
limit_of_part=1800
room=$(mktemp -d) || exit 1
trap 'rm -rf "$room"' EXIT

# Runs words, and ends them with all that they started where they go on for longer: the status is then 124, or 137
# where they don't end by TERM.
within() {
    timeout -k 5 "$@"
}

# Runs the program with these words. A limit of memory holds for it alone, and not for the script that starts it.
run_program() {
    if [[ -e start ]]; then
        within "$limit" ./start "$program"
        return
    fi
    # shellcheck disable=SC2016
    within "$limit" "$BASH" -c '
        if [[ -e memory ]]; then ulimit -v "$(<memory)"; fi
        if [[ -e seconds ]]; then ulimit -t "$(<seconds)"; fi
        exec "$@"
    ' run "$program" "$@"
}

# Runs the case in the current folder, and says why it fails.
run_case() {
    local words=(ask p.kn) status
    if [[ -e make ]]; then
        within "$limit" ./make >"$room/made" 2>&1 || { echo "its files weren't made"; return; }
    fi
    [[ -e output && -e status ]] || { echo "it has no output or no status"; return; }
    [[ -e input ]] || : >input
    [[ -e words ]] && mapfile -t words <words
    run_program "${words[@]}" <input >"$room/output" 2>"$room/errors"
    status=$?
    [[ $status == 124 || $status == 137 ]] && { echo "it goes on for $limit s"; return; }
    [[ $status == "$(<status)" ]] || echo "status $status, and not $(<status)"
    cmp "$room/output" output 2>&1
    [[ -s $room/errors ]] && echo "on standard error: $(head -c 300 "$room/errors")"
    if [[ ${words[0]-} == ask ]] && grep -q '^VALUE ' "$room/output"; then
        within "$limit" "$top/tests/prove" "$program" "${words[1]}" input "$room/output" 2>&1 ||
            echo "its replies aren't proved"
    fi
}

# What isn't built yet is built here, before the cases. The program itself never ends with 125.
if [[ -z ${KEYNOTED-} ]]; then
    "$top/keynoted" ask "$top/crates/keynoted/data/p.kn" </dev/null >/dev/null
    if [[ $? == 125 ]]; then
        echo "the program can't be built"
        exit 1
    fi
fi

passed=0 failed=0
if (($# == 0)); then
    for example in "$top"/examples/*/; do
        [[ -e $example/requests.txt ]] || continue
        keys=()
        [[ -e $example/keys.txt ]] && keys=("$example/keys.txt")
        if within "$limit" "$program" ask "$example/policy.kn" "${keys[@]}" <"$example/requests.txt" >"$room/output" &&
            cmp "$room/output" "$example/replies.txt" &&
            within "$limit" "$top/tests/prove" "$program" "$example/policy.kn" "$example/requests.txt" \
                "$room/output"; then
            ((passed += 1))
        else
            ((failed += 1))
            printf 'FAILED example %s\n' "$example"
        fi
    done
    parts=(tests/{script,build,harness,service,install,pipe,docs} clients/python/tests.py)
    for part in "${parts[@]}"; do
        if [[ $(head -n 1 "$top/$part") == *python3 ]] && ! command -v python3 >/dev/null; then
            echo "$part is left out: there is no python3"
        elif within "$limit_of_part" "$top/$part" "$program" >"$room/output" 2>&1; then
            ((passed += 1))
            grep 'left out' "$room/output"
        else
            ((failed += 1))
            printf 'FAILED %s\n' "$part"
            cat "$room/output"
        fi
    done
    set -- "$top"/tests/cases/*
fi
for case in "$@"; do
    name=$(basename "$case")
    rm -rf "$room/case"
    cp -R "$top/tests/cases/$name" "$room/case" || exit 1
    why=$(cd "$room/case" && run_case)
    if [[ -z $why ]]; then
        ((passed += 1))
    else
        ((failed += 1))
        printf 'FAILED %s\n%s\n' "$name" "$why"
    fi
done
echo "$passed passed, $failed failed"
((failed == 0 && passed > 0))
