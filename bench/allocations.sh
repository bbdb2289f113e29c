#!/usr/bin/env bash
# Each allocation failing in turn, over the scripts and reports of examples/ and over a demo of five runs.
#
# A small allocator is built and preloaded that refuses the Nth request. The program then has to end with status 6,
# `scr: out of memory` and the beginning of what it writes: of a report up to a whole reply, of the line of `verify` and
# of the counts of `demo` nothing. Or, where it can do without, with all that it writes and its own status.
# `allocations.sh 500` makes fewer than 1,000 runs of a job, spread over its requests.
set -eu
cd "$(dirname "$0")"
work=$(mktemp -d)
trap 'rm -rf "$work"' EXIT
gcc -O2 -shared -fPIC -o "$work/failing_malloc.so" failing_malloc.c
python3 - "$work" "${1:-1000}" <<'PYTHON'
import os
import subprocess
import sys

work, most = sys.argv[1], int(sys.argv[2])
program = os.path.realpath("../crates/scr/out/scr")
subprocess.run(["../scr", "run", "none"], stderr=subprocess.DEVNULL)  # builds it, where it isn't there


def run(folder, words, number):
    """The status, the output and the standard error of a run whose request of this number is refused."""
    env = {"LD_PRELOAD": f"{work}/failing_malloc.so", "FAIL_ALLOC": str(number), "COUNT_ALLOC": f"{work}/count"}
    done = subprocess.run([program, *words], cwd=folder, env=env, capture_output=True)
    return done.returncode, done.stdout, done.stderr


def whole_replies(report):
    """The beginnings of a report that end with a whole reply."""
    ends, done = {b""}, b""
    for line in report.splitlines(keepends=True):
        if line[:1].isdigit():
            ends.add(done)
        done += line
    return ends | {done}


def jobs():
    """Each job as its name, its folder, its words, and the beginnings of its output that it may end after."""
    for name in sorted(os.listdir("../examples")):
        yield name, f"../examples/{name}", ["run", f"{name}.scr"], whole_replies
        yield f"{name}, verified", f"../examples/{name}", ["verify", f"{name}.scr", "report.txt"], lambda line: {b""}
    yield "demo 5", work, ["demo", "5"], lambda counts: {b""}


bad = 0
for name, folder, words, beginnings in jobs():
    whole = run(folder, words, 0)
    with open(f"{work}/count") as file:
        count = int(file.read())
    if count < 10:
        sys.exit(f"{name}: {count} requests were seen: the program doesn't take its memory from the C library")
    ends = beginnings(whole[1])
    numbers = range(1, count + 1, max(1, count // most))
    ended = {"status 6": 0, "the whole output": 0}
    for number in numbers:
        got = run(folder, words, number)
        if got == whole:
            ended["the whole output"] += 1
        elif got[0] == 6 and got[1] in ends and got[2] == b"scr: out of memory\n":
            ended["status 6"] += 1
        else:
            bad += 1
            print(f"{name}: request {number}: status {got[0]}, {len(got[1])} bytes, {got[2][:80]!r}")
    print(f"{name}: {count} requests, {len(numbers)} refused in turn: {ended}", flush=True)
sys.exit(1 if bad else 0)
PYTHON
