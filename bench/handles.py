#!/usr/bin/env python3
"""Measures a store of resources by the program crates/bench_store: nanoseconds a use, and a close with an open, at several numbers of live resources.

    bench/handles.py                 builds the program if it is not there, and measures it
    bench/handles.py --runs N        takes the least of so many runs (default 5)
    bench/handles.py --program PATH  measures this build of it

The status is 1 if a use takes more than 200 nanoseconds, or 1.5 times as much or more with 4,096 live resources as with 16, or if a run fails. Nanoseconds
are those of a clock, so other work on the machine is in them.
"""

import argparse
import os
import re
import subprocess
import sys

ROOT = os.path.dirname(os.path.dirname(os.path.abspath(__file__)))
CRATE = os.path.join(ROOT, "crates", "bench_store")
PROGRAM = os.path.join(CRATE, "out", "bench_store")
COUNTS = (16, 256, 4096)
USES = 1_000_000
MOST_NANOSECONDS = 200
MOST_GROWTH = 1.5


def built():
    if not os.path.exists(PROGRAM):
        subprocess.run(["rt", "run"], cwd=CRATE, check=True, stdout=subprocess.DEVNULL)


def run(program):
    """The nanoseconds of a use, and of a close with an open, by the number of live resources."""
    ran = subprocess.run([program, *map(str, COUNTS)], stdout=subprocess.PIPE, text=True, check=True)
    uses = {int(count): int(ns) for count, ns in re.findall(rf"^(\d+) handles: {USES} uses, (\d+) ns a use$", ran.stdout, re.M)}
    closes = {int(count): int(ns) for count, ns in re.findall(r"^(\d+) handles: \d+ closes, (\d+) ns a close with an open$", ran.stdout, re.M)}
    if set(uses) != set(COUNTS) or set(closes) != set(COUNTS):
        raise SystemExit(f"the program wrote something else: {ran.stdout[:200]!r}")
    return uses, closes


def main():
    parser = argparse.ArgumentParser()
    parser.add_argument("--runs", type=int, default=5)
    parser.add_argument("--program")
    words = parser.parse_args()
    if words.program is None:
        built()
    program = words.program or PROGRAM
    uses, closes = run(program)
    for _ in range(words.runs - 1):
        again, closed = run(program)
        uses = {count: min(ns, again[count]) for count, ns in uses.items()}
        closes = {count: min(ns, closed[count]) for count, ns in closes.items()}
    status = 0
    for count in COUNTS:
        slow = uses[count] > MOST_NANOSECONDS
        status = 1 if slow else status
        print(f"{count} live: {uses[count]} ns a use{' TOO MUCH' if slow else ''}, {closes[count]} ns a close with an open")
    growth = uses[COUNTS[-1]] / max(1, uses[COUNTS[0]])
    grows = growth >= MOST_GROWTH
    print(f"a use: grows {growth:.2f} times from {COUNTS[0]} to {COUNTS[-1]} live{' TOO MUCH' if grows else ''}")
    return 1 if grows else status


if __name__ == "__main__":
    sys.exit(main())
