#!/usr/bin/env python3
"""Measures graphs by the program crates/bench_graph: nanoseconds a node at two sizes, the growth of the time, and peak memory.

    bench/graphs.py                  builds the program if it is not there, and measures it
    bench/graphs.py --cells N        the larger size; the smaller one has a tenth (default 2,000,000)
    bench/graphs.py --runs N         takes the least time of so many runs (default 3)

The status is 1 if ten times the cells take more than twelve times the processor time, or if a run fails. Nanoseconds a node are those
of a clock, so other work on the machine is in them.
"""

import argparse
import os
import re
import subprocess
import sys

ROOT = os.path.dirname(os.path.dirname(os.path.abspath(__file__)))
CRATE = os.path.join(ROOT, "crates", "bench_graph")
PROGRAM = os.path.join(CRATE, "out", "bench_graph")
# a node of a fit has 24 octets, and so has a cell
NODE_OCTETS = 24
FORMS = ("list", "unnamed", "misfit", "pointers")
MOST_GROWTH = 12.0


def built():
    if not os.path.exists(PROGRAM):
        subprocess.run(["rt", "run"], cwd=CRATE, check=True, stdout=subprocess.DEVNULL)


def run(form, count):
    """The text of a run, the octets of its nodes and cells, its nanoseconds a node by their lines, its processor time in seconds, and its
    peak memory in octets."""
    child = subprocess.Popen([PROGRAM, form, str(count)], stdout=subprocess.PIPE, text=True)
    text = child.stdout.read()
    _, status, usage = os.wait4(child.pid, 0)
    child.returncode = os.waitstatus_to_exitcode(status)
    if child.returncode != 0:
        raise SystemExit(f"{form} {count}: status {child.returncode}")
    nodes = int(re.search(r"(\d+) nodes", text).group(1))
    kept = (nodes + int(re.search(r"(\d+) cells?,", text).group(1))) * NODE_OCTETS
    spent = {name: int(ns) for name, ns in re.findall(r"^(.*): (\d+) ns a node$", text, re.M)}
    return text, kept, spent, usage.ru_utime + usage.ru_stime, usage.ru_maxrss * 1024


def least(form, count, runs):
    """The same of several runs, of which each line and the processor time are the least."""
    text, kept, spent, seconds, peak = run(form, count)
    for _ in range(runs - 1):
        _, _, again, more, _ = run(form, count)
        spent = {name: min(ns, again[name]) for name, ns in spent.items()}
        seconds = min(seconds, more)
    return text, kept, spent, seconds, peak


def main():
    parser = argparse.ArgumentParser()
    parser.add_argument("--cells", type=int, default=2_000_000)
    parser.add_argument("--runs", type=int, default=3)
    words = parser.parse_args()
    cells, runs = words.cells, words.runs
    built()
    status = 0
    _, kept, _, _, peak = run("graph", cells)
    print(f"the values of a list of {cells} cells: peak {peak / kept:.1f} times the nodes and cells of a fit")
    for form in FORMS:
        _, _, small, before, _ = least(form, cells // 10, runs)
        text, kept, large, after, peak = least(form, cells, runs)
        place = re.search(r"^misfit: (?:root|cell) .*$", text, re.M)
        slow = after > MOST_GROWTH * before
        status = 1 if slow else status
        print(f"{form}: {cells} cells or pointers, peak {peak / kept:.1f} times the nodes and cells of a fit, processor time {after:.2f} s, ", end="")
        print(f"{before:.2f} s at a tenth, grows {after / before:.1f} times{' TOO MUCH' if slow else ''}")
        for name, ns in large.items():
            print(f"  {name}: {ns} ns a node, {small[name]} at a tenth")
        if place:
            print(f"  {place.group(0)}")
    return status


if __name__ == "__main__":
    sys.exit(main())
