#!/usr/bin/env python3
"""Measures `join` and `split` by the program crates/bench_pdu: gigabytes of stub data a second of a request in fragments of 4,280 octets, next to a copy of the stub data, and
nanoseconds a fragment of a request in fragments of one octet.

    bench/fragments.py                 builds the program if it is not there, and measures it
    bench/fragments.py --program PATH  measures this build of it
    bench/fragments.py --rounds N      so many rounds in each run of the program (default 20)
    bench/fragments.py --runs N        takes the least of so many runs (default 5)

The stub data are 67,108,864 octets, and a tenth of them; and 1,000,000 octets and a tenth of these, one in each fragment. The fragments are in memory. A time is the processor
time of a run, in the program and in the system, beyond that of a run with no rounds. The C library keeps the memory of a round for the next one, as in a program that has run
for long; what the large stub data take in memory that is touched for the first time is measured too.

The status is 1 if the large stub data are joined at less than 1 gigabyte a second or split at less than 2, if ten times the octets take more than sixteen times as long, or if a
run fails.
"""

import argparse
import os
import struct
import subprocess
import sys
import tempfile

ROOT = os.path.dirname(os.path.dirname(os.path.abspath(__file__)))
CRATE = os.path.join(ROOT, "crates", "bench_pdu")
PROGRAM = os.path.join(CRATE, "out", "bench_pdu")
MAX = 4_280
HEADER = 24
LARGE = 67_108_864
MANY = 1_000_000
LEAST_JOINED, LEAST_SPLIT = 1.0, 2.0
MOST_GROWTH = 16.0
KEPT = {"MALLOC_MMAP_MAX_": "0", "MALLOC_TRIM_THRESHOLD_": "4000000000"}  # the GNU C library gives no memory back


def built():
    if not os.path.exists(PROGRAM):
        subprocess.run(["rt", "run"], cwd=CRATE, check=True, stdout=subprocess.DEVNULL)


def fragments(count, part):
    """The fragments of a request in little order with so many octets of stub data, each but the last with `part` of them."""
    octets = bytearray()
    for at in range(0, count, part):
        here = min(part, count - at)
        flags = (at == 0) + 2 * (at + here == count)
        octets += struct.pack("<BBBB4sHHIIHH", 5, 0, 0, flags, b"\x10\0\0\0", HEADER + here, 0, 1, count, 0, 0) + b"\7" * here
    return octets


class Bench:
    def __init__(self, words, count, part):
        self.words, self.count = words, count
        self.file = tempfile.TemporaryFile()
        self.wanted = b"%d octets, %d of stub data\n" % (self.file.write(fragments(count, part)), count)

    def run(self, what, rounds, more):
        """The seconds of a processor that a run takes."""
        self.file.seek(0)
        child = subprocess.Popen([self.words.program, what, str(rounds)], stdin=self.file, stdout=subprocess.PIPE, env={**os.environ, **more})
        shown = child.stdout.read()
        child.stdout.close()
        _, status, usage = os.wait4(child.pid, 0)
        child.returncode = os.waitstatus_to_exitcode(status)
        if child.returncode != 0 or shown != self.wanted:
            raise SystemExit(f"{what}: status {child.returncode}, {shown[:200]!r} and not {self.wanted!r}")
        return usage.ru_utime + usage.ru_stime

    def seconds(self, what, more=KEPT):
        """The seconds of a processor that one round takes."""
        rounds = self.words.rounds * max(1, LARGE // 10 // self.count)
        pairs = [(self.run(what, 0, more), self.run(what, rounds, more)) for _ in range(self.words.runs)]
        none, all_of_them = map(min, zip(*pairs))
        return (all_of_them - none) / rounds


def slow(most, found):
    return " TOO SLOW" if found > most else ""


def large(words):
    """What stub data in large fragments take."""
    bench, tenth = Bench(words, LARGE, MAX - HEADER), Bench(words, LARGE // 10, MAX - HEADER)
    times = {what: bench.seconds(what) for what in ("copy", "join", "split")}
    growths = {what: times[what] / tenth.seconds(what) for what in ("join", "split")}
    first = {what: bench.seconds(what, {}) for what in times}
    speeds = {what: LARGE / seconds / 1e9 for what, seconds in times.items()}
    yield (f"{LARGE} octets in fragments of {MAX}: copy {speeds['copy']:.1f} GB/s, join {speeds['join']:.1f} GB/s{slow(-LEAST_JOINED, -speeds['join'])}, "
           f"split {speeds['split']:.1f} GB/s{slow(-LEAST_SPLIT, -speeds['split'])}")
    for what, growth in growths.items():
        yield f"  {what}: {times[what] / times['copy']:.2f} times as long as the copy; ten times the octets {growth:.1f} times as long{slow(MOST_GROWTH, growth)}"
    yield "  in memory that is touched for the first time: " + ", ".join(f"{what} {LARGE / seconds / 1e9:.1f} GB/s" for what, seconds in first.items())


def many(words):
    """What fragments of one octet each take."""
    join, tenth = Bench(words, MANY, 1).seconds("join"), Bench(words, MANY // 10, 1).seconds("join")
    yield f"{MANY} fragments of one octet: join {join / MANY * 1e9:.0f} ns a fragment; ten times the fragments {join / tenth:.1f} times as long{slow(MOST_GROWTH, join / tenth)}"


def main():
    parser = argparse.ArgumentParser(description=__doc__, formatter_class=argparse.RawDescriptionHelpFormatter)
    parser.add_argument("--program", default=PROGRAM)
    parser.add_argument("--rounds", type=int, default=20)
    parser.add_argument("--runs", type=int, default=5)
    words = parser.parse_args()
    if words.program == PROGRAM:
        built()
    status = 0
    for lines in large, many:
        for line in lines(words):
            print(line, flush=True)
            status = 1 if "TOO SLOW" in line else status
    return status


if __name__ == "__main__":
    sys.exit(main())
