#!/usr/bin/env python3
"""Measures `decode`, `Work::for_graph` and `encode_with` by the program crates/bench_ndr: nanoseconds an item for five works at two sizes, next to a copy of the octets, and the peak
memory of decoding beyond that of an empty run, where the octets come straight from the input.

    bench/ndr.py                 builds the program if it is not there, and measures it
    bench/ndr.py --program PATH  measures another program
    bench/ndr.py --runs N        so many rounds in each run of the program (default 60; the first ones are slower)
    bench/ndr.py --turns N       so many runs, of which each time is the least (default 8)
    bench/ndr.py --libndr PATH   runs this program too, in turns with the other, which measures Samba's libndr on the same works, and says how many times as long ours takes
    bench/ndr.py --octets DIR    writes the octets of the works to files of this folder and ends

The works are a conformant array of 1,000,000 longs, one of 500,000 structs of a byte, a hyper and a short, 200,000 unique pointers to strings of 12 octets, 16,777,208 bytes,
and a list of 100,000 nodes over unique pointers.

The lines of the program that measures libndr begin with its name, the work (longs, recs, strs, octs or chain) and `decode` or `encode`, and each has its nanoseconds an item as
`12.34 ns/item`.

It needs the program `time`. The status is 1 if twice the items take more than three times as long, if a work takes more memory than its limit, or if a run fails.
"""

import argparse
import os
import re
import struct
import subprocess
import sys
import tempfile

ROOT = os.path.dirname(os.path.dirname(os.path.abspath(__file__)))
CRATE = os.path.join(ROOT, "crates", "bench_ndr")
PROGRAM = os.path.join(CRATE, "out", "bench_ndr")
MOST_GROWTH = 3.0
IDL = """[uuid(5c8a1f10-7b0e-4d3a-9a52-0c1de0000005), version(1.0), pointer_default(unique)]
interface bn {
  typedef struct { byte t; hyper h; short s; } rec;
  typedef struct lnode { long v; [unique] struct lnode *next; } lnode;
  typedef struct { [unique, string] char *s; } str;
  void longs([in] unsigned long n, [in, size_is(n)] long a[*]);
  void recs([in] unsigned long n, [in, size_is(n)] rec a[*]);
  void strs([in] unsigned long n, [in, size_is(n)] str a[*]);
  void octs([in] unsigned long n, [in, size_is(n)] byte d[*]);
  void chain([in, unique] lnode *p);
}
"""


def longs(count):
    return struct.pack(f"<II{count}i", count, count, *range(count))


def recs(count):
    """Structs of 24 octets, of which the last has no gap after it. The first is on a multiple of 8."""
    octets = bytearray(struct.pack("<II", count, count))
    for k in range(count):
        octets += struct.pack("<B7xqh6x", k & 255, k, (k + 32768) % 65536 - 32768)
    return bytes(octets[:-6])


def strs(count):
    """Pointers, then their strings: a maximum count, an offset, an actual count and the octets, each on a multiple of 4."""
    octets = bytearray(struct.pack("<II", count, count))
    octets += struct.pack(f"<{count}I", *range(1, count + 1))
    for k in range(count):
        text = b"name%07u\0" % k
        octets += b"\0" * (-len(octets) % 4) + struct.pack("<III", len(text), 0, len(text)) + text
    return bytes(octets)


def octs(count):
    return struct.pack("<II", count, count) + b"\7" * count


def chain(count):
    octets = bytearray(struct.pack("<I", 1))
    for k in range(count):
        octets += struct.pack("<iI", k, k + 2 if k + 1 < count else 0)
    return bytes(octets)


# each work with its operation, its items, and the most octets of memory that an item may take
WORKS = [
    ("longs", longs, 0, 1_000_000, 6.0),
    ("recs", recs, 1, 500_000, None),
    ("strs", strs, 2, 200_000, None),
    ("octs", octs, 3, 16_777_208, 2.5),
    ("chain", chain, 4, 100_000, None),
]


def built():
    if not os.path.exists(PROGRAM):
        subprocess.run(["rt", "run"], cwd=CRATE, check=True, stdout=subprocess.DEVNULL)


def run(program, folder, op, rounds, octets):
    """The line of a run, and its peak memory in octets. A small program starts it, since a process begins with the peak of the one that started it."""
    path = os.path.join(folder, "octets")
    with open(path, "wb") as file:
        file.write(octets)
    with open(path, "rb") as file:
        words = ["time", "-f", "%M", program, "bn.idl", str(op), str(rounds)]
        done = subprocess.run(words, cwd=folder, stdin=file, stdout=subprocess.PIPE, stderr=subprocess.PIPE, text=True)
    if done.returncode != 0:
        raise SystemExit(f"operation {op}: status {done.returncode}")
    return done.stdout, int(done.stderr.split()[-1]) * 1024


def times(line):
    """The nanoseconds of a copy, of decoding, of preparing a work and of encoding by it."""
    return [int(ns) for ns in re.search(r"copy (\d+) ns, decode (\d+) ns, prepare (\d+) ns, encode (\d+) ns", line).groups()]


def of_libndr(program, least):
    """What libndr takes at the least, with what it took before: nanoseconds an item by the work and `decode` or `encode`."""
    shown = subprocess.run([program], check=True, stdout=subprocess.PIPE, text=True).stdout
    seen = set()
    for name, side, ns in re.findall(r"^\S+ +(\w+) +(decode|encode) .*?([0-9.]+) ns/item", shown, flags=re.MULTILINE):
        if (name, side) not in seen:  # a work may come again at a smaller size
            seen.add((name, side))
            least[name, side] = min(float(ns), least.get((name, side), float(ns)))


def lesser(some, others):
    """The lesser of two times of each kind."""
    return [min(pair) for pair in zip(some, others)] if others else some


def next_to_libndr(name, items, decode, prepare, encode, theirs):
    """What libndr takes for a work, and how many times as long ours takes."""
    ours = [("decode", "decode", decode), ("encode_with", "encode", encode), ("prepare and encode_with", "encode", prepare + encode)]
    told = [f"{what} {ns / items / theirs[name, side]:.2f} times its {side} of {theirs[name, side]:.2f}" for what, side, ns in ours if (name, side) in theirs]
    return ", ".join(told) or "libndr has no such work"


def main():
    parser = argparse.ArgumentParser(description=__doc__, formatter_class=argparse.RawDescriptionHelpFormatter)
    parser.add_argument("--program", default=PROGRAM)
    parser.add_argument("--runs", type=int, default=60)
    parser.add_argument("--turns", type=int, default=8)
    parser.add_argument("--libndr")
    parser.add_argument("--octets")
    words = parser.parse_args()
    if words.octets:
        for name, make, _, items, _ in WORKS:
            with open(os.path.join(words.octets, name), "wb") as file:
                file.write(make(items))
        return 0
    if words.program == PROGRAM:
        built()
    status = 0
    theirs, ours = {}, {}
    with tempfile.TemporaryDirectory() as folder:
        with open(os.path.join(folder, "bn.idl"), "w") as file:
            file.write(IDL)
        for _ in range(words.turns):
            if words.libndr:
                of_libndr(words.libndr, theirs)
            for name, make, op, items, _ in WORKS:
                for size in items // 2, items:
                    ours[name, size] = lesser(times(run(words.program, folder, op, words.runs, make(size))[0]), ours.get((name, size)))
        for name, make, op, items, most in WORKS:
            small, (copy, decode, prepare, encode) = ours[name, items // 2], ours[name, items]
            _, empty = run(words.program, folder, op, 0, make(1))
            _, peak = run(words.program, folder, op, 0, make(items))
            growth = (decode + prepare + encode) / sum(small[1:])
            memory = (peak - empty) / items
            bad = growth > MOST_GROWTH or (most is not None and memory > most)
            status = 1 if bad else status
            print(f"{name}: {items} items; ns an item: copy {copy / items:.2f}, decode {decode / items:.2f}, prepare {prepare / items:.2f}, encode {encode / items:.2f}; ", end="")
            print(f"grows {growth:.1f} times from a half; {memory:.1f} octets of memory an item{' TOO MUCH' if bad else ''}", flush=True)
            if words.libndr:
                print(f"  next to libndr: {next_to_libndr(name, items, decode, prepare, encode, theirs)}", flush=True)
    return status


if __name__ == "__main__":
    sys.exit(main())
