#!/usr/bin/env python3
"""Measures the calls of the library in C next to those below them: how many times as long `dceidl_decode` takes as `decode`, and `dceidl_encode` as `Work::for_graph` with
`encode_with`, on the five works of bench/ndr.py, in turns; and how long a message of 40 octets takes to be decoded, read by its nodes and let go, and to be
encoded.
The C library keeps for both what they free, as in a program that has run for long: else the two are given fresh memory by the system at different calls.

    bench/library.py                 builds the library and the program crates/bench_ndr if they are not there
    bench/library.py --prefix DIR    takes the library from this folder, as bin/dceidl-lib fills it
    bench/library.py --program PATH  takes this program in place of crates/bench_ndr
    bench/library.py --dceidl PATH   also runs this dceidl on the same octets in a file, and says how many times as long its `decode` takes as decoding and text in memory
    bench/library.py --runs N        so many rounds in each run (default 20)
    bench/library.py --turns N       so many runs, of which each time is the least (default 5)

It needs `cc`. The status is 1 if a call takes more than 1.1 times as long, if the small message takes 500 ns or more, or if a run fails.
"""

import argparse
import os
import re
import struct
import subprocess
import sys
import tempfile

import ndr
from fragments import KEPT

HERE = os.path.dirname(os.path.abspath(__file__))
MOST = 1.1
OPERATIONS = ("longs", "recs", "strs", "octs", "chain")  # of the interface of bench/ndr.py, by number
MOST_SMALL = 500
SMALL_IDL = """[uuid(5c8a1f10-7b0e-4d3a-9a52-0c1de0000006), pointer_default(unique)]
interface message { void put([in] long id, [in, unique, string] char *name, [in] hyper at); }
"""
SMALL = struct.pack("<iI", 7, 1) + struct.pack("<III", 8, 0, 8) + b"message\0" + b"\0" * 4 + struct.pack("<q", 1 << 40)


def made(prefix, folder):
    """The program of library.c."""
    path = os.path.join(folder, "library")
    subprocess.run(["cc", "-O2", f"-I{prefix}/include", os.path.join(HERE, "library.c"), f"{prefix}/lib/libdceidl.a", "-o", path], check=True)
    return path


def run(program, idl, op, rounds, octets):
    """The nanoseconds of a line that a program prints."""
    words, kept = [program, idl, str(op), str(rounds)], {**os.environ, **KEPT}
    shown = subprocess.run(words, input=octets, check=True, stdout=subprocess.PIPE, env=kept).stdout.decode()
    return [float(ns) for ns in re.findall(r"(\d+) ns", shown)]


def decode_time(dceidl, idl, name, octets, folder):
    """The nanoseconds of a processor that `decode` of octets in a file takes."""
    path = os.path.join(folder, "octets")
    with open(path, "wb") as file:
        file.write(octets)
    with open(path, "rb") as file:
        child = subprocess.Popen([dceidl, "decode", idl, "-", name, "in", "little"], stdin=file, stdout=subprocess.DEVNULL)
        _, status, used = os.wait4(child.pid, 0)
    child.returncode = os.waitstatus_to_exitcode(status)
    if child.returncode:
        raise subprocess.CalledProcessError(child.returncode, child.args)
    return (used.ru_utime + used.ru_stime) * 1e9


def main():
    parser = argparse.ArgumentParser(description=__doc__, formatter_class=argparse.RawDescriptionHelpFormatter)
    parser.add_argument("--prefix")
    parser.add_argument("--program", default=ndr.PROGRAM)
    parser.add_argument("--dceidl")
    parser.add_argument("--runs", type=int, default=20)
    parser.add_argument("--turns", type=int, default=5)
    words = parser.parse_args()
    wrong = []
    with tempfile.TemporaryDirectory() as folder:
        prefix = words.prefix or os.path.join(folder, "prefix")
        if not words.prefix:
            subprocess.run([os.path.join(os.path.dirname(HERE), "bin", "dceidl-lib"), prefix], check=True)
        if words.program == ndr.PROGRAM:
            ndr.built()
        program, idl, small = made(prefix, folder), os.path.join(folder, "bn.idl"), os.path.join(folder, "small.idl")
        for path, text in ((idl, ndr.IDL), (small, SMALL_IDL)):
            with open(path, "w") as file:
                file.write(text)
        for name, work, op, items, _ in ndr.WORKS:
            octets = work(items)
            ours, below = [], []
            for _ in range(words.turns):
                ours = ndr.lesser(run(program, idl, op, words.runs, octets), ours)
                below = ndr.lesser(run(words.program, idl, op, words.runs, octets), below)
            decode, encode = ours[1] / below[1], ours[2] / (below[2] + below[3])
            print(f"{name}: decode {ours[1] / items:.2f} ns an item, {decode:.2f} times the call below; encode {ours[2] / items:.2f}, {encode:.2f} times", flush=True)
            wrong += [f"{name}: {max(decode, encode):.2f} times the call below"] if max(decode, encode) > MOST else []
            if words.dceidl:
                whole = min(decode_time(words.dceidl, idl, OPERATIONS[op], octets, folder) for _ in range(words.turns))
                print(f"{name}: from a file {whole / items:.2f} ns an item, {whole / (ours[1] + ours[5]):.2f} times decoding and text in memory", flush=True)
        least = []
        for _ in range(words.turns):
            least = ndr.lesser(run(program, small, 0, 200_000, SMALL)[3:], least)
        decoded_ns, small_ns, _, encoded_ns = least
        print(f"a message of {len(SMALL)} octets: {decoded_ns:.0f} ns to be decoded and let go, {small_ns:.0f} ns with its nodes read; {encoded_ns:.0f} ns to be encoded")
        wrong += [f"a small message takes {small_ns:.0f} ns"] if small_ns >= MOST_SMALL else []
    print("\n".join(wrong) or "within the limits")
    return 1 if wrong else 0


if __name__ == "__main__":
    sys.exit(main())
