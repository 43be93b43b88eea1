#!/usr/bin/env python3
"""Measures `decode`, `drain` and `explain` of large streams, and `decode` of small ones whose counts claim far more than there is: seconds of a processor
and peak memory.

    bench/streams.py                    uses bin/dceidl, which is built first if it is out of date
    bench/streams.py --program PATH     measures another program
    bench/streams.py --part N           an Nth of the sizes (default 1)

The large ones are a list of 2,000,000 nodes, a ring of 1,000,000 nodes and an array that fills the 67,108,864 octets which a stream may have, each
also at a tenth of the size. All run with a stack of 8 MB, and what is printed has to be the text of the values. The others have a maximum count, a
count of a chunk or an actual count of up to FFFFFFFF, and a few octets after it.

A pipe of longs and one of structs are drained, whose chunks of 4,096 elements fill the stream, next to `decode` of the same elements as an array, and each
at a tenth of the size. An array of 16 MiB is explained, and one of a tenth of it. An array is decoded after a format label, and without one.

The status is 1 if ten times the input takes more than sixteen times as long, if a count that claims too much takes 1 MiB more than an honest one, if
draining ten times the input takes 1 MiB more or draining takes more than four times as long as decoding, if a format label takes more than a quarter more, or
if a run ends in another way than it should.
"""

from __future__ import annotations

import argparse
import hashlib
import struct
import subprocess
import sys
import tempfile
from pathlib import Path
from typing import Callable, Iterable, Iterator, NamedTuple

ROOT = Path(__file__).resolve().parent.parent
MOST_GROWTH = 16.0
MOST_CLAIMED = 1 << 20  # octets of memory
MOST_DRAINED = 1 << 20  # octets of memory
MOST_TIMES_OF_DECODING = 4.0
MOST_LABEL = 1.25
STREAM_LIMIT = 67_108_864
IDL = b"""[uuid(11111111-2222-3333-4444-555555555555), pointer_default(unique)] interface t {
  typedef struct node { long v; [unique] struct node *next; } node;
  typedef struct link { long v; [ptr] struct link *next; } link;
  typedef struct { byte t; hyper h; } pair;
  typedef [string] char *text;
  typedef pipe long longs;
  typedef pipe pair pairs_pipe;
  void list([in, unique] node *p);
  void ring([in, ptr] link *p);
  void octets([in] unsigned long n, [in, size_is(n)] byte d[*]);
  void array([in, size_is(n)] long a[*], [in] unsigned long n);
  void pairs([in, size_is(n)] pair a[*], [in] unsigned long n);
  void texts([in, size_is(n)] text a[*], [in] unsigned long n);
  void part([in, size_is(m), length_is(n)] long a[*], [in] unsigned long m, [in] unsigned long n);
  void say([in, string] char *s);
  void feed([in] longs d);
  void feed_pairs([in] pairs_pipe d);
}
"""
BLOCK = 1 << 16  # nodes of which the octets or the text are made at once


class Large(NamedTuple):
    """A large stream of so many items: its octets and the lines after the first two of its text, in pieces."""

    operation: str
    count: int
    octets: Callable[[int], Iterator[bytes]]
    text: Callable[[int], Iterator[bytes]]


def blocks(count: int) -> Iterator[range]:
    """The numbers from 1 to this one, in order."""
    for first in range(1, count + 1, BLOCK):
        yield range(first, min(first + BLOCK, count + 1))


def nodes(count: int, last: int) -> Iterator[bytes]:
    """A pointer and nodes, each of which is followed by the next: the number of a pointer is that of its cell, and the last node's is given."""
    yield struct.pack("<I", 1)
    for block in blocks(count):
        yield b"".join(struct.pack("<iI", k, k + 1 if k < count else last) for k in block)


def node_lines(count: int, last: str) -> Iterator[bytes]:
    yield b"p = @1\n"
    for block in blocks(count):
        yield "".join(f"@{k} = {{v = {k}, next = {f'@{k + 1}' if k < count else last}}}\n" for k in block).encode()


def filled(count: int) -> Iterator[bytes]:
    """So many octets, the two counts before them included."""
    yield struct.pack("<II", count - 8, count - 8)
    yield bytes(k % 251 for k in range(count - 8))


def filled_lines(count: int) -> Iterator[bytes]:
    yield f'n = {count - 8}\nd = x"'.encode()
    yield bytes(k % 251 for k in range(count - 8)).hex().encode()
    yield b'"\n'


LARGE = [
    Large("list", 2_000_000, lambda n: nodes(n, 0), lambda n: node_lines(n, "null")),
    Large("ring", 1_000_000, lambda n: nodes(n, 1), lambda n: node_lines(n, "@1")),
    Large("octets", STREAM_LIMIT, filled, filled_lines),
]


class Elements(NamedTuple):
    """Elements of a pipe and of an array: operations, how many fill a stream, and the octets and the texts of a run of them. Chunks and arrays begin
    at multiples of 8, so that the octets of a run do not depend on its place."""

    name: str
    pipe: str
    array: str
    gap: bytes  # after a count
    count: int
    octets: Callable[[range], bytes]
    texts: Callable[[range], Iterator[str]]


CHUNK = 4096
ELEMENTS = [
    Elements("longs", "feed", "array", b"", 16_769_024, lambda block: struct.pack(f"<{len(block)}i", *block), lambda block: map(str, block)),
    Elements("structs", "feed_pairs", "pairs", bytes(4), 4_190_208, lambda block: b"".join(struct.pack("<B7xq", k % 256, -k) for k in block),
             lambda block: (f"{{t = {k % 256}, h = {-k}}}" for k in block)),
]
EXPLAINED = 4_194_302  # longs


def chunks(of: Elements, count: int) -> Iterator[bytes]:
    """A pipe of the elements from 1 to this one."""
    for first in range(1, count + 1, CHUNK):
        block = range(first, min(first + CHUNK, count + 1))
        yield struct.pack("<I", len(block)) + of.gap + of.octets(block)
    yield bytes(4)


def array(of: Elements, count: int) -> Iterator[bytes]:
    """An array of the same elements, and their number."""
    yield struct.pack("<I", count) + of.gap
    for block in blocks(count):
        yield of.octets(block)
    yield struct.pack("<I", count)


def element_lines(of: Elements, count: int) -> Iterator[bytes]:
    for block in blocks(count):
        yield "".join(f"{text}\n" for text in of.texts(block)).encode()


def array_text(of: Elements, count: int) -> Iterator[bytes]:
    yield f"values 2\nop {of.array} in\na = [".encode()
    for block in blocks(count):
        yield (", ".join(of.texts(block)) + ("]\n" if block[-1] == count else ", ")).encode()
    yield f"n = {count}\n".encode()


def explained_lines(count: int) -> Iterator[bytes]:
    """The items of an array of longs."""
    yield f"0 4 max a {count}\n".encode()
    for block in blocks(count):
        yield "".join(f"{4 * k} 4 num a[{k - 1}] {k}\n" for k in block).encode()
    yield f"{4 * count + 4} 4 num n {count}\n".encode()


class Claim(NamedTuple):
    """Octets in which a count claims more than there is, where they are refused and why, and octets with an honest count."""

    operation: str
    claims: str
    place: int
    reason: str
    honest: str


CLAIMS = [
    Claim("array", "ffffffff 05000000 06000000 02000000", 16, "Truncated", "02000000 05000000 06000000 02000000"),
    Claim("pairs", "ffffffff 00000000 01 00000000000000 0500000000000000 01000000", 28, "Truncated",
          "01000000 00000000 01 00000000000000 0500000000000000 01000000"),
    Claim("texts", "ffffffff 00000000 00000000 02000000", 16, "Truncated", "02000000 00000000 00000000 02000000"),
    Claim("part", "ffffffff 00000000 ffffffff 05000000 01000000 01000000", 24, "Truncated", "01000000 00000000 01000000 05000000 01000000 01000000"),
    Claim("octets", "ffffffff ffffffff 0506", 10, "Truncated", "02000000 02000000 0506"),
    Claim("feed", "ffffffff 05000000 06000000 00000000", 16, "Truncated", "02000000 05000000 06000000 00000000"),
    Claim("say", "00ffff03 00000000 00ffff03 686900", 15, "Truncated", "03000000 00000000 03000000 686900"),
    Claim("say", "ffffffff 00000000 ffffffff 686900", STREAM_LIMIT, "TooLong", "03000000 00000000 03000000 686900"),
]

# Runs a command with a stack of 8 MB, from a small process: the peak that the system reports of a child counts what its parent held when the child
# began.
WATCH = """
import os, resource, sys
resource.setrlimit(resource.RLIMIT_STACK, (8 << 20, resource.getrlimit(resource.RLIMIT_STACK)[1]))
child = os.posix_spawnp(sys.argv[2], sys.argv[2:], os.environ)
_, status, usage = os.wait4(child, 0)
with open(sys.argv[1], "w") as note:
    print(os.waitstatus_to_exitcode(status), usage.ru_utime, usage.ru_stime, usage.ru_maxrss * 1024, file=note)
"""


class Ran(NamedTuple):
    status: int
    seconds: float  # of a processor, in the program and in the system
    peak: int
    out: Path
    notes: bytes


class Bench:
    """The program, the folder of its files, and whether something was wrong."""

    def __init__(self, program: str, folder: Path) -> None:
        self.program, self.folder, self.wrong = program, folder, False

    def fail(self, why: str) -> None:
        print(f"  FAILED: {why}")
        self.wrong = True

    def run(self, operation: str, given: Path, verb: str = "decode", order: str = "little") -> Ran:
        command = [self.program, verb, "t.idl", "-", operation, "in", order]
        note, out = self.folder / "note", self.folder / "out"
        with open(given, "rb") as source, open(out, "wb") as sink:
            watch = [sys.executable, "-c", WATCH, str(note), *command]
            ran = subprocess.run(watch, stdin=source, stdout=sink, stderr=subprocess.PIPE, cwd=self.folder, check=True)
        status, own, system, peak = note.read_text().split()
        return Ran(int(status), float(own) + float(system), int(peak), out, ran.stderr)

    def large(self, of: Large, count: int) -> float:
        """The seconds of a large stream, in the program and in the system: other work on the machine is not in them."""
        given = self.folder / "given"
        with open(given, "wb") as file:
            file.writelines(of.octets(count))
        ran = self.run(of.operation, given)
        octets, text = given.stat().st_size, ran.out.stat().st_size
        print(f"{of.operation}: {count:,} items, {octets:,} octets: {ran.seconds:.2f} s, {octets / max(ran.seconds, 1e-6) / 1e6:.1f} MB/s; "
              f"peak memory {ran.peak / 1e6:.0f} MB, {(ran.peak - text) / octets:.1f} octets for each octet without the text")
        if ran.status != 0:
            self.fail(f"status {ran.status}: {ran.notes.decode(errors='replace').strip()}")
        elif digest(pieces(ran.out)) != digest([f"values 2\nop {of.operation} in\n".encode(), *of.text(count)]):
            self.fail("it printed another text than that of the values")
        return ran.seconds

    def measure(self, what: str, operation: str, octets: Iterable[bytes], wanted: Iterable[bytes], verb: str = "decode", order: str = "little") -> Ran:
        """Runs a command, and compares what it writes."""
        given = self.folder / "given"
        with open(given, "wb") as file:
            file.writelines(octets)
        ran, size = self.run(operation, given, verb, order), given.stat().st_size
        print(f"{what}: {size:,} octets: {ran.seconds:.2f} s, {size / max(ran.seconds, 1e-6) / 1e6:.1f} MB/s; peak memory {ran.peak / 1e6:.1f} MB", flush=True)
        if ran.status != 0:
            self.fail(f"status {ran.status}: {ran.notes.decode(errors='replace').strip()}")
        elif digest(pieces(ran.out)) != digest(wanted):
            self.fail("it printed another text than it should")
        return ran

    def drain(self, of: Elements, count: int) -> Ran:
        """A pipe whose elements go to an end."""
        text = f"values 2\nop {of.pipe} in\nd = []\n".encode()
        ran = self.measure(f"drain of {count:,} {of.name}", of.pipe, chunks(of, count), [text], "drain")
        end = self.folder / "pipe0.out"
        if not end.exists() or digest(pieces(end)) != digest(element_lines(of, count)):
            self.fail("the end has other lines than those of the elements")
        return ran

    def drains(self, of: Elements, part: int) -> None:
        """Draining next to a tenth of it, and next to decoding."""
        small, large = (self.drain(of, max(1, of.count // part // share)) for share in (10, 1))
        count = of.count // part
        decoded = self.measure(f"decode of {count:,} {of.name}", of.array, array(of, count), array_text(of, count))
        times = large.seconds / max(decoded.seconds, 1e-6)
        print(f"{of.name}: ten times the input takes {large.seconds / max(small.seconds, 1e-6):.1f} times as long and {(large.peak - small.peak) / 1024:.0f} KiB more; "
              f"draining takes {times:.1f} times as long as decoding", flush=True)
        if large.seconds > MOST_GROWTH * max(small.seconds, 1e-6):
            self.fail("the time grows more than the input")
        if large.peak - small.peak > MOST_DRAINED:
            self.fail("draining takes memory for the stream")
        if times > MOST_TIMES_OF_DECODING:
            self.fail("draining is slow next to decoding")

    def explains(self, part: int) -> None:
        """The items of an array, and of a tenth of it."""
        longs, all_of_it = ELEMENTS[0], EXPLAINED // part
        small, large = (self.measure(f"explain of {count:,} longs", "array", array(longs, count), explained_lines(count), "explain")
                        for count in (all_of_it // 10, all_of_it))
        growth = large.seconds / max(small.seconds, 1e-6)
        print(f"explain: ten times the input takes {growth:.1f} times as long", flush=True)
        if growth > MOST_GROWTH:
            self.fail("the time grows more than the input")

    def labels(self, part: int) -> None:
        """An array after a format label, and without one: the least of three runs of each, in turns."""
        longs, count = ELEMENTS[0], EXPLAINED // part
        runs = [[self.measure(f"decode in order {order}", "array", [label, *array(longs, count)], array_text(longs, count), order=order).seconds
                 for label, order in ((b"", "little"), (bytes([16, 0, 0, 0]), "label"))] for _ in range(3)]
        without, after = (min(seconds) for seconds in zip(*runs))
        print(f"label: {after / max(without, 1e-6):.2f} times as long", flush=True)
        if after > MOST_LABEL * without:
            self.fail("a format label takes time")

    def claim(self, of: Claim) -> None:
        """A count that claims too much, next to an honest one."""
        given = self.folder / "given"
        given.write_bytes(bytes.fromhex(of.honest))
        honest = self.run(of.operation, given)
        if honest.status != 0:
            self.fail(f"the honest octets of {of.operation} end with status {honest.status}: {honest.notes.decode(errors='replace').strip()}")
        given.write_bytes(bytes.fromhex(of.claims))
        ran = self.run(of.operation, given)
        print(f"{of.operation} {of.claims[:8]}: {(ran.peak - honest.peak) / 1024:.0f} KiB more than the honest count's {honest.peak / 1024:.0f}")
        if (ran.status, ran.notes) != (1, f"refused: octets at {of.place}: {of.reason}\n".encode()):
            self.fail(f"status {ran.status}: {ran.notes.decode(errors='replace').strip()}; it should be refused at {of.place}: {of.reason}")
        if ran.peak - honest.peak > MOST_CLAIMED:
            self.fail("what the count claims takes memory")


def pieces(file: Path) -> Iterator[bytes]:
    with open(file, "rb") as source:
        while piece := source.read(1 << 20):
            yield piece


def digest(texts: Iterable[bytes]) -> bytes:
    """What one text is known from another by, however it is cut."""
    sum = hashlib.sha256()
    for text in texts:
        sum.update(text)
    return sum.digest()


def built(program: Path) -> str:
    """The program, which the script of this repository builds if it is out of date."""
    subprocess.run([program, "--version"], check=True, stdout=subprocess.DEVNULL)
    return str(ROOT / "crates" / "dceidl_program" / "out" / "dceidl_program")


def main() -> int:
    parser = argparse.ArgumentParser()
    parser.add_argument("--program", type=Path)
    parser.add_argument("--part", type=int, default=1)
    args = parser.parse_args()
    program = str(args.program.resolve()) if args.program else built(ROOT / "bin" / "dceidl")
    with tempfile.TemporaryDirectory() as name:
        bench = Bench(program, Path(name))
        (bench.folder / "t.idl").write_bytes(IDL)
        for of in CLAIMS:
            bench.claim(of)
        for elements in ELEMENTS:
            bench.drains(elements, args.part)
        bench.explains(args.part)
        bench.labels(args.part)
        for of in LARGE:
            small, large = (bench.large(of, of.count // args.part // part) for part in (10, 1))
            growth = large / max(small, 1e-6)
            print(f"{of.operation}: ten times the input takes {growth:.1f} times as long")
            if growth > MOST_GROWTH:
                bench.fail("the time grows more than the input")
    return int(bench.wrong)


if __name__ == "__main__":
    sys.exit(main())
