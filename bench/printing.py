#!/usr/bin/env python3
"""Measures how fast texts are printed: `decode` and `explain` of streams from a file, in megabytes of what is printed a second of a processor, next to `cat` and
`wc -w` of the same text and Python's `json.dumps` of the same values.

    bench/printing.py                    uses bin/dceidl, which is built first if it is out of date
    bench/printing.py --program PATH     measures another program
    bench/printing.py --part N           an Nth of the sizes (default 1)
    bench/printing.py --turns N          so many runs of each, in turns, of which each time is the least (default 8)

The streams are 1,000,000 longs of every length, 4,000,000 bytes, 300,000 structs of a byte and a hyper, 200,000 pointers to strings, and a list of 200,000 nodes. A
time has the decoding in it, and not the start-up. The status is 1 if a run fails or prints another text than that of the values.
"""

from __future__ import annotations

import argparse
import json
import os
import random
import struct
import subprocess
import sys
import tempfile
import time
from pathlib import Path
from typing import Any, Callable, NamedTuple

ROOT = Path(__file__).resolve().parent.parent
IDL = b"""[uuid(11111111-2222-3333-4444-555555555555), pointer_default(unique)] interface t {
  typedef struct node { long v; [unique] struct node *next; } node;
  typedef struct { byte t; hyper h; } pair;
  typedef struct { [unique, string] char *s; } text;
  void longs([in, size_is(n)] long a[*], [in] unsigned long n);
  void octets([in] unsigned long n, [in, size_is(n)] byte d[*]);
  void structs([in, size_is(n)] pair a[*], [in] unsigned long n);
  void strings([in] unsigned long n, [in, size_is(n)] text a[*]);
  void list([in, unique] node *p);
}
"""


class Form(NamedTuple):
    """A stream, the text of its values, and the values for Python."""

    octets: bytes
    text: str
    values: Any


def longs(count: int, chance: random.Random) -> Form:
    values = [chance.randrange(-(2**31), 2**31) for _ in range(count)]
    return Form(struct.pack(f"<I{count}iI", count, *values, count), f"a = [{', '.join(map(str, values))}]\nn = {count}\n", values)


def octets(count: int, chance: random.Random) -> Form:
    values = chance.randbytes(count)
    return Form(struct.pack("<II", count, count) + values, f'n = {count}\nd = x"{values.hex()}"\n', values.hex())


def structs(count: int, chance: random.Random) -> Form:
    values = [{"t": k % 256, "h": chance.randrange(-(2**40), 2**40)} for k in range(count)]
    stream = struct.pack("<I4x", count) + b"".join(struct.pack("<B7xq", v["t"], v["h"]) for v in values) + struct.pack("<I", count)
    text = ", ".join(f"{{t = {v['t']}, h = {v['h']}}}" for v in values)
    return Form(stream, f"a = [{text}]\nn = {count}\n", values)


def strings(count: int, chance: random.Random) -> Form:
    values = ["".join(chance.choice("abcdefgh ,.") for _ in range(chance.randrange(30))) for _ in range(count)]
    stream = bytearray(struct.pack("<II", count, count) + b"".join(struct.pack("<I", k) for k in range(1, count + 1)))
    for value in values:
        stream += bytes(-len(stream) % 4) + struct.pack("<III", len(value) + 1, 0, len(value) + 1) + value.encode() + b"\0"
    cells = "".join(f'@{k} = {len(v) + 1}:"{v}"\n' for k, v in enumerate(values, 1))
    return Form(bytes(stream), f"n = {count}\na = [{', '.join(f'{{s = @{k}}}' for k in range(1, count + 1))}]\n{cells}", values)


def nodes(count: int, chance: random.Random) -> Form:
    values = [chance.randrange(-(2**31), 2**31) for _ in range(count)]
    after = [k + 1 if k < count else 0 for k in range(1, count + 1)]
    stream = struct.pack("<I", 1) + b"".join(struct.pack("<iI", v, n) for v, n in zip(values, after))
    cells = "".join(f"@{k} = {{v = {v}, next = {f'@{n}' if n else 'null'}}}\n" for k, (v, n) in enumerate(zip(values, after), 1))
    return Form(stream, f"p = @1\n{cells}", [{"v": v, "next": n} for v, n in zip(values, after)])


FORMS: list[tuple[str, Callable[[int, random.Random], Form], int]] = [
    ("longs", longs, 1_000_000), ("octets", octets, 4_000_000), ("structs", structs, 300_000), ("strings", strings, 200_000), ("list", nodes, 200_000),
]


def ran(command: list[str], given: Path, sink: Path) -> float:
    """The seconds of a processor that a command takes, in itself and in the system."""
    with open(given, "rb") as source, open(sink, "wb") as out:
        child = subprocess.Popen(command, stdin=source, stdout=out, cwd=given.parent)
        _, status, usage = os.wait4(child.pid, 0)
    child.returncode = os.waitstatus_to_exitcode(status)
    if child.returncode != 0:
        raise SystemExit(f"{' '.join(command)} < {given.name}: status {child.returncode}")
    return usage.ru_utime + usage.ru_stime


def dumped(values: Any) -> float:
    """The seconds of a processor of `json.dumps`."""
    start = time.process_time()
    json.dumps(values)
    return time.process_time() - start


def measure(program: str, folder: Path, name: str, form: Form, turns: int, start: float) -> bool:
    """A form: `decode`, `explain` of longs, `cat`, `wc -w`, `json.dumps`, in turns. Whether another text is printed."""
    given, out, lines = folder / name, folder / "text", folder / "lines"
    given.write_bytes(form.octets)
    commands = {"decode": ([program, "decode", "t.idl", "-", name, "in", "little"], given, out), "cat": (["cat"], out, lines), "wc -w": (["wc", "-w"], out, lines)}
    if name == "longs":
        commands["explain"] = ([program, "explain", "t.idl", "-", name, "in", "little"], given, lines)
    least = {what: float("inf") for what in [*commands, "json.dumps"]}
    sizes = {}
    for _ in range(turns):
        for what, command in commands.items():
            least[what] = min(least[what], ran(*command) - (start if what in ("decode", "explain") else 0))
            sizes[what] = lines.stat().st_size if what == "explain" else out.stat().st_size
        least["json.dumps"] = min(least["json.dumps"], dumped(form.values))
    sizes["json.dumps"] = len(json.dumps(form.values))
    speeds = ", ".join(f"{what} {sizes[what] / max(seconds, 1e-6) / 1e6:.0f}" for what, seconds in least.items())
    print(f"{name}: a stream of {len(form.octets):,} octets, a text of {sizes['decode']:,}; MB/s: {speeds}; "
          f"decode takes {least['decode'] / max(least['json.dumps'], 1e-6):.2f} times as long as json.dumps", flush=True)
    if out.read_bytes() != f"values 2\nop {name} in\n{form.text}".encode():
        print("  FAILED: it printed another text than that of the values")
        return True
    return False


def built(program: Path) -> str:
    """The program, which the script of this repository builds if it is out of date."""
    subprocess.run([program, "--version"], check=True, stdout=subprocess.DEVNULL)
    return str(ROOT / "crates" / "dceidl_program" / "out" / "dceidl_program")


def main() -> int:
    parser = argparse.ArgumentParser()
    parser.add_argument("--program", type=Path)
    parser.add_argument("--part", type=int, default=1)
    parser.add_argument("--turns", type=int, default=8)
    args = parser.parse_args()
    program = str(args.program.resolve()) if args.program else built(ROOT / "bin" / "dceidl")
    wrong = False
    with tempfile.TemporaryDirectory() as name:
        folder = Path(name)
        (folder / "t.idl").write_bytes(IDL)
        (folder / "none").write_bytes(bytes(8))
        start = min(ran([program, "decode", "t.idl", "-", "longs", "in", "little"], folder / "none", folder / "text") for _ in range(args.turns))
        for form, make, count in FORMS:
            wrong |= measure(program, folder, form, make(max(1, count // args.part), random.Random(count)), args.turns, start)
    return int(wrong)


if __name__ == "__main__":
    sys.exit(main())
