#!/usr/bin/env python3
"""Measures value texts by `dceidl migrate`, which reads a text, fits its graph and prints it, and by `encode`, which writes its octets: megabytes of
text a second at two sizes, and peak memory. Beside these go `cat` and `wc -w` of the same text, and `loads` and `dumps` of Python's json of the same
values. All times are those of a processor, in the program and in the system: so other work on the machine is not in them.

    bench/texts.py                    uses bin/dceidl, which is built first if it is out of date
    bench/texts.py --program PATH     measures another program
    bench/texts.py --part N           an Nth of the sizes (default 1: 1,000,000 longs, 200,000 structs, 200,000 pointers to strings, a list of 100,000 nodes)
    bench/texts.py --runs N           takes the least time of so many runs (default 3)

The status is 1 if ten times the input takes more than twelve times as long, if reading takes more than 40 octets of memory for each octet of a
text of longs, or if a run fails. What is printed of a text has to be the text itself, since each is written here as it is printed.
"""

from __future__ import annotations

import argparse
import json
import random
import subprocess
import sys
import tempfile
import time
from pathlib import Path

ROOT = Path(__file__).resolve().parent.parent
MOST_GROWTH = 12.0
MOST_MEMORY = 40.0
IDL = b"""[local] interface t {
  typedef [unique, string] char *texts;
  typedef struct node { long v; [ptr] struct node *next; } node;
  typedef struct item { byte b; hyper h; short s; } item;
  void longs([in, size_is(n)] long a[*], [in] long n);
  void structs([in, size_is(n)] item a[*], [in] long n);
  void strings([in, size_is(n)] texts a[*], [in] long n);
  void list([in, ptr] node *p);
}
"""


def longs(count: int) -> tuple[str, object]:
    """An array of longs of every length: its text, and the same values for json."""
    chance = random.Random(count)
    values = [chance.randrange(-(2**31), 2**31) for _ in range(count)]
    return f"values 2\nop longs in\na = [{', '.join(map(str, values))}]\nn = {count}\n", values


def structs(count: int) -> tuple[str, object]:
    """An array of structs of three numbers."""
    chance = random.Random(count)
    values = [{"b": chance.randrange(256), "h": chance.randrange(-(2**63), 2**63), "s": chance.randrange(-(2**15), 2**15)} for _ in range(count)]
    items = ", ".join(f"{{b = {v['b']}, h = {v['h']}, s = {v['s']}}}" for v in values)
    return f"values 2\nop structs in\na = [{items}]\nn = {count}\n", values


def strings(count: int) -> tuple[str, object]:
    """Pointers to strings of up to 30 octets, each with a cell of its own."""
    chance = random.Random(count)
    pointers = ", ".join(f"@{k}" for k in range(1, count + 1))
    values = ["".join(chance.choice("abcdefgh ,.") for _ in range(chance.randrange(30))) for _ in range(count)]
    cells = [f'@{k} = {len(text) + 1}:"{text}"\n' for k, text in enumerate(values, 1)]
    return f"values 2\nop strings in\na = [{pointers}]\nn = {count}\n" + "".join(cells), values


def nodes(count: int) -> tuple[str, object]:
    """A list, of which each node points to the next; for json each node has the number of the next."""
    values = [{"v": k, "next": k + 1 if k < count else None} for k in range(1, count + 1)]
    cells = [f"@{v['v']} = {{v = {v['v']}, next = {'@' + str(v['next']) if v['next'] else 'null'}}}\n" for v in values]
    return "values 2\nop list in\np = @1\n" + "".join(cells), values


FORMS = [("longs", longs, 1_000_000), ("structs", structs, 200_000), ("strings", strings, 200_000), ("list", nodes, 100_000)]


# Runs a command from a small process: the peak that the system reports of a child counts what its parent held when the child began.
WATCH = """
import os, sys
child = os.posix_spawnp(sys.argv[2], sys.argv[2:], os.environ)
_, status, usage = os.wait4(child, 0)
with open(sys.argv[1], "w") as note:
    print(os.waitstatus_to_exitcode(status), usage.ru_utime + usage.ru_stime, usage.ru_maxrss * 1024, file=note)
"""


def measured(command: list[str], given: Path, runs: int) -> tuple[float, int, bytes]:
    """The least time of a processor of some runs in seconds, the peak memory in octets, and what the last run wrote."""
    best, peak, out = float("inf"), 0, b""
    note = given.parent / "note"
    for _ in range(runs):
        with open(given, "rb") as source, tempfile.TemporaryFile() as sink:
            subprocess.run([sys.executable, "-c", WATCH, str(note), *command], stdin=source, stdout=sink, cwd=given.parent, check=True)
            status, seconds, held = note.read_text().split()
            if status != "0":
                raise SystemExit(f"{' '.join(command)} < {given.name}: status {status}")
            best, peak = min(best, float(seconds)), int(held)
            sink.seek(0)
            out = sink.read()
    return best, peak, out


def built(program: Path) -> str:
    """The program, which the script of this repository builds if it is out of date."""
    subprocess.run([program, "--version"], check=True, stdout=subprocess.DEVNULL)
    return str(program)


def tell(what: str, seconds: float, octets: int, start: float = 0.0) -> float:
    """A line of the time beyond the start-up, in MB/s."""
    net = max(seconds - start, 1e-6)
    print(f"  {what}: {net:.3f} s, {octets / net / 1e6:.1f} MB/s")
    return net


def tell_json(values: object, runs: int) -> None:
    """Lines of the same values in Python's json."""
    loads, dumps, text = float("inf"), float("inf"), ""
    for _ in range(runs):
        start = time.process_time()
        text = json.dumps(values)
        middle = time.process_time()
        json.loads(text)
        loads, dumps = min(loads, time.process_time() - middle), min(dumps, middle - start)
    tell("json.loads of the same values", loads, len(text))
    tell("json.dumps of the same values", dumps, len(text))


def measure(folder: Path, program: str, operation: str, text_of, count: int, start: float, runs: int) -> bool:
    """A form at a tenth of the size and at the size. Whether it is slow or takes too much memory."""
    migrate = [program, "migrate", "t.idl", "-", operation, "in"]
    encode = [program, "encode", "t.idl", "-", operation, "in", "little", "1"]
    nets, wrong = [], False
    for some in (max(1, count // 10), count):
        given = folder / f"{operation}.{some}"
        text, values = text_of(some)
        given.write_text(text)
        octets = len(text)
        print(f"{operation}: {some} items, {octets} octets")
        seconds, peak, out = measured(migrate, given, runs)
        if out != given.read_bytes():
            print("  what is printed is another text")
            wrong = True
        nets.append(tell("migrate", seconds, octets, start))
        print(f"  peak memory: {peak / octets:.1f} octets for each octet of the text")
        if operation == "longs" and some == count and peak / octets > MOST_MEMORY:
            print("  TOO MUCH MEMORY")
            wrong = True
        tell("encode", measured(encode, given, runs)[0], octets, start)
        for other in (["cat"], ["wc", "-w"]):
            tell(" ".join(other), measured(other, given, runs)[0], octets)
        tell_json(values, runs)
    growth = nets[1] / nets[0]
    print(f"{operation}: ten times the text takes {growth:.1f} times as long{' TOO MUCH' if growth > MOST_GROWTH else ''}")
    return wrong or growth > MOST_GROWTH


def main() -> int:
    parser = argparse.ArgumentParser()
    parser.add_argument("--program", type=Path, default=ROOT / "bin" / "dceidl")
    parser.add_argument("--part", type=int, default=1)
    parser.add_argument("--runs", type=int, default=3)
    args = parser.parse_args()
    program, wrong = built(args.program.resolve()), False
    with tempfile.TemporaryDirectory() as name:
        folder = Path(name)
        (folder / "t.idl").write_bytes(IDL)
        (folder / "nothing").write_text("values 2\nop longs in\na = []\nn = 0\n")
        start = measured([program, "migrate", "t.idl", "-", "longs", "in"], folder / "nothing", args.runs)[0]
        print(f"start-up, with the interface file: {start:.3f} s")
        for operation, text_of, count in FORMS:
            wrong |= measure(folder, program, operation, text_of, max(10, count // args.part), start, args.runs)
    return int(wrong)


if __name__ == "__main__":
    sys.exit(main())
