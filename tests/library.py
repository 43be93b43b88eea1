#!/usr/bin/env python3
"""Builds the library and tries it in programs in C, under valgrind and AddressSanitizer.

    tests/library.py [--prefix FOLDER] [--copies COUNT] [examples|calls|streams|symbols ..]

`examples` runs the program of README.md and those of examples/c, examples/python and examples/rust, and compares what they print. `calls` tries what
tests/library/calls.c asks of faults, fragments, labels, versions and listings, tests/library/nodes.c of nodes and items, and tests/library/types.c of
what an interface has. `streams` decodes
the octets of tests/outside and mutated copies of them (tests/library/streams.c), reads the values by their nodes and items, and builds them of their
nodes: COUNT copies of each under AddressSanitizer, 800 if it is left out, and a twentieth of these under valgrind. `symbols` compares what the libraries export
with tests/library/symbols.txt. The library is built and installed
in a folder of its own, or taken from FOLDER, as bin/dceidl-lib fills it.

It needs `cc`; what else is missing is named and left out. The last line is `N passed, M failed, K left out`, and the status is 1 if one failed.
"""

from __future__ import annotations

import argparse
import shutil
import subprocess
import sys
import tempfile
from pathlib import Path
from typing import Dict, List, Optional, Sequence

ROOT = Path(__file__).resolve().parent.parent
OUTSIDE = ROOT / "tests" / "outside"
ADD = "values 2\nop add in\na = 1\nb = 2\n"
TOTAL = "readme 10\n(none) -3\ndata 35\ntotal 42\n"
MADE = "02000000020000000a000000000000000100000000000000fdffffffffffffff00000000070000000000000007000000726561646d6500\n"
GREET = 'values 2\nop greet in\nname = @1\n@1 = 4:"Ada"\n03000000\n'
SANITIZED = ["-g", "-O1", "-fsanitize=address,undefined", "-fno-sanitize-recover=all"]
VALGRIND = ["valgrind", "-q", "--leak-check=full", "--show-leak-kinds=all", "--error-exitcode=9"]


class Run:
    """What was tried so far."""

    def __init__(self, prefix: Path, folder: Path, copies: int):
        self.prefix, self.folder, self.copies = prefix, folder, copies
        self.passed, self.failed, self.left_out = 0, 0, 0

    def note(self, name: str, wrong: Sequence[str]) -> None:
        if wrong:
            self.failed += 1
            print(f"{name}: failed", *wrong, sep="\n")
        else:
            self.passed += 1

    def leave_out(self, name: str, missing: str) -> None:
        self.left_out += 1
        print(f"{name}: left out, there is no {missing}")

    def compile(self, source: Path, name: str, flags: Sequence[str] = ()) -> Optional[Path]:
        """The program of a source in C, linked with the static library."""
        made = self.folder / name
        words = ["cc", "-Wall", "-Wextra", *flags, f"-I{self.prefix}/include", str(source), f"{self.prefix}/lib/libdceidl.a", "-o", str(made)]
        ran = subprocess.run(words, capture_output=True, text=True)
        self.note(f"cc {source.name}", [ran.stderr] if ran.returncode or ran.stderr else [])
        return made if ran.returncode == 0 else None

    def expect(self, name: str, words: Sequence[str], wanted: Optional[str], given: str = "") -> None:
        """Runs a program, which must end with 0, and print what is wanted, if that is known."""
        ran = subprocess.run(list(words), input=given, capture_output=True, text=True)
        right = ran.returncode == 0 and not ran.stderr and wanted in (None, ran.stdout)
        self.note(name, [] if right else [f"status {ran.returncode}", ran.stdout[-2000:], ran.stderr[-2000:]])
        if right and wanted is None:
            print(f"{name}: {ran.stdout.strip()}")


def readme_program(folder: Path) -> Path:
    """The program of README.md, as a file."""
    section = (ROOT / "README.md").read_text(encoding="utf-8").split("\n## In a program of mine\n")[1].split("\n## ")[0]
    source = folder / "add.c"
    source.write_text("".join(f"{line[4:]}\n" for line in section.splitlines() if line.startswith("    ")), encoding="utf-8")
    return source


def examples(run: Run) -> None:
    """The program of README.md, and those of examples/, each of which prints the same."""
    made = run.compile(readme_program(run.folder), "add")
    if made:
        run.expect("README.md", [str(made)], ADD)
    made = run.compile(ROOT / "examples" / "c" / "greet.c", "greet")
    if made:
        run.expect("examples/c/greet.c", [str(made)], GREET)
    made = run.compile(ROOT / "examples" / "c" / "total.c", "total")
    if made:
        run.expect("examples/c/total.c", [str(made)], TOTAL)
    made = run.compile(ROOT / "examples" / "c" / "make.c", "make")
    if made:
        run.expect("examples/c/make.c", [str(made)], MADE)
    if shutil.which("rustc"):
        made = run.folder / "greet-rust"
        words = ["rustc", "--edition", "2021", str(ROOT / "examples/rust/greet.rs"), "-L", f"{run.prefix}/lib", "-o", str(made)]
        ran = subprocess.run(words, capture_output=True, text=True)
        run.note("rustc greet.rs", [ran.stderr] if ran.returncode or ran.stderr else [])
        run.expect("examples/rust/greet.rs", [str(made)], GREET)
    else:
        run.leave_out("examples/rust/greet.rs", "rustc")
    run.expect("examples/python/greet.py", [sys.executable, str(ROOT / "examples/python/greet.py"), f"{run.prefix}/lib/libdceidl.so.0"], GREET)


def sanitized(run: Run, source: Path, counts: Sequence[str], wanted: Optional[str], given: str) -> None:
    """A program in C under AddressSanitizer, with the first of the counts, and under valgrind, with the last."""
    name = source.stem
    made = run.compile(source, f"{name}-sanitized", SANITIZED)
    if made:
        run.expect(f"{name} under AddressSanitizer", [str(made), *counts[:1]], wanted, given)
    if not shutil.which("valgrind"):
        run.leave_out(f"{name} under valgrind", "valgrind")
        return
    made = run.compile(source, name, ["-g", "-O1"])
    if made:
        run.expect(f"{name} under valgrind", [*VALGRIND, str(made), *counts[-1:]], wanted, given)


def calls(run: Run) -> None:
    """The calls on faults, fragments, labels, versions and listings, on nodes and items, and on what an interface has."""
    for name in ("calls.c", "nodes.c", "types.c"):
        sanitized(run, ROOT / "tests" / "library" / name, [], "", "")


def stream_lines() -> List[str]:
    """The octets of tests/outside, a line each as streams.c reads them."""
    found = []
    for line in (OUTSIDE / "octets.txt").read_text().splitlines():
        if not line.startswith("  "):
            program, _name, operation, side, order, octets = line.split()
            found.append(f"{OUTSIDE}/{program}.idl {operation} {side} {order} {octets}\n")
    return sorted(found)


def streams(run: Run) -> None:
    """The octets of tests/outside and mutated copies of them."""
    counts = [str(run.copies), str(run.copies // 20)]
    sanitized(run, ROOT / "tests" / "library" / "streams.c", counts, None, "".join(stream_lines()))


def symbols(run: Run) -> None:
    """What both libraries export: the calls of tests/library/symbols.txt, and nothing else; and the name by which the shared one is found."""
    wanted = (ROOT / "tests" / "library" / "symbols.txt").read_text(encoding="utf-8").split()
    for which, name in (("-g", "libdceidl.a"), ("-D", "libdceidl.so.0")):
        ran = subprocess.run(["nm", which, "--defined-only", f"{run.prefix}/lib/{name}"], capture_output=True, text=True)
        rows = [line.split() for line in ran.stdout.splitlines()]
        found = {row[2].split("@")[0] for row in rows if len(row) == 3 and row[1] != "A"}
        run.note(f"symbols of {name}", [f"{symbol}: not in both" for symbol in sorted({*wanted} ^ found)])
    ran = subprocess.run(["objdump", "-p", f"{run.prefix}/lib/libdceidl.so.0"], capture_output=True, text=True)
    run.note("soname", [] if "libdceidl.so.0" in [line.split()[1] for line in ran.stdout.splitlines() if "SONAME" in line] else [ran.stdout])


PARTS: Dict[str, object] = {"examples": examples, "calls": calls, "streams": streams, "symbols": symbols}


def main() -> int:
    parser = argparse.ArgumentParser(description=__doc__.splitlines()[0])
    parser.add_argument("--prefix", type=Path)
    parser.add_argument("--copies", type=int, default=800)
    parser.add_argument("parts", nargs="*", choices=[[], *PARTS])
    words = parser.parse_args()
    if not shutil.which("cc"):
        print("0 passed, 0 failed, 1 left out: there is no cc")
        return 0
    with tempfile.TemporaryDirectory() as folder:
        prefix = words.prefix or Path(folder, "prefix")
        if not words.prefix:
            subprocess.run([str(ROOT / "bin" / "dceidl-lib"), str(prefix)], check=True)
        run = Run(prefix, Path(folder), words.copies)
        for name in words.parts or PARTS:
            PARTS[name](run)
    print(f"{run.passed} passed, {run.failed} failed, {run.left_out} left out")
    return 1 if run.failed else 0


if __name__ == "__main__":
    sys.exit(main())
