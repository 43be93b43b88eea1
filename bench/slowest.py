#!/usr/bin/env python3
"""Says which functions take most of the proofs: a check names each function once it is checked, and a clock is read then.

    bench/slowest.py [CRATE ..]     checks these crates, one after the other with one job each, and prints the fifty functions that took most

Without names the crates are those of the longest chain of proofs by bench/minutes.txt, and the five others that take most. What they use must be built
in this clone, as it is after `.ci/run`. Seconds are of a processor, so other work on the machine changes them little. Nothing is kept: each check begins
from nothing, and all that is between two functions, such as the lemmas that the second cites, counts for the second.
"""

from __future__ import annotations

import importlib.machinery
import importlib.util
import os
import re
import shutil
import subprocess
import sys
import tempfile
from pathlib import Path
from typing import Dict, List, Tuple

sys.dont_write_bytecode = True

import gate

ROOT = Path(__file__).resolve().parent.parent
OTHERS = 5  # crates that are not of the longest chain
SHOWN = 50
FUNCTION = re.compile(r"^checked (?P<name>\S+), [0-9]+ of [0-9]+$")


def load_rt():
    """`rt` as a module."""
    loader = importlib.machinery.SourceFileLoader("rt", os.path.realpath(shutil.which("rt") or ""))
    module = importlib.util.module_from_spec(importlib.util.spec_from_loader("rt", loader))
    sys.modules["rt"] = module
    loader.exec_module(module)
    return module.rtlib


def default_crates() -> List[str]:
    """The crates of the longest chain, and those of the others that take most."""
    uses = gate.libraries((ROOT / "crates.txt").read_text(encoding="utf-8"))
    rows = [line.split("#")[0].split() for line in (ROOT / "bench" / "minutes.txt").read_text(encoding="utf-8").splitlines()]
    proofs = {words[0]: float(words[1]) for words in rows if words}
    chain = gate.longest_chain(uses, proofs)
    return chain + sorted(set(uses) - set(chain), key=lambda name: -proofs.get(name, 0.0))[:OTHERS]


def used(process: int) -> float:
    """The seconds of a processor that a process has used so far."""
    fields = Path(f"/proc/{process}/stat").read_text().rpartition(")")[2].split()
    return sum(map(int, fields[11:13])) / os.sysconf("SC_CLK_TCK")


def check(rtlib, name: str) -> Tuple[Dict[str, float], float]:
    """The seconds of each function of a crate, and of its whole check."""
    crate = rtlib.Crate(str(ROOT / "crates" / name), str(ROOT), {})
    functions: Dict[str, float] = {}
    with tempfile.TemporaryDirectory() as room:
        words = [*crate.words(["--jobs", "1"]), "--incremental", room, "--short-goals", "--progress"]
        child = subprocess.Popen([rtlib.RATTLE, "check", *words], cwd=crate.folder, stdout=subprocess.PIPE, stderr=subprocess.STDOUT, text=True, errors="replace")
        before, now = 0.0, 0.0
        for line in child.stdout:
            try:
                now = used(child.pid)
            except OSError:
                pass  # it has ended
            found = FUNCTION.match(line)
            if found:
                function = found["name"].removeprefix(f"{name}::")
                functions[function] = functions.get(function, 0.0) + now - before
                before = now
        if child.wait():
            raise SystemExit(f"{name} is not proved, or what it uses is not built")
    return functions, now


def main() -> int:
    rtlib = load_rt()
    every, wholes = [], []
    for name in sys.argv[1:] or default_crates():
        functions, whole = check(rtlib, name)
        wholes.append((name, whole, sum(sorted(functions.values())[-3:]), len(functions)))
        every += [(seconds, name, function) for function, seconds in functions.items()]
        print(f"{name}: {whole:.0f} s, {len(functions)} functions", file=sys.stderr, flush=True)
    print("| Crate | Seconds | Functions | The three that took most |\n|---|---:|---:|---:|")
    for name, whole, most, count in wholes:
        print(f"| `{name}` | {whole:.0f} | {count} | {most:.0f} |")
    print("\n| Function | Seconds |\n|---|---:|")
    for seconds, name, function in sorted(every, reverse=True)[:SHOWN]:
        print(f"| `{name}: {function}` | {seconds:.0f} |")
    return 0


if __name__ == "__main__":
    sys.exit(main())
