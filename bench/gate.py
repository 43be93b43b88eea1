#!/usr/bin/env python3
"""Says where the time of the gate goes: minutes for each crate, and the longest chain of crates that wait for each other.

    .ci/run 2>&1 | bench/gate.py --stamp > LOG     copies the gate's lines to LOG, each with its time
    bench/gate.py LOG                              prints the minutes that LOG has (`bench/run gate LOG` keeps them, too)
    bench/gate.py --estimate N                     prints how many minutes the gate takes with N checks at once, by bench/minutes.txt

The lines of `rt ci` carry no times, and it says when a proof ends but not when it begins. So `--stamp` puts the seconds since
its start before each line, and every two seconds adds a line on the checks that run: `CRATE proof`, `CRATE tests` or
`CRATE edits`, each with the seconds of a processor that it has used since the line before. It looks at the processes of its own
pipeline only. bench/README.md says how to read the table.
"""

from __future__ import annotations

import argparse
import os
import re
import sys
import threading
import time
from dataclasses import dataclass, field
from pathlib import Path
from typing import Dict, Iterable, List, Optional, Tuple

ROOT = Path(__file__).resolve().parent.parent
SECONDS = 2.0
WORKS = ("proof", "tests", "edits")
LINE = re.compile(r"^ *(?P<at>[0-9]+\.[0-9]) (?P<text>.*)$")
RUNNING = re.compile(r"^\[running (?P<seconds>[0-9.]+)\] (?P<checks>.*)$")
PROVED = re.compile(r"^rt: (?P<crate>\w+)(?P<tests>: its tests are)? (?P<not>NOT )?(?:proved|PROVED)\b")
KEPT = re.compile(r"^rt: (?P<crate>\w+) is kept: ")
TRIED = re.compile(r"^rt: must-fail (?P<crate>\w+)/")

# ----------------------------------------------------------------------------------------------------------------------
# Stamping


@dataclass
class Process:
    """A process, as far as it matters here."""

    parent: int
    group: int
    words: List[str]
    seconds: float  # of a processor, with those of its children that have ended


def processes() -> Dict[int, Process]:
    """The processes of the machine, by number."""
    found = {}
    for name in os.listdir("/proc"):
        if not name.isdigit():
            continue
        try:
            rest = Path(f"/proc/{name}/stat").read_text().rpartition(")")[2].split()
            words = Path(f"/proc/{name}/cmdline").read_bytes().decode("utf-8", "replace").split("\0")
        except (OSError, ValueError):
            continue  # it has ended
        seconds = sum(map(int, rest[11:15])) / os.sysconf("SC_CLK_TCK")
        found[int(name)] = Process(int(rest[1]), int(rest[2]), words, seconds)
    return found


def is_prover(process: Optional[Process]) -> bool:
    """Whether a process is a check of a crate, or a part of one."""
    return process is not None and os.path.basename(process.words[0]) == "rattle" and "--crate-name" in process.words


def is_ours(found: Dict[int, Process], number: int) -> bool:
    """Whether a process was started by this pipeline."""
    while number in found and number > 1:
        if found[number].group == os.getpgrp():
            return True
        number = found[number].parent
    return False


def root_check(found: Dict[int, Process], number: int) -> Optional[int]:
    """The check that a process is a part of: the prover above it that no prover has started."""
    root = None
    while number in found and number > 1:
        root = number if is_prover(found[number]) else root
        number = found[number].parent
    return root


def checks() -> Dict[int, Tuple[str, float]]:
    """The checks of this pipeline that run, by process: crate and work, and the seconds of a processor that its processes have used."""
    found = processes()
    running: Dict[int, Tuple[str, float]] = {}
    for number, process in found.items():
        root = root_check(found, number)
        if root is None or not is_ours(found, root):
            continue
        if root not in running:
            words = found[root].words
            try:
                folder = os.path.basename(os.readlink(f"/proc/{root}/cwd"))
            except OSError:
                continue  # it has ended
            work = "edits" if folder.startswith("rt-edit") else "tests" if "--test" in words else "proof"
            running[root] = (f"{words[words.index('--crate-name') + 1]} {work}", 0.0)
        name, seconds = running[root]
        running[root] = (name, seconds + process.seconds)
    return running


def stamp() -> None:
    """Copies standard input to standard output with times, and adds what runs."""
    began, lock, ended = time.monotonic(), threading.Lock(), threading.Event()

    def tell(text: str) -> None:
        with lock:
            print(f"{time.monotonic() - began:9.1f} {text}", flush=True)

    def watch() -> None:
        last, before = time.monotonic(), {}
        while not ended.wait(SECONDS):
            running, now = checks(), time.monotonic()
            used = {number: max(seconds - before.get(number, ("", 0.0))[1], 0.0) for number, (_, seconds) in running.items()}
            if running:
                tell(f"[running {now - last:.1f}] {', '.join(sorted(f'{name} {used[it]:.1f}' for it, (name, _) in running.items()))}")
            last, before = now, running

    watcher = threading.Thread(target=watch, daemon=True)
    watcher.start()
    for line in sys.stdin.buffer:
        tell(line.decode("utf-8", "backslashreplace").rstrip("\n"))
    ended.set()
    watcher.join()


# ----------------------------------------------------------------------------------------------------------------------
# Reading a log


@dataclass
class Times:
    """What a log says of a crate: seconds of each work, and what `rt ci` answered."""

    seconds: Dict[str, float] = field(default_factory=dict)  # while at least one check of this work ran
    used: Dict[str, float] = field(default_factory=dict)  # seconds of a processor that its checks used
    edits: int = 0  # must-fail edits that were tried, in this run or an earlier one
    proved_at: Optional[float] = None
    state: str = ""  # kept, NOT PROVED, or nothing


def read_log(lines: List[str]) -> Tuple[Dict[str, Times], float]:
    """The times of each crate, and the last stamp."""
    crates: Dict[str, Times] = {}
    end = 0.0
    for line in lines:
        stamped = LINE.match(line)
        if stamped is None:
            continue
        end, text = float(stamped["at"]), stamped["text"]
        running, proved, kept, tried = (form.match(text) for form in (RUNNING, PROVED, KEPT, TRIED))
        if running:
            parts = [check.split(" ") for check in running["checks"].split(", ")]
            for crate, work in sorted({(part[0], part[1]) for part in parts}):
                seconds = crates.setdefault(crate, Times()).seconds
                seconds[work] = seconds.get(work, 0.0) + float(running["seconds"])
            for crate, work, used in (part for part in parts if len(part) == 3):
                crates[crate].used[work] = crates[crate].used.get(work, 0.0) + float(used)
        elif proved:
            times = crates.setdefault(proved["crate"], Times())
            times.state = "NOT PROVED" if proved["not"] else times.state
            times.proved_at = end if not proved["tests"] else times.proved_at
        elif kept:
            crates.setdefault(kept["crate"], Times(proved_at=end)).state = "kept"
        elif tried:
            crates.setdefault(tried["crate"], Times()).edits += 1
    return crates, end


def libraries(text: str) -> Dict[str, List[str]]:
    """The crates of crates.txt, each with those of them that it uses."""
    rows = [line.split("#")[0].partition(":") for line in text.splitlines() if line.split("#")[0].strip()]
    names = [name.split()[0] for name, _, _ in rows]
    return {name: [it for it in below.split() if it in names] for name, (_, _, below) in zip(names, rows)}


def longest_chain(uses: Dict[str, List[str]], seconds: Dict[str, float]) -> List[str]:
    """The crates, lowest first, each using the one before, whose proofs together take longest."""
    best: Dict[str, List[str]] = {}

    def total(chain: List[str]) -> float:
        return sum(seconds.get(name, 0.0) for name in chain)

    def chain_to(name: str) -> List[str]:
        if name not in best:
            best[name] = [*max((chain_to(it) for it in uses[name]), key=total, default=[]), name]
        return best[name]

    return max((chain_to(name) for name in uses), key=total, default=[])


def minutes(seconds: Optional[float]) -> str:
    """Seconds as minutes, or a dash."""
    return "-" if seconds is None else f"{seconds / 60:.1f}"


def totals(times: Iterable[Dict[str, float]]) -> List[float]:
    """The sum of each work."""
    every = list(times)
    return [sum(it.get(work, 0.0) for it in every) for work in WORKS]


def report(crates: Dict[str, Times], uses: Dict[str, List[str]], end: float) -> None:
    """Prints the table and the chain."""
    print("| Crate | Proof | Tests | Must-fail edits | Proof, processor | Tests, processor | Edits, processor | Number | State |")
    print("|---|---:|---:|---:|---:|---:|---:|---:|---|")
    for name in sorted(crates, key=lambda it: [*uses, it].index(it)):
        times = crates[name]
        cells = [minutes(of.get(work)) for of in (times.seconds, times.used) for work in WORKS]
        print(f"| `{name}` | {' | '.join(cells)} | {times.edits or '-'} | {times.state} |")
    sums = totals(it.seconds for it in crates.values()) + totals(it.used for it in crates.values())
    print(f"| all | {' | '.join(map(minutes, sums))} | {sum(times.edits for times in crates.values()) or '-'} | |")
    proofs = {name: times.used.get("proof", times.seconds.get("proof", 0.0)) for name, times in crates.items()}
    chain = longest_chain(uses, proofs)
    if not chain:
        return
    print(f"\nThe whole run: {minutes(end)} minutes.")
    steps = " -> ".join(f"{name} {minutes(proofs.get(name, 0.0))}" for name in chain)
    print(f"The longest chain of proofs: {steps}: {minutes(sum(proofs.get(name, 0.0) for name in chain))} minutes of a processor.")
    rest = {(name, work): crates[name].seconds.get(work, 0.0) for name in crates for work in WORKS[1:]}
    (name, work), longest = max(rest.items(), key=lambda it: it[1])
    print(f"The longest work other than proofs: {work} of {name}, {minutes(longest)} minutes.")


def keep_minutes(crates: Dict[str, Times], uses: Dict[str, List[str]], kept: Path) -> None:
    """Writes the minutes of a processor of each crate; of one that was not proved in this run those that the file has stay."""
    old: Dict[str, List[str]] = {}
    if kept.is_file():
        old = {words[0]: words[1:4] for words in (line.split("#")[0].split() for line in kept.read_text(encoding="utf-8").splitlines()) if words}
    lines = ["# Minutes of a processor: crate, proof, tests, must-fail edits. `bench/run gate LOG` writes them; bin/build and .ci/run estimate by them."]
    for name in uses:
        used = crates[name].used if name in crates else {}
        cells = [f"{used[work] / 60:.1f}" if work in used else before for work, before in zip(WORKS, [*old.get(name, []), "0", "0", "0"][:3])]
        lines.append(f"{name} {' '.join(cells)}")
    kept.write_text("\n".join(lines) + "\n", encoding="utf-8")


def estimate(kept: Path, lanes: int) -> float:
    """How many minutes the gate takes with so many checks at once, where nothing is kept: its work, or the longest chain of proofs."""
    uses = libraries((ROOT / "crates.txt").read_text(encoding="utf-8"))
    rows = [line.split("#")[0].split() for line in kept.read_text(encoding="utf-8").splitlines()] if kept.is_file() else []
    minutes_of = {words[0]: [float(it) for it in words[1:4]] for words in rows if words}
    work = sum(sum(minutes_of.get(name, [1.5])) for name in uses)
    proofs = {name: minutes_of.get(name, [1.5])[0] for name in uses}
    return max(work / lanes, sum(proofs[name] for name in longest_chain(uses, proofs)))


def main() -> int:
    parser = argparse.ArgumentParser(description="Says where the time of the gate goes.")
    parser.add_argument("--stamp", action="store_true", help="copy standard input to standard output, with times")
    parser.add_argument("--estimate", type=int, metavar="N", help="print how many minutes the gate takes with N checks at once")
    parser.add_argument("--minutes", type=Path, metavar="FILE", help="write the minutes of each crate in LOG to this file")
    parser.add_argument("log", nargs="?", type=Path, metavar="LOG", help="a log that --stamp wrote")
    words = parser.parse_args()
    if [words.stamp, words.log is not None, words.estimate is not None].count(True) != 1:
        parser.error("one of --stamp, --estimate and LOG")
    if words.estimate is not None:
        print(f"{estimate(ROOT / 'bench' / 'minutes.txt', max(words.estimate, 1)):.0f}")
        return 0
    if words.stamp:
        stamp()
        return 0
    crates, end = read_log(words.log.read_text(encoding="utf-8").splitlines())
    if not crates:
        print(f"{words.log} has no stamped line on a crate: write it with `rt ci 2>&1 | bench/gate.py --stamp`", file=sys.stderr)
        return 1
    uses = libraries((ROOT / "crates.txt").read_text(encoding="utf-8"))
    report(crates, uses, end)
    if words.minutes:
        keep_minutes(crates, uses, words.minutes)
    return 0


if __name__ == "__main__":
    sys.exit(main())
