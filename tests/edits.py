#!/usr/bin/env python3
"""The wrong bodies that proofs must refuse: those that the gate tries, and those that are tried on demand.

    tests/edits.py                  lists them by crate; those that the gate tries have a *
    tests/edits.py CRATE [NAME ..]  has `rt must-fail` try those of tests/edits/CRATE, or these of them, with the gate's own of that crate

An edit of the gate is crates/CRATE/must-fail/NAME.edit, one on demand tests/edits/CRATE/NAME.edit; both have one form, which `rt --help` gives.
To be tried, the files lie in crates/CRATE/must-fail while `rt` runs. A crate has at most five in the gate, and the gate at most sixty: the edits
of a crate begin with one more proof of the whole crate, so those of the gate are in the lightest crates that show their point. `faults`, which tests/cases/edits.py calls, answers what is wrong with an edit that could not even be applied.
"""

from __future__ import annotations

import argparse
import shutil
import subprocess
import sys
from pathlib import Path
from typing import Dict, List

sys.dont_write_bytecode = True

ROOT = Path(__file__).resolve().parent.parent
MOST = 5  # edits of one crate in the gate
MOST_IN_ALL = 60


def in_gate(root: Path = ROOT) -> List[Path]:
    """The edits that the gate tries."""
    return sorted((root / "crates").glob("*/must-fail/*.edit"))


def on_demand(root: Path = ROOT) -> List[Path]:
    """The edits that are tried on demand."""
    return sorted((root / "tests" / "edits").glob("*/*.edit"))


def crate_of(root: Path, edit: Path) -> Path:
    """The folder of the crate that an edit is of."""
    inner = edit.relative_to(root).parts
    return root / "crates" / inner[1 if inner[0] == "crates" else 2]


def faults_of_edit(root: Path, edit: Path) -> List[str]:
    """Why an edit cannot be applied to the sources as they are."""
    crate, name, text, wrong, pairs = crate_of(root, edit), edit.relative_to(root), "", [], []
    for line in edit.read_text(encoding="utf-8").splitlines():
        word, _, rest = line.partition(": ")
        if word == "file":
            path = crate / rest.strip()
            if not path.is_file():
                return [f"{name}: there is no {path.relative_to(root)}"]
            text = path.read_text(encoding="utf-8")
        elif word == "old":
            pairs.append(word)
            times = text.count(rest)
            wrong += [] if times == 1 else [f"{name}: {times} places have {rest.strip()!r}"]
        elif word == "new":
            pairs.append(word)
    return wrong or ([] if pairs and pairs == ["old", "new"] * (len(pairs) // 2) else [f"{name}: no pairs of old and new"])


def faults(root: Path = ROOT) -> List[str]:
    """What is wrong with the edits, a line each."""
    wrong = [fault for edit in in_gate(root) + on_demand(root) for fault in faults_of_edit(root, edit)]
    counts: Dict[str, int] = {}
    for edit in in_gate(root):
        crate = crate_of(root, edit).name
        counts[crate] = counts.get(crate, 0) + 1
    wrong += [f"{crate} has {count} edits in the gate, more than {MOST}" for crate, count in counts.items() if count > MOST]
    wrong += [f"the gate has {sum(counts.values())} edits, more than {MOST_IN_ALL}"] if sum(counts.values()) > MOST_IN_ALL else []
    both = {(crate_of(root, edit).name, edit.name) for edit in in_gate(root)} & {(edit.parent.name, edit.name) for edit in on_demand(root)}
    return wrong + [f"{crate}/{name} is in the gate and on demand" for crate, name in sorted(both)]


def try_edits(crate: str, names: List[str]) -> int:
    """Has `rt` try edits on demand, with those that the gate tries, and takes them away again."""
    chosen = [edit for edit in on_demand() if edit.parent.name == crate and (not names or edit.stem in names)]
    missing = set(names) - {edit.stem for edit in chosen}
    if missing or not chosen:
        print(f"tests/edits/{crate} has no {', '.join(sorted(missing)) or 'edit'}", file=sys.stderr)
        return 2
    place = ROOT / "crates" / crate / "must-fail"
    was_there = place.is_dir()
    place.mkdir(exist_ok=True)
    copies = [place / edit.name for edit in chosen]
    try:
        for edit, copy in zip(chosen, copies):
            shutil.copy(edit, copy)
        return subprocess.run(["rt", "must-fail", crate], cwd=ROOT).returncode
    finally:
        for copy in copies:
            copy.unlink(missing_ok=True)
        if not was_there:
            place.rmdir()


def main() -> int:
    parser = argparse.ArgumentParser(description="Lists the wrong bodies that proofs must refuse, or has some of them tried.")
    parser.add_argument("crate", nargs="?", metavar="CRATE")
    parser.add_argument("names", nargs="*", metavar="NAME")
    asked = parser.parse_args()
    if asked.crate:
        return try_edits(asked.crate, asked.names)
    for edit in sorted(in_gate() + on_demand(), key=lambda it: (crate_of(ROOT, it).name, it.stem)):
        print(f"{'*' if edit in in_gate() else ' '} {crate_of(ROOT, edit).name}/{edit.stem}")
    wrong = faults()
    print(*wrong, sep="\n", end="\n" if wrong else "", file=sys.stderr)
    return 1 if wrong else 0


if __name__ == "__main__":
    sys.exit(main())
