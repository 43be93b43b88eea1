"""Each wrong body can be applied to the sources as they are, and no crate has too many in the gate."""

import tempfile
from pathlib import Path

import edits
from case import Check

SOURCE = "fn one() -> u8 {\n    1\n}\nfn two() -> u8 {\n    2\n}\n"
GOOD = "file: src/lib.rt\nold:     1\nnew:     0\n"
WRONG = [
    (GOOD.replace("lib.rt", "gone.rt"), "there is no crates/low/src/gone.rt"),
    (GOOD.replace("    1", "    3"), "0 places have '3'"),
    (GOOD.replace("    1", "-> u8 {"), "2 places have '-> u8 {'"),
    (GOOD.replace("old", "odd"), "no pairs of old and new"),
]


def found(place: str, edit: str) -> list:
    """What is wrong in a small repository that has this edit in one place."""
    with tempfile.TemporaryDirectory() as folder:
        root = Path(folder)
        for path in (root / "crates" / "low" / "src", root / place):
            path.mkdir(parents=True)
        (root / "crates" / "low" / "src" / "lib.rt").write_text(SOURCE)
        (root / place / "wrong.edit").write_text(edit)
        return edits.faults(root)


def find() -> list:
    """What is wrong with the check itself."""
    faults = []
    for place in ("crates/low/must-fail", "tests/edits/low"):
        faults += found(place, GOOD)
        for edit, fault in WRONG:
            if not any(fault in line for line in found(place, edit)):
                faults.append(f"{place}: nothing says that {fault}")
    return faults


CASES = [
    Check("edits: each can be applied, and no crate has too many", edits.faults),
    Check("edits: what cannot be applied is found", find),
]
