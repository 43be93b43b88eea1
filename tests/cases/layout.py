"""The repository is laid out as tests/layout.py says, and what is not is found."""

import tempfile
from pathlib import Path

import layout
from case import Check

LIST = "# The map.\n\n# 0. Base\n# octets\nlow: thiserror\n# more octets\nmid: low\n\n# 1. Top\n# all\ntop: mid low\n"
FILES = {
    "crates.txt": LIST,
    "crates/low/src/lib.rt": "//! Low.\n",
    "crates/low/specs/Low.antt": "use Rattle.low.proofs.Lib\n",
    "crates/mid/src/lib.rt": "//! Mid, with its phrases and refusals.\n",
    "crates/mid/proofs/lib.antt": "-" * 200 + "\n",
    "crates/top/src/lib.rt": "x" * 150 + "\n",
}
OLD, WORD = "ndr_" + "kept", "`" + "phrases`"
WRONG = [
    ({"crates.txt": LIST.replace("1. Top", "0. Top")}, "floor 0 is after floor 0"),
    ({"crates.txt": LIST.replace("# 0. Base\n", "")}, "low is on no floor"),
    ({"crates.txt": LIST.replace("mid: low", "mid: low top")}, "mid uses top, which comes after it"),
    ({"crates.txt": LIST.replace("# all\n", "")}, "no line before it says what it has"),
    ({"crates.txt": LIST + "# gone\ngone:\n"}, "there is no crates/gone/src"),
    ({"crates/new/src/lib.rt": ""}, "crates/new is not in crates.txt"),
    ({"docs/PAGE.md": f"what `{OLD}` has\n"}, f"docs/PAGE.md:1: {OLD} is the former name"),
    ({"docs/PAGE.md": f"\nwhat {WORD} has\n"}, f"docs/PAGE.md:2: {WORD} is the former name"),
    ({"crates/mid/src/lib.rt": "x" * 151}, "151 characters, more than 150"),
    ({"crates/mid/proofs/lib.antt": "x" * 201}, "201 characters, more than 200"),
    ({"crates/mid/specs/Mid.antt": "use Rattle.low.proofs.Lib\n"}, "it imports proofs of low"),
]


def faults_with(more) -> list:
    """What is wrong with a small repository in which these files differ."""
    with tempfile.TemporaryDirectory() as folder:
        for name, text in {**FILES, **more}.items():
            path = Path(folder, name)
            path.parent.mkdir(parents=True, exist_ok=True)
            path.write_text(text)
        return layout.faults(Path(folder))


def find() -> list:
    """What is judged wrongly."""
    wrong = [f"should pass, but {fault}" for fault in faults_with({})]
    for more, fault in WRONG:
        if not any(fault in found for found in faults_with(more)):
            wrong.append(f"nothing says that {fault}")
    return wrong


CASES = [
    Check("layout: floors, names, lengths of lines and imports", layout.faults),
    Check("layout: what is wrong is found", find),
]
