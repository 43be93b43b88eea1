"""Each constant of the code that a definition cites has its value a second time, and one that has not is found."""

import tempfile
from pathlib import Path

import limits
from case import Check

FILES = {
    "crates/low/specs/Low.antt": "use Rattle.low.specs.declared.TheConstants.{MOST, LEAST as FEWEST}\nuse Rattle.low.specs.declared.rule.TheConstants as Rule\nof Rule.BODY\n",
    "crates/low/src/lib.rt": "pub const MOST: u32 = 4_096;\npub const LEAST: u32 = 2;\npub const BODY: u8 = 5;\n",
    "crates/test_low/specs/Low.antt": "use Rattle.low.specs.declared.TheConstants.{ANY}\n",
    "crates/limit_laws/src/lib.rt":
        "ghost use Rattle.low.specs.declared.TheConstants.{MOST, LEAST, BODY};\nensures { MOST ≡ 4096 } ensures { LEAST ≡ 2 } ensures { BODY ≡ 5 }\n",
}
WRONG = [
    ("{ LEAST ≡ 2 }", "{ LEAST ≡ least }", "low: LEAST, which crates/low/specs/Low.antt cites"),
    ("{ BODY ≡ 5 }", "", "low: BODY, which crates/low/specs/Low.antt cites"),
    ("Rattle.low.", "Rattle.mid.", "low: MOST, which crates/low/specs/Low.antt cites"),
]


def faults_with(old: str, new: str) -> list:
    """What is wrong with a small repository whose laws differ."""
    with tempfile.TemporaryDirectory() as folder:
        for name, text in FILES.items():
            path = Path(folder, name)
            path.parent.mkdir(parents=True, exist_ok=True)
            path.write_text(text.replace(old, new) if "limit_laws" in name else text)
        return limits.faults(Path(folder))


def find() -> list:
    """What is judged wrongly."""
    wrong = [f"should pass, but {fault}" for fault in faults_with("", "")]
    for old, new, fault in WRONG:
        if not any(found.startswith(fault) for found in faults_with(old, new)):
            wrong.append(f"nothing says: {fault}")
    return wrong


CASES = [
    Check("constants: each that a definition cites has its value a second time", limits.faults),
    Check("constants: what is wrong is found", find),
]
