"""The definitions and lemmas in crates/ are as tests/sources.py says, and what is not is found."""

import tempfile
from pathlib import Path

import sources
from case import Check

FILES = {
    "crates/low/specs/Lib.antt": "pub mod Sums\n",
    "crates/low/specs/Sums.antt": (
        "-- Sums.\nuse Rattle.std.specs.Prelude.{ℕ, ◌+◌, List, [], ◌∷◌}\n\n"
        "-- the sum of numbers\nabbrev pub sum : List ℕ → ℕ\nsum [] = 0\nsum (x ∷ xs) = x + sum xs\n\n"
        "pub data Kind : Type 0 where\n  small : Kind\n"
    ),
    "crates/low/proofs/Lib.antt": "pub mod Laws\n",
    "crates/low/proofs/Laws.antt": (
        "use Rattle.low.specs.Sums.{sum, small as little}\n\nmodule _ (x : ℕ) where\n  pub one : sum (x ∷ []) ≡ x\n  one = ? little\n"
    ),
    "crates/top/src/lib.rt": "ghost use Rattle.low.specs.Sums.{sum};\n#[tactic(auto, using(low::proofs::Laws::one))]\nfn f() {}\n",
}
LAWS = FILES["crates/low/proofs/Laws.antt"]
LEMMA = "same : (x : ℕ) → x ≡ x\nsame x = refl\n"
WRONG = [
    ({"crates/top/proofs/Top.antt": "use Rattle.low.specs.Sums.{sums}\n"}, "Rattle.low.specs.Sums has no public sums"),
    ({"crates/top/proofs/Top.antt": "use Rattle.low.proofs.Sums.{sum}\n"}, "there is no Rattle.low.proofs.Sums"),
    ({"crates/top/proofs/Top.antt": "use Rattle.low.specs.Sums as low\nx = low.sums 1\n"}, "Rattle.low.specs.Sums has no public sums"),
    ({"crates/low/specs/Lib.antt": "mod Sums\n"}, "Rattle.low.specs.Sums is private"),
    ({"crates/low/proofs/Lib.antt": "mod Laws\n"}, "is private", False),
    ({"crates/low/proofs/Laws.antt": LAWS.replace("pub one", "one")}, "nothing uses", False),
    ({"crates/low/proofs/Laws.antt": LAWS + "\npub two : ℕ\ntwo = one 2\n"}, "nothing uses two"),
    ({"crates/low/proofs/Laws.antt": LAWS + "\n-- two\npub two : ℕ → ℕ\ntwo zero = two zero\n"}, "nothing uses two"),
    ({"crates/low/proofs/Laws.antt": LAWS.replace(" little", "")}, "nothing uses Kind"),
    ({"crates/top/src/lib.rt": "fn f() {}\n"}, "nothing uses one"),
    ({f"crates/top/proofs/{name}.antt": LEMMA for name in ("One", "Two", "Three")}, "Three.antt, crates/top/proofs/Two.antt: (x : ℕ) → x ≡ x"),
    ({f"crates/top/proofs/{name}.antt": LEMMA for name in ("One", "Two")}, "(x : ℕ) → x ≡ x", False),
]


def faults_with(more) -> list:
    """What is wrong with a small repository in which these files differ."""
    with tempfile.TemporaryDirectory() as folder:
        for name, text in {**FILES, **more}.items():
            path = Path(folder, name)
            path.parent.mkdir(parents=True, exist_ok=True)
            path.write_text(text, encoding="utf-8")
        return sources.imports(Path(folder)) + sources.unused(Path(folder)) + sources.repeated(Path(folder))


def find() -> list:
    """What is judged wrongly."""
    wrong = [f"should pass, but {fault}" for fault in faults_with({})]
    for more, fault, *here in WRONG:
        if any(fault in found for found in faults_with(more)) != (not here):
            wrong.append(f"nothing says that {fault}")
    return wrong


CASES = [
    Check("sources: imports find what they name", sources.imports),
    Check("sources: public names are used", sources.unused),
    Check("sources: statements of lemmas are in two files at most", sources.repeated),
    Check("sources: what is wrong is found", find),
]
