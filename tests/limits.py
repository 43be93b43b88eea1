#!/usr/bin/env python3
"""Finds the constants that definitions take from the code, and checks that the value of each stands a second time.

    tests/limits.py           prints what is wrong, a line each; the status is 1 where something is
    tests/limits.py --list    prints each such constant with the file that has its value too, and the files that cite it

A definition may cite a constant of the code: `use Rattle.nd_base.specs.declared.TheConstants.{STREAM_LIMIT}`. Alone that pins no number: a program with another
value would meet the definition too. So the value has to stand a second time: in a law of crates/limit_laws, as `STREAM_LIMIT ≡ 67108864`, or where OTHERS says.
Crates of tests, benches and examples are not looked at.
"""

from __future__ import annotations

import re
import sys
from pathlib import Path
from typing import Dict, Iterator, List, Set, Tuple

sys.dont_write_bytecode = True

ROOT = Path(__file__).resolve().parent.parent
LAWS = Path("crates/limit_laws/src/lib.rt")
LEFT_OUT = re.compile(r"test_|bench_|example_|limit_laws$")
CITED = re.compile(r"use Rattle\.(?P<crate>\w+)\.specs\.declared\.(?:\w+\.)*TheConstants(?:\.\{(?P<names>[^}]*)\}| as (?P<alias>\w+))")
LAW = re.compile(r"\{ (?P<name>[A-Z_0-9]+)(?:\.0)? ≡ [0-9 ^-]+ \}")

# Where else the values of constants are, of one or of a crate: a file, and a text in it, with the constant's value for `{value}`.
OTHERS: Dict[str, Tuple[str, str]] = {
    # the table of the rules has their numbers, and the smallest text that breaks each, which cases/documents.py runs
    "idl_rule_definitions": ("docs/IDL.md", "\n| {value} | "),
    # texts, which cases compare with what the program writes
    "command_why ENTRIES": ("tests/cases/why.py", "ENTRIES"),
    "dceidl HELP": ("tests/cases/words.py", "--help"),
    "dceidl VERSION": ("tests/cases/words.py", "dceidl 0.1.0"),
    # what is known of a type that is not there: no number, and nothing is written of it
    "idl_value_rules OF_VOID": ("crates/idl_value_rules/src/marks.rt", "OF_VOID"),
}

Constant = Tuple[str, str]


def definitions(root: Path) -> Iterator[Path]:
    """The files of definitions."""
    for crate in sorted((root / "crates").iterdir()):
        if not LEFT_OUT.match(crate.name):
            yield from sorted((crate / "specs").rglob("*.antt"))


def names_of(match: re.Match, text: str) -> Set[str]:
    """The constants that a `use` brings in, or those that are cited through its other name."""
    if match["alias"]:
        return set(re.findall(rf"\b{match['alias']}\.([A-Z_0-9]+)\b", text))
    return {name.split(" as ")[0].strip() for name in match["names"].split(",")}


def cited(root: Path = ROOT) -> Dict[Constant, List[Path]]:
    """The constants that are cited, as crate and name, with the files that do."""
    found: Dict[Constant, List[Path]] = {}
    for path in definitions(root):
        text = path.read_text(encoding="utf-8")
        for match in CITED.finditer(text):
            for name in names_of(match, text):
                found.setdefault((match["crate"], name), []).append(path.relative_to(root))
    return found


def value_of(root: Path, constant: Constant) -> str:
    """The value of a constant in the code, as a number without signs between its digits where it is one."""
    crate, name = constant
    for path in sorted((root / "crates" / crate / "src").rglob("*.rt")):
        match = re.search(rf"\bconst {name}: \w+ = ([^;]*);", path.read_text(encoding="utf-8"))
        if match:
            return match[1].replace("_", "") if match[1][:1].isdigit() else match[1]
    return ""


def of_laws(root: Path) -> Set[Constant]:
    """The constants of which a law has the value."""
    text = (root / LAWS).read_text(encoding="utf-8")
    laws = {match["name"] for match in LAW.finditer(text)}
    return {(match["crate"], name) for match in CITED.finditer(text) for name in names_of(match, text) & laws}


def second_of(root: Path, constant: Constant) -> str:
    """The file that has the value of a constant too, or nothing."""
    if constant in of_laws(root):
        return str(LAWS)
    file, text = OTHERS.get(" ".join(constant), OTHERS.get(constant[0], ("", "")))
    wanted = text.format(value=value_of(root, constant))
    return file if file and wanted in (root / file).read_text(encoding="utf-8") else ""


def faults(root: Path = ROOT) -> List[str]:
    """What is wrong, a line each."""
    alone = [(constant, files) for constant, files in sorted(cited(root).items()) if not second_of(root, constant)]
    return [f"{crate}: {name}, which {files[0]} cites, has its value in the code alone" for (crate, name), files in alone]


def main(words: List[str]) -> int:
    if words == ["--list"]:
        for (crate, name), files in sorted(cited().items()):
            print(f"{crate}: {name}, {second_of(ROOT, (crate, name)) or 'nowhere'}; cited by {', '.join(map(str, files))}")
        return 0
    found = faults()
    print("\n".join(found) or "the value of each constant that a definition cites stands a second time")
    return 1 if found else 0


if __name__ == "__main__":
    sys.exit(main(sys.argv[1:]))
