"""The entries of `why` as its sources have them (crates/command_why/src), and a plain model of the command."""

from __future__ import annotations

import re
from dataclasses import dataclass
from typing import Dict, List, Tuple

from case import ROOT

SOURCES = ROOT / "crates" / "command_why" / "src"
CONSTANT = re.compile(r'^pub const ENTRIES: &str = "\\\n(.*?)^";$', re.MULTILINE | re.DOTALL)


@dataclass(frozen=True)
class Part:
    """A part of an entry: the forms of the line that it is about, what is wrong, an example with what it prints, and what to do."""

    forms: Tuple[str, ...]
    wrong: str
    commands: Tuple[str, ...]
    shown: Tuple[str, ...]
    mended: str


def text_of(literal: str) -> str:
    """The text that a literal of the sources spells."""
    joined = re.sub(r"\\\n\s*", "", literal)
    return re.sub(r"\\(x..|.)", lambda found: chr(int(found[1][1:], 16)) if len(found[1]) > 1 else found[1], joined)


def entries() -> Dict[str, str]:
    """The text of each entry by its name, in the order in which they are listed."""
    literal = CONSTANT.search((SOURCES / "entries.rt").read_text(encoding="utf-8"))
    texts = text_of(literal[1]).split("\f")[:-1]
    return {text.split("\n", 1)[0]: text for text in texts}


def part_of(block: str) -> Part:
    """The part that a block of lines is."""
    lines = block.splitlines()
    forms = [line for line in lines if not line.startswith(" ")]
    example = [line[4:] for line in lines if line.startswith("    ")]
    at = next((at for at, line in enumerate(lines) if line.startswith("    ")), len(lines))
    before = [line.strip() for line in lines[len(forms):at]]
    after = [line.strip() for line in lines[at + len(example):]]
    return Part(tuple(forms), " ".join(before), tuple(line[2:] for line in example if line.startswith("$ ")),
                tuple(line for line in example if not line.startswith("$ ")), " ".join(after))


def parts(text: str) -> List[Part]:
    """The parts of an entry."""
    return [part_of(block) for block in text.split("\n", 1)[1].split("\n\n")]


def shared(one: str, other: str) -> int:
    """How many characters two names have in common at their beginnings, case aside."""
    count = 0
    while count < min(len(one), len(other)) and one[count].lower() == other[count].lower():
        count += 1
    return count


def why(words: List[str]) -> Tuple[int, str, str]:
    """The status, standard output and standard error of the command with these words."""
    found = entries()
    name = " ".join(words)
    if not words:
        return 0, "".join(f"{each}\n" for each in found), ""
    if name in found:
        return 0, found[name], ""
    most = max(shared(each, name) for each in found)
    return 2, "".join(f"{each}\n" for each in found if shared(each, name) == most), "words refused\n"
