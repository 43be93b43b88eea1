"""The library: the program of README.md and those of examples/, which tests/library.py builds and runs. What is missing to run one is named there.

They are left out where bin/dceidl-lib has not built the library, since its proof takes about ten minutes.

And include/dceidl.h: its reasons and statuses have the numbers, and its structs the parts, that the code gives them; its calls are those that the crate
dceidl_c exports, and those of tests/library/symbols.txt, in which none may be missing that was there before.
"""

import re
import shutil
import subprocess
import sys
from typing import Dict, Iterator, List

from case import ROOT, Check, LeftOut

ARCHIVE = ROOT / "crates" / "dceidl_c" / "out" / "libdceidl_c.a"


def programs():
    """What is wrong with the programs."""
    if not ARCHIVE.exists():
        raise LeftOut("bin/dceidl-lib has not built the library")
    if shutil.which("cc") is None:
        raise LeftOut("there is no cc")
    ran = subprocess.run([sys.executable, str(ROOT / "tests" / "library.py"), "examples"], capture_output=True, text=True, stdin=subprocess.DEVNULL)
    return [] if ran.returncode == 0 else [ran.stdout[-4000:], ran.stderr[-4000:]]


# ----------------------------------------------------------------------------------------------------------------------
# The reasons of include/dceidl.h

HEADER = (ROOT / "include" / "dceidl.h").read_text(encoding="utf-8")
REASONS = (ROOT / "crates" / "library_calls" / "src" / "reasons.rt").read_text(encoding="utf-8")
NAMED = re.compile(r"DCEIDL_[A-Z]+_(?P<name>[A-Z_]+) = (?P<number>\d+),? +/\* (?:`(?P<word>\w+))?")
NUMBERED = re.compile(r".*::(?P<word>\w+)[^:\n]* => (?P<number>[1-9]\d*),")
OTHER_WORDS = {"ShortLabel": "Truncated"}
"""The variants whose word in a line is another."""
UNANSWERED = {312, 713, 714}
"""Octets and fragments may be followed by others, and fragments are joined without an interface: no call answers these."""


def named() -> Dict[int, str]:
    """The word of each reason in the header: the one in backquotes, or its name."""
    reasons = HEADER.split("enum dceidl_reason {")[1].split("};")[0]
    return {int(found["number"]): found["word"] or found["name"].title().replace("_", "") for found in NAMED.finditer(reasons)}


def numbered() -> Dict[int, str]:
    """The word of each reason in the code that a call can answer."""
    words = {int(found["number"]): found["word"] for found in NUMBERED.finditer(REASONS)}
    return {number: OTHER_WORDS.get(word, word) for number, word in words.items() if number not in UNANSWERED}


def wrong_reasons(header: Dict[int, str], code: Dict[int, str]) -> Iterator[str]:
    for number in sorted({*header, *code}):
        if header.get(number) != code.get(number):
            yield f"{number} is {header.get(number)} in include/dceidl.h and {code.get(number)} in crates/library_calls"


def reasons_of_header():
    """What is wrong with the reasons of the header, and what of a wrong one is not found."""
    header, code = named(), numbered()
    changed = [{**code, 218: "Sealed"}, {**code, 201: "OpenText"}, {number: word for number, word in code.items() if number != 905}]
    unseen = [f"not found: {other}" for other in changed if not list(wrong_reasons(header, other))]
    return [*wrong_reasons(header, code), *unseen]


# ----------------------------------------------------------------------------------------------------------------------
# Its statuses, its structs and its calls

CRATES = ROOT / "crates"
CONSTANT = re.compile(r"^pub const (?P<name>[A-Z_]+): u32 = (?P<number>\d+);", re.M)
ENUMERATOR = re.compile(r"DCEIDL_(?P<name>\w+) = (?P<number>\d+)")
STRUCT = re.compile(r"#\[repr\(C\)\]\n(?:#\[[^\n]*\]\n)*pub struct (?P<name>\w+)(?:<'a>)? \{\n(?P<fields>.*?)\n\}", re.S)
FIELD = re.compile(r"^    pub (?P<name>\w+): (?P<type>[^,]+),", re.M)
TYPEDEF = re.compile(r"typedef struct \{\n(?P<fields>[^{}]*)\} dceidl_(?P<name>\w+);")
PART = re.compile(r"^    (?P<type>(?:const )?[a-z0-9_]+ \*?)(?P<name>\w+);", re.M)
STRUCTS = {
    "number": ("library_calls", "Wide"),
    "cause": ("library_calls", "Cause"),
    "call": ("library_answers", "Call"),
    "identity": ("library_answers", "Identity"),
    "type": ("library_types", "TypeDescription"),
    "root": ("library_types", "RootDescription"),
    "arm": ("library_types", "ArmDescription"),
    "node": ("library_nodes", "Description"),
    "item": ("library_answers", "ItemDescription"),
}
"""The structs of the header, each with that of the code."""
TYPES = {"u32": "uint32_t ", "u64": "uint64_t ", "usize": "size_t ", "Wide": "dceidl_number "}
OTHER_NAMES = {"of": "type"}
"""The names in the code that are other ones in the header."""


def statuses() -> List[str]:
    """The statuses whose numbers differ."""
    code = CONSTANT.findall((CRATES / "library_answers" / "src" / "answers.rt").read_text(encoding="utf-8"))
    header = ENUMERATOR.findall(HEADER.split("enum dceidl_status {")[1].split("};")[0])
    return [] if sorted(code) == sorted(header) and len(code) == 8 else [f"{header} in include/dceidl.h, {code} in crates/library_answers"]


def structs() -> List[str]:
    """The structs whose parts differ in name, type or order."""
    wrong, header = [], {found["name"]: PART.findall(re.sub(r"/\*.*?\*/", "", found["fields"], flags=re.S)) for found in TYPEDEF.finditer(HEADER)}
    for name, (crate, other) in STRUCTS.items():
        sources = "\n".join(path.read_text(encoding="utf-8") for path in sorted((CRATES / crate / "src").glob("*.rt")))
        code = {found["name"]: FIELD.findall(found["fields"]) for found in STRUCT.finditer(sources)}
        wanted = [(TYPES[kind], OTHER_NAMES.get(field, field)) for field, kind in code.get(other, [])]
        if not wanted or header.get(name) != wanted:
            wrong.append(f"dceidl_{name} has {header.get(name)} in include/dceidl.h and {wanted} in crates/{crate}")
    return wrong


def exports() -> List[str]:
    """The calls that are not in the header, in the code and in the list of symbols."""
    sources = [path.read_text(encoding="utf-8") for path in (CRATES / "dceidl_c" / "src").glob("*.rt")]
    code = [name for source in sources for name in re.findall(r"no_mangle\)\]\npub extern \"C\" fn (\w+)", source)]
    header = re.findall(r"^(?:uint32_t|void) (dceidl_\w+)\(", HEADER, re.M)
    listed = (ROOT / "tests" / "library" / "symbols.txt").read_text(encoding="utf-8").split()
    return [name for name in sorted({*code, *header, *listed}) if not (name in code and name in header and name in listed)]


def numbers_of_header():
    """What is wrong with the statuses, structs and calls of the header."""
    return [*statuses(), *structs(), *(f"{name}: not in all of the header, dceidl_c and tests/library/symbols.txt" for name in exports())]


CASES = [
    Check("library: the programs of README.md and examples/", programs, runs_script=True),
    Check("library: include/dceidl.h has each reason with its number in the code", reasons_of_header),
    Check("library: include/dceidl.h has the statuses, structs and calls of the code", numbers_of_header),
]
