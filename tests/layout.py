#!/usr/bin/env python3
"""Checks how the repository is laid out.

    tests/layout.py      prints what is wrong, a line each; the status is 1 where something is

- crates.txt has floors, `# N. heading` in order, and a line `# what it has` before each crate. A crate uses only crates that come before it:
  those of lower floors, and those above it on its own floor. Each crate is a folder of crates/, and each folder a crate.
- No crate's former name appears in any file.
- No line of src/ or specs/ is over 150 characters, none of proofs/ over 200.
- No file of specs/ imports another crate's proofs/.
"""

from __future__ import annotations

import re
import subprocess
import sys
from dataclasses import dataclass
from pathlib import Path
from typing import Iterator, List, Tuple

sys.dont_write_bytecode = True

ROOT = Path(__file__).resolve().parent.parent
LONGEST = {"src": 150, "specs": 150, "proofs": 200}
FLOOR = re.compile(r"# (\d+)\. \S.*")
CRATE = re.compile(r"(?P<name>\w+)[^:#]*:(?P<uses>[^#]*)")

# Names that crates had. Those that are also other words count only where a crate is meant.
FORMER = """
command_compat command_explain command_label command_text command_trace ctx_laws dceidl_failures dceidl_rows dceidl_words drain_rows example_graph
grammar_phrases graph_bench graph_laws graph_rows graph_worked idl_answers idl_attributes idl_compiler idl_declarators idl_examples idl_expressions
idl_gathering idl_graph idl_kinds idl_language idl_laws idl_legal idl_marks idl_meaning idl_nodes idl_rows idl_total_laws idl_type_numbers
idl_type_properties idl_values lent_files library_building library_faults library_items line_words listing_words nd_blocks
nd_canonical nd_canonical_laws nd_fitting nd_flatten nd_passes ndr_bench ndr_chain ndr_chosen ndr_chunks ndr_chunkwise ndr_decoder_agreements
ndr_decoder_chunks ndr_decoder_input ndr_decoder_pending ndr_draining ndr_elements ndr_encoder_homes ndr_encoder_structs ndr_explaining ndr_heads ndr_homes
ndr_intake ndr_kept ndr_label ndr_leaps ndr_machine ndr_maximum ndr_output ndr_parameters ndr_part_laws ndr_part_reader ndr_parts ndr_pieces ndr_pipes
ndr_printing ndr_reading ndr_rows ndr_runs ndr_sample ndr_shaped ndr_sides ndr_state ndr_steps ndr_stream ndr_structs ndr_trace_laws ndr_turns ndr_verdict
ndr_worked ndr_worklist ndr_writer ndr_writing ndr_written phrases raw_parts refusals sample_graph test_compat test_flat test_pdu test_session test_trace
test_types text_fitting text_laws text_lexer text_lexing text_parts text_paths text_printing text_reader text_reading text_reading_laws text_rows
wide_numbers
""".split()
ALSO_WORDS = ("phrases", "refusals", "sample_graph")
FORMER_NAME = re.compile(r"\b(?:%s)\b" % "|".join(name for name in FORMER if name not in ALSO_WORDS))
FORMER_WORD = re.compile(r"(?:crates/|Rattle\.|`)(?:%s)(?:[./`:])" % "|".join(ALSO_WORDS))


@dataclass
class Listed:
    """A crate of crates.txt: its line, whether a line before it says what it has, and the libraries that it uses."""

    line: int
    name: str
    is_told: bool
    uses: List[str]


def read_list(text: str) -> Tuple[List[Listed], List[str]]:
    """The crates of crates.txt in their order, and what is wrong with its floors."""
    crates, wrong, floor, before = [], [], -1, ""
    for number, line in enumerate(text.splitlines(), 1):
        heading, crate = FLOOR.fullmatch(line), CRATE.match(line)
        if heading:
            wrong += [] if int(heading[1]) > floor else [f"crates.txt:{number}: floor {heading[1]} is after floor {floor}"]
            floor = int(heading[1])
        elif crate and not line.startswith("#"):
            wrong += [] if floor >= 0 else [f"crates.txt:{number}: {crate['name']} is on no floor"]
            is_told = before.startswith("# ") and not FLOOR.fullmatch(before)
            crates.append(Listed(number, crate["name"], is_told, crate["uses"].split()))
        before = line
    return crates, wrong


def faults_of_floors(root: Path = ROOT) -> List[str]:
    """What is wrong with crates.txt."""
    crates, wrong = read_list((root / "crates.txt").read_text(encoding="utf-8"))
    folders = {path.name for path in (root / "crates").iterdir() if (path / "src").is_dir()}
    known, names = set(), {crate.name for crate in crates}
    for crate in crates:
        place = f"crates.txt:{crate.line}: {crate.name}"
        wrong += [] if crate.is_told else [f"{place}: no line before it says what it has"]
        wrong += [] if crate.name in folders else [f"{place}: there is no crates/{crate.name}/src"]
        wrong += [f"{place} uses {it}, which comes after it" for it in crate.uses if it in names and it not in known]
        known.add(crate.name)
    return wrong + [f"crates/{name} is not in crates.txt" for name in sorted(folders - names)]


def files(root: Path) -> List[Path]:
    """The files of the repository, without what was built."""
    told = subprocess.run(["git", "ls-files", "-z", "--cached", "--others", "--exclude-standard"], cwd=root, stdout=subprocess.PIPE, stderr=subprocess.DEVNULL)
    if told.returncode == 0:
        return [root / name for name in sorted(set(told.stdout.decode().split("\0"))) if name and (root / name).is_file()]
    return [path for path in sorted(root.rglob("*")) if path.is_file() and "out" not in path.relative_to(root).parts and ".git" not in path.parts]


def texts(root: Path) -> Iterator[Tuple[Path, str]]:
    """The files that are text, by their path in the repository."""
    for path in files(root):
        try:
            yield path.relative_to(root), path.read_text(encoding="utf-8")
        except UnicodeDecodeError:
            continue


def faults_of_names(path: Path, text: str) -> Iterator[str]:
    """Where a file has the former name of a crate. This file, which lists them, may."""
    if path == Path("tests/layout.py"):
        return
    for number, line in enumerate(text.splitlines(), 1):
        for found in FORMER_NAME.findall(line) + FORMER_WORD.findall(line):
            yield f"{path}:{number}: {found} is the former name of a crate"


def faults_of_lines(path: Path, text: str) -> Iterator[str]:
    """The lines of a file of a crate that are too long."""
    parts = path.parts
    most = LONGEST.get(parts[2]) if len(parts) > 3 and parts[0] == "crates" and path.suffix in (".rt", ".antt") else None
    for number, line in enumerate(text.splitlines(), 1) if most else ():
        if len(line) > most:
            yield f"{path}:{number}: {len(line)} characters, more than {most}"


def faults_of_imports(path: Path, text: str) -> Iterator[str]:
    """Where a file of definitions imports proofs of another crate. Lemmas of the toolchain's libraries are all in proofs."""
    parts = path.parts
    if len(parts) > 3 and parts[0] == "crates" and parts[2] == "specs":
        for crate in sorted(set(re.findall(r"\bRattle\.(\w+)\.proofs\b", text)) - {parts[1], "std"}):
            yield f"{path}: it imports proofs of {crate}"


def faults(root: Path = ROOT) -> List[str]:
    """What is wrong with the layout, a line each."""
    wrong = faults_of_floors(root)
    for path, text in texts(root):
        for find in (faults_of_names, faults_of_lines, faults_of_imports):
            wrong += find(path, text)
    return wrong


if __name__ == "__main__":
    found = faults()
    print("\n".join(found) or "the layout is as it should be")
    sys.exit(1 if found else 0)
