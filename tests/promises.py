#!/usr/bin/env python3
"""Checks that docs/PROMISES.md speaks of what is in the sources, and lists what each crate promises.

    tests/promises.py             prints what is wrong with the page, a line each; the status is 1 where something is
    tests/promises.py --list      prints each public function with the names of its clauses, and each must-fail edit, crate by crate
    tests/promises.py --list NAME ..    only of these crates
    tests/promises.py --rows [LINE ..]  prints each row of the page, or those on these lines, with the text of the clauses that it names

A row of the page has a promise, functions with clauses, must-fail edits and what is not promised. Functions are written `crate: function, clause`: a
method as `Type::method` or `Trait::method`, and where several modules have a function of one name `module::function`. The clause is an `ensures` or
`requires` by its name, or that word where the only one has no name; of an invariant `crate: Type, name` names the ghost member. An edit is `NAME` for the
crate that the row names first, and `CRATE/NAME` for another. Checked is that the crate is listed and there, that the function is in its sources, that the
clause is in the function's signature (or in its trait's, if a method of an `impl` has no clause), and that each edit is a file. Whether a clause says what
the row says, only a reader can see: `--rows` has them side by side.
"""

from __future__ import annotations

import re
import sys
from dataclasses import dataclass, field
from pathlib import Path
from typing import Dict, Iterator, List, Optional, Set, Tuple

sys.dont_write_bytecode = True

ROOT = Path(__file__).resolve().parent.parent
HEADER = ["Promise", "Function and clause", "Must-fail edits", "Not promised"]
MOST_WORDS = 3500
SPAN = re.compile(r"`([^`]+)`")
PLACE = re.compile(r"(?P<crate>\w+): (?P<function>\w+(?:::\w+)?)(?:, (?P<clause>\w+))?")

# ----------------------------------------------------------------------------------------------------------------------
# The sources

NO_CODE = re.compile(
    r"//[^\n]*|/\*.*?\*/"  # comments
    r'|b?r(?P<hashes>#*)".*?"(?P=hashes)|b?"(?:\\.|[^"\\])*"'  # strings
    r"|b?'(?:\\x[0-9a-fA-F]{2}|\\u\{[0-9a-fA-F]+\}|\\.|[^\\'\n])'",  # characters, which lifetimes are not
    re.DOTALL,
)
BLOCK = re.compile(r"\b(?P<kind>impl|trait|struct|enum)\b(?P<head>[^;{}()]*?(?:\([^;{}]*?\)[^;{}]*?)?)\{")
FUNCTION = re.compile(r"\bfn\s+(?P<name>\w+)")
PUBLIC = re.compile(r"\bpub\s+(?:const\s+)?$")
CLAUSE = re.compile(r"\b(?P<kind>requires|ensures|ghost)\*?\s*(?P<name>\w*)\s*:?\s*$")
GHOST = re.compile(r"\bghost\s+(?P<name>\w+)\s*[:=]")


@dataclass
class Function:
    """A function: its clauses, and the type, trait or module that it is in."""

    name: str
    clauses: Dict[str, str]  # the text of each by its name
    owner: Optional[str]  # the type or trait of its block
    trait: Optional[str]  # the trait that its block implements
    module: str
    is_public: bool  # by its own word, or as a method of a trait


@dataclass
class Crate:
    """What the sources of a crate hold."""

    functions: List[Function] = field(default_factory=list)
    types: Set[str] = field(default_factory=set)
    ghosts: Dict[Tuple[str, str], str] = field(default_factory=dict)  # of a type: the text of its ghost members and fields
    edits: Set[str] = field(default_factory=set)


def code_of(text: str) -> str:
    """The text with comments, strings and characters blanked, each octet in its place."""
    return NO_CODE.sub(lambda match: re.sub(r"[^\n]", " ", match.group()), text)


def closing(code: str, at: int) -> int:
    """Just after the brace that closes the one at `at`."""
    depth = 0
    for place in range(at, len(code)):
        depth += {"{": 1, "}": -1}.get(code[place], 0)
        if depth == 0:
            return place + 1
    return len(code)


def words_of(text: str) -> str:
    """A text on one line."""
    return " ".join(text.split())


def clauses_of(code: str, at: int, text: str) -> Dict[str, str]:
    """The clauses of the signature that begins at `at`, by name, with their texts. One without a name is named by its word."""
    found, depth, place, start = {}, 0, at, at
    while place < len(code):
        sign = code[place]
        depth += {"(": 1, "[": 1, ")": -1, "]": -1}.get(sign, 0)
        if sign == ";" and depth == 0:
            break
        if sign == "{" and depth == 0:
            clause = CLAUSE.search(code, start, place)
            if clause is None:
                break
            end = closing(code, place)
            found[clause["name"] or clause["kind"]] = words_of(text[clause.start() : end])
            place = start = end
        else:
            place += 1
    return found


def without_generics(head: str) -> str:
    """The head of a block without what is between < and >."""
    kept, depth = "", 0
    for before, sign in zip(" " + head, head):
        depth += sign == "<"
        kept += sign if depth == 0 else ""
        depth -= sign == ">" and before not in "-="
    return kept


def last_name(path: str) -> Optional[str]:
    """The last name of a path."""
    names = re.findall(r"\w+", path)
    return names[-1] if names else None


def named(kind: str, head: str) -> Tuple[Optional[str], Optional[str]]:
    """The type or trait of a block, and the trait that it implements."""
    bare = re.split(r"\swhere\s", without_generics(head))[0]
    if kind != "impl":
        return last_name(bare.split(":")[0]), None
    trait, _, of = bare.rpartition(" for ")
    return last_name(of), last_name(trait)


def blocks(code: str) -> Iterator[Tuple[Optional[str], Optional[str], int, int, str]]:
    """The blocks of types, traits and impls: name, implemented trait, beginning, end and kind."""
    for match in BLOCK.finditer(code):
        name, trait = named(match["kind"], match["head"])
        yield name, trait, match.end() - 1, closing(code, match.end() - 1), match["kind"]


def read_source(path: Path, crate: Crate) -> None:
    """Adds what one file holds to its crate."""
    text = path.read_text(encoding="utf-8")
    code = code_of(text)
    around = list(blocks(code))
    crate.types.update(re.findall(r"\b(?:struct|enum|trait)\s+(\w+)", code))
    for name, _, start, end, _ in around:
        for match in GHOST.finditer(code, start, end):
            brace = code.find("{", match.end())
            crate.ghosts[(name, match["name"])] = words_of(text[match.start() : closing(code, brace) if brace >= 0 else match.end()])
    for match in FUNCTION.finditer(code):
        inside = [block for block in around if block[2] < match.start() < block[3]]
        owner, trait = inside[-1][:2] if inside else (None, None)
        module = path.parent.name if path.stem == "mod" else path.stem
        is_public = bool(PUBLIC.search(code[: match.start()])) or bool(trait) or bool(inside and inside[-1][4] == "trait")
        crate.functions.append(Function(match["name"], clauses_of(code, match.end(), text), owner, trait, module, is_public))


def read_crates(root: Path) -> Dict[str, Crate]:
    """The crates that crates.txt lists and that are there."""
    listed = (line.split("#")[0].partition(":")[0].split() for line in (root / "crates.txt").read_text().splitlines())
    crates = {words[0]: Crate() for words in listed if words and (root / "crates" / words[0] / "src").is_dir()}
    for name, crate in crates.items():
        for path in sorted((root / "crates" / name / "src").rglob("*.rt")):
            read_source(path, crate)
        for folder in (root / "crates" / name / "must-fail", root / "tests" / "edits" / name):
            crate.edits |= {path.stem for path in folder.glob("*.edit")}
    return crates


# ----------------------------------------------------------------------------------------------------------------------
# The tables


@dataclass
class Row:
    """A row of a table, and the line that it is on."""

    line: int
    cells: List[str]


def read_rows(text: str) -> Tuple[List[Row], List[str]]:
    """The rows of all tables, and what is wrong with the tables' form."""
    rows, wrong, inside = [], [], False
    for number, line in enumerate(text.splitlines(), 1):
        if not line.startswith("|"):
            inside = False
            continue
        cells = [cell.strip() for cell in line.strip().strip("|").split("|")]
        if not inside:
            inside = True
            if cells != HEADER:
                wrong.append(f"line {number}: a table's head is not | {' | '.join(HEADER)} |")
        elif len(cells) != len(HEADER):
            wrong.append(f"line {number}: a row has {len(cells)} cells in place of {len(HEADER)}")
        elif any(cell.strip("-:") for cell in cells):
            rows.append(Row(number, cells))
    return rows, wrong if rows or wrong else ["there is no row"]


def spans(cell: str) -> Optional[List[str]]:
    """The code spans of a cell; none for `-`, and None where the cell holds anything else."""
    rest = SPAN.sub("", cell).replace("<br>", "").strip()
    return SPAN.findall(cell) if rest == ("" if "`" in cell else "-") else None


def clauses_at(crates: Dict[str, Crate], crate: Crate, path: str) -> Optional[Dict[str, str]]:
    """The clauses of a function or the ghost members of a type, with their texts; None if the crate has none."""
    owner, _, name = path.rpartition("::")
    if not owner and name in crate.types:
        return {ghost: text for (of, ghost), text in crate.ghosts.items() if of == name}
    here = [f for f in crate.functions if f.name == name and (f.owner == owner if owner else f.owner is None)]
    here = here or [f for f in crate.functions if f.name == name and f.owner is None and f.module == owner]
    found: Dict[str, str] = {}
    for function in here:
        found.update(function.clauses or clauses_of_trait(crates, function))
    return found if here else None


def clauses_of_trait(crates: Dict[str, Crate], method: Function) -> Dict[str, str]:
    """The clauses that a method without any has from the trait that its block implements."""
    declared = (f for crate in crates.values() for f in crate.functions)
    return {
        clause: text
        for f in declared
        if method.trait is not None and f.owner == method.trait and f.trait is None and f.name == method.name
        for clause, text in f.clauses.items()
    }


def faults_of_place(crates: Dict[str, Crate], span: str) -> List[str]:
    """What is wrong with `CRATE: FUNCTION, CLAUSE`."""
    place = PLACE.fullmatch(span)
    if place is None:
        return [f"`{span}` is not of the form `crate: function, clause`"]
    crate = crates.get(place["crate"])
    if crate is None:
        return [f"`{span}`: there is no crate {place['crate']}"]
    clauses = clauses_at(crates, crate, place["function"])
    if clauses is None:
        return [f"`{span}`: there is no {place['function']} in {place['crate']}"]
    if place["clause"] is None:
        return [f"`{span}`: a promise needs a clause"]
    if place["clause"] not in clauses:
        return [f"`{span}`: there is no clause {place['clause']}, but {', '.join(sorted(clauses)) or 'none'}"]
    return []


def edits_of(row: Row) -> List[Tuple[str, str]]:
    """The must-fail edits of a row, as crate and name. One without a crate is of the crate that the row names first."""
    first = re.search(r"`(\w+): ", row.cells[1])
    pairs = [span.rpartition("/") for span in spans(row.cells[2]) or []]
    return [(crate or (first[1] if first else ""), name) for crate, _, name in pairs]


def faults_of_row(crates: Dict[str, Crate], row: Row) -> List[str]:
    """What is wrong with a row."""
    promise, places, edits, _ = row.cells
    wrong = [] if promise else ["the promise is empty"]
    wrong += [] if spans(places) else ["the second cell is no list of `crate: function, clause`"]
    wrong += [] if spans(edits) is not None else ["the third cell is neither - nor a list of `edit`"]
    for span in spans(places) or []:
        wrong += faults_of_place(crates, span)
    for crate, name in edits_of(row):
        if crate not in crates or name not in crates[crate].edits:
            wrong.append(f"there is no file {name}.edit in crates/{crate}/must-fail or tests/edits/{crate}")
    return [f"line {row.line}: {fault}" for fault in wrong]


def faults(root: Path = ROOT) -> List[str]:
    """What is wrong with docs/PROMISES.md, a line each."""
    page = root / "docs" / "PROMISES.md"
    if not page.is_file():
        return ["there is no docs/PROMISES.md"]
    text = page.read_text(encoding="utf-8")
    crates = read_crates(root)
    rows, wrong = read_rows(text)
    for row in rows:
        wrong += faults_of_row(crates, row)
    words = len([word for word in text.split() if word not in ("|", "-")])  # the borders of cells are none
    return wrong + ([f"the page has {words} words, more than {MOST_WORDS}"] if words > MOST_WORDS else [])


# ----------------------------------------------------------------------------------------------------------------------
# The list


def path_of(function: Function) -> str:
    """A function as a row names it."""
    return f"{function.owner or function.module}::{function.name}"


def listed(crates: Dict[str, Crate], names: List[str], root: Path = ROOT) -> Iterator[str]:
    """The lines of the list."""
    for name in names:
        yield f"{name}"
        for function in crates[name].functions:
            clauses = sorted(function.clauses or clauses_of_trait(crates, function))
            if function.is_public and clauses:
                yield f"  {path_of(function)}: {', '.join(clauses)}"
        on_demand = {path.stem for path in (root / "tests" / "edits" / name).glob("*.edit")}
        for edit in sorted(crates[name].edits):
            yield f"  must fail{', on demand' if edit in on_demand else ''}: {edit}"


def side_by_side(crates: Dict[str, Crate], rows: List[Row]) -> Iterator[str]:
    """Rows, each with the texts of the clauses that it names."""
    for row in rows:
        promise, places, edits, not_promised = row.cells
        yield f"line {row.line}: {promise}"
        yield f"    not promised: {not_promised}; edits: {edits}"
        for span in spans(places) or []:
            place = PLACE.fullmatch(span)
            crate = crates.get(place["crate"]) if place else None
            clauses = clauses_at(crates, crate, place["function"]) if crate else None
            yield f"    {span}"
            yield f"        {(clauses or {}).get(place['clause'] if place else None, 'not found')}"
        yield ""


def main(words: List[str]) -> int:
    if words[:1] == ["--rows"]:
        rows, _ = read_rows((ROOT / "docs" / "PROMISES.md").read_text(encoding="utf-8"))
        print("\n".join(side_by_side(read_crates(ROOT), [row for row in rows if str(row.line) in words[1:] or not words[1:]])))
        return 0
    if words[:1] == ["--list"]:
        crates = read_crates(ROOT)
        unknown = [name for name in words[1:] if name not in crates]
        print(*(f"there is no crate {name}" for name in unknown), sep="\n", end="\n" if unknown else "", file=sys.stderr)
        print("\n".join(listed(crates, [name for name in crates if name in words[1:] or not words[1:]])))
        return 1 if unknown else 0
    found = faults()
    print("\n".join(found) or "each row is in the sources")
    return 1 if found else 0


if __name__ == "__main__":
    sys.exit(main(sys.argv[1:]))
