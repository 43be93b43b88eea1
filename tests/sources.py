#!/usr/bin/env python3
"""Checks of the definitions and lemmas in `crates/`, which no proof makes.

    tests/sources.py [CHECK ..]     prints what is wrong, a line each; the status is 1 where something is

    imports     each import of this repository's definitions and lemmas finds its file, which it may see, and a public
                name in it; so does each name that is used by the short name of a file
    unused      each public name of `specs/` and `proofs/` is used: by a file that imports it, or in its own file
                outside its own definition. Examples are for readers, and their names are not looked at
    repeated    no statement of a lemma is in three files

What the toolchain makes from Rust (`declared`, `contracts`, `Goals`) is not looked at.
"""

from __future__ import annotations

import re
import sys
from dataclasses import dataclass, field
from pathlib import Path
from typing import Callable, Dict, Iterator, List, Optional, Set, Tuple

sys.dont_write_bytecode = True

ROOT = Path(__file__).resolve().parent.parent
USE = re.compile(
    r"^\s*(?P<how>(?:pub )?(?:ghost )?use|open) (?P<path>[^\s{;]+?)(?:\.\{(?P<names>[^}]*)\})?(?: as (?P<as>[^\s;]+))?;?\s*$"
)
DEFINITION = re.compile(r"^(?P<words>(?:(?:pub|abbrev|unfoldable) )*)(?P<kind>data |record |ruleset )?(?P<name>[^\s(){}\[\],;:]+)")
MEMBER = re.compile(r"^\s+(?:pub )?(?P<name>[^\s(){}\[\],;:.]+) :")
LISTED = re.compile(r"^\s*(?P<pub>pub )?mod (?P<name>\S+)\s*$")
BREAKS = re.compile(r"[\s(){}\[\],;.]+")
MADE = re.compile(r"\.(?:declared|contracts|Goals|Given|TheConstants|Key|Code|Statement)\b")  # modules that the toolchain makes
FIXED = ("Answers.antt", "Invariants.antt", "Lib.antt")  # files whose names the toolchain fixes
EXAMPLE = re.compile(r"/crates/example_|/(?:Worked\w*|\w*Examples|Proof)\.antt$")
# Crates whose names are not all used: none of these is looked at by `unused`.
NOT_LOOKED_AT = """
command_compile ctx_session ctx_store idl_check idl_constructs idl_cycles idl_declared_types idl_grammar idl_lexer idl_listing idl_names
idl_rule_definitions idl_rules idl_scope idl_tokens idl_typing nd_base nd_types nd_value rpc_pdu
""".split()

# ----------------------------------------------------------------------------------------------------------------------
# Reading a file


@dataclass
class Definition:
    name: str
    public: bool
    type: bool  # a `data` or `record`
    start: int  # its lines, with the comment above it
    end: int
    members: List[str] = field(default_factory=list)  # of a `data` its constructors, of a `record` its fields


@dataclass
class Imported:
    line: int
    module: str
    name: Optional[str]  # none where the module itself is imported
    short: str  # what it is called here
    passed_on: bool


@dataclass
class Source:
    path: Path
    crate: str
    module: str
    lines: List[str]
    imports: List[Imported] = field(default_factory=list)
    definitions: List[Definition] = field(default_factory=list)

    def text(self, without: Optional[Definition] = None) -> str:
        """Its lines but imports, comments, and one definition."""
        lines = self.lines if without is None else self.lines[: without.start] + self.lines[without.end + 1 :]
        return "\n".join(code(line) for line in lines if not USE.match(line))

    def public(self) -> Set[str]:
        """The names that others can import."""
        names = {imported.short for imported in self.imports if imported.passed_on}
        names |= {found["name"] for found in map(LISTED.match, self.lines) if found}
        for definition in self.definitions:
            if definition.public:
                names |= {definition.name, *definition.members}
        return names

    def private(self) -> Set[str]:
        """The modules that it lists for itself and those in it."""
        found = (LISTED.match(line) for line in self.lines)
        return {f"{self.module}.{listed['name']}" for listed in found if listed and not listed["pub"]}


def code(line: str) -> str:
    """A line without its comment."""
    return re.sub(r"(^|\s)--(\s.*)?$", "", line)


def words(text: str) -> Set[str]:
    found = set(BREAKS.split(text))
    return found | {word.lstrip("¬λ") for word in found}


def indent(line: str) -> int:
    return len(line) - len(line.lstrip(" "))


def read(path: Path, root: Path) -> Source:
    parts = path.relative_to(root / "crates").with_suffix("").parts
    module = "Rattle." + ".".join(parts[:-1] if parts[-1] == "Lib" else parts)
    source = Source(path, parts[0], module, path.read_text(encoding="utf-8").split("\n"))
    for number, line in enumerate(source.lines):
        found = USE.match(line)
        if found and found["names"] is None:
            short = found["as"] or found["path"].split(".")[-1]
            source.imports.append(Imported(number, found["path"], None, short, "pub" in found["how"]))
        elif found:
            for item in filter(None, (name.strip() for name in found["names"].split(","))):
                name, _, short = (part.strip() for part in item.partition(" as "))
                source.imports.append(Imported(number, found["path"], name, short or name, "pub" in found["how"]))
    if path.suffix == ".antt":
        source.definitions = list(definitions(source.lines))
    return source


def definitions(lines: List[str]) -> Iterator[Definition]:
    """The definitions of a file: at the level of the file, of a `module _ (..) where`, or of a `mutual`."""
    levels, last, at = [0], None, 0
    while at < len(lines):
        depth, body = indent(lines[at]), lines[at].strip()
        while body and depth < levels[-1]:
            levels.pop()
        if body and (depth > levels[-1] or body[0] in "})]" or body.startswith("unfolding ")):
            if last:
                last.end = at
        elif not body or body.startswith("--"):
            pass
        elif USE.match(lines[at]) or LISTED.match(lines[at]) or re.match(r"infix[lr]? ", body):
            last = None
        elif re.match(r"(pub )?module |(abbrev )?mutual\b", body):
            while "mutual" not in body and not code(lines[at]).rstrip().endswith("where"):
                at += 1
            inner = next((indent(line) for line in lines[at + 1 :] if line.strip()), 0)
            levels += [inner] if inner > levels[-1] else []
            last = None
        else:
            found = DEFINITION.match(body)
            again = found and last and not found["words"] and not found["kind"] and found["name"] == last.name
            if not found or again:
                last.end = at
            else:
                last = begun(lines, at, found)
                yield last
        at += 1


def begun(lines: List[str], at: int, found: "re.Match[str]") -> Definition:
    """The definition that begins at a line, with the comment above it."""
    depth, start = indent(lines[at]), at
    while start and lines[start - 1].strip().startswith("--") and indent(lines[start - 1]) == depth:
        start -= 1
    definition = Definition(found["name"], "pub " in found["words"], bool(found["kind"]), start, at)
    if definition.type:
        for line in lines[at + 1 :]:
            if line.strip() and indent(line) <= depth:
                break
            member = MEMBER.match(line)
            definition.members += [member["name"]] if member else []
    return definition


def sources(root: Path) -> List[Source]:
    paths = sorted((root / "crates").glob("*/*/**/*"))
    folders = ("src", "specs", "proofs")
    found = [path for path in paths if path.suffix in (".antt", ".rt") and path.relative_to(root / "crates").parts[1] in folders]
    return [read(path, root) for path in found]


# ----------------------------------------------------------------------------------------------------------------------
# The checks


def imports(root: Path = ROOT) -> List[str]:
    """Imports that find nothing."""
    all_sources = sources(root)
    public = {source.module: source.public() for source in all_sources if source.path.suffix == ".antt"}
    private = {module for source in all_sources for module in source.private()}
    crates = {source.crate for source in all_sources}
    wrong = []
    for source in all_sources:
        for imported in source.imports:
            parts = imported.module.split(".")
            own = len(parts) > 2 and parts[0] == "Rattle" and parts[1] in crates and parts[2] in ("specs", "proofs")
            if not own or MADE.search(imported.module):
                continue
            place = f"{source.path.relative_to(root)}:{imported.line + 1}"
            above, _, last = imported.module.rpartition(".")
            if imported.module not in public and not (imported.name is None and last in public.get(above, set())):
                wrong.append(f"{place}: there is no {imported.module}")
            elif imported.name and imported.name not in public[imported.module]:
                wrong.append(f"{place}: {imported.module} has no public {imported.name}")
            elif any(not is_below(source.module, module) for module in above_and(imported.module) & private):
                wrong.append(f"{place}: {imported.module} is private")
            elif imported.name is None and imported.module in public and source.path.suffix == ".antt":
                missing = sorted(members(imported.short, source.text()) - public[imported.module])
                wrong += [f"{place}: {imported.module} has no public {name}" for name in missing]
    return wrong


def members(short: str, text: str) -> Set[str]:
    """The names that a text uses of a file that it calls so."""
    return set(re.findall(r"(?<![\w.'])" + re.escape(short) + r"\.([^\s(){}\[\],;.]+)", text))


def above_and(module: str) -> Set[str]:
    """A module, and those that it is in."""
    parts = module.split(".")
    return {".".join(parts[:count]) for count in range(1, len(parts) + 1)}


def is_below(module: str, private: str) -> bool:
    """Whether a module may see a private one: it is the one that lists it, or in that."""
    return private.rpartition(".")[0] in above_and(module)


def is_named(name: str, found: Set[str], text: str) -> bool:
    if "◌" not in name:
        return name in found
    return all(part in text for part in name.split("◌") if part)


def used_names(source: Source) -> Set[Tuple[str, str]]:
    """The names of other files that a file uses."""
    text = source.text()
    found = words(text)
    used: Set[Tuple[str, str]] = set()
    for imported in source.imports:
        if imported.name is None:
            used |= {(imported.module, name) for name in members(imported.short, text)}
        elif imported.passed_on or source.path.suffix == ".rt" or is_named(imported.short, found, text):
            used.add((imported.module, imported.name))
    for path in re.findall(r"\bRattle\.[\w.'\-]+", text):
        used.add((path.rpartition(".")[0], path.rpartition(".")[2]))
    for path in re.findall(r"\b\w+::(?:specs|proofs)::[\w:'\-◌]+", text):
        module, _, name = re.sub(r"^crate\b", source.crate, path).replace("::", ".").rpartition(".")
        used.add(("Rattle." + module, name))
    return used


def unused(root: Path = ROOT) -> List[str]:
    """Public names that nothing uses."""
    all_sources = sources(root)
    used: Set[Tuple[str, str]] = set().union(*map(used_names, all_sources))
    wrong = []
    for source in all_sources:
        if source.crate in NOT_LOOKED_AT or source.path.name in FIXED or EXAMPLE.search(str(source.path)):
            continue
        for definition in source.definitions:
            names = [definition.name, *definition.members]
            if not definition.public or any((source.module, name) in used for name in names):
                continue
            text = source.text(without=definition)
            found = words(text)
            if not any(is_named(name, found, text) for name in names):
                wrong.append(f"{source.path.relative_to(root)}:{definition.start + 1}: nothing uses {definition.name}")
    return wrong


def repeated(root: Path = ROOT) -> List[str]:
    """Statements of lemmas that are in three files or more."""
    places: Dict[str, Set[str]] = {}
    for source in sources(root):
        if "/proofs/" in str(source.path) and source.path.name not in FIXED:
            for statement in filter(None, (stated(source, definition) for definition in source.definitions)):
                places.setdefault(statement, set()).add(str(source.path.relative_to(root)))
    return [f"{', '.join(sorted(found))}: {statement[:120]}" for statement, found in sorted(places.items()) if len(found) > 2]


def stated(source: Source, definition: Definition) -> Optional[str]:
    """What a lemma says, without its name; none of what is no lemma."""
    lines = [line for line in source.lines[definition.start : definition.end + 1] if not line.strip().startswith("--")]
    found = DEFINITION.match(lines[0].strip())
    rest = lines[0].strip()[found.end() :]
    if definition.type or "abbrev" in found["words"] or not rest.startswith(" : "):
        return None
    text = [rest[3:]]
    for line in lines[1:]:
        if indent(line) <= indent(lines[0]):
            break
        text.append(line.strip())
    statement = " ".join(text)
    return statement if re.search(r"[≡≤<⊥]", statement) and "→" in statement else None


CHECKS: Dict[str, Callable[..., List[str]]] = {"imports": imports, "unused": unused, "repeated": repeated}


def main(args: List[str]) -> int:
    wrong = [line for name in args or CHECKS for line in CHECKS[name]()]
    for line in wrong:
        print(line)
    return 1 if wrong else 0


if __name__ == "__main__":
    sys.exit(main(sys.argv[1:]))
