#!/usr/bin/env python3
"""Lists what one must read to know what a public call promises.

    tests/reading.py NAME ..          the files of definitions that the clauses of a public function cite, followed to
                                      the end: a line each with its lines, and the total
    tests/reading.py --clause NAME    the same, clause by clause
    tests/reading.py --text NAME      the clauses, and the definitions themselves, with their comments: those of lower
                                      crates first, and nothing else

NAME is a function, as `decode`, or CRATE:FUNCTION where several crates have one of that name. A clause cites what its
names mean by the imports of its file; a file of `specs/` is followed by the names that it imports, in the definitions
that are cited. Types and models that a crate's Rust declares are counted apart, by their source files. What is of the
toolchain's library is not counted.
"""

from __future__ import annotations

import re
import signal
import sys
from dataclasses import dataclass, field
from pathlib import Path
from typing import Callable, Dict, Iterable, List, Optional, Set, Tuple

sys.dont_write_bytecode = True

ROOT = Path(__file__).resolve().parent.parent
USE = re.compile(r"^\s*(?:ghost |pub )*use (?P<path>[^\s{;]+?)(?:\.\{(?P<names>[^}]*)\})?(?: as (?P<as>\S+?))?;?\s*$")
BREAKS = re.compile(r"[\s(){}\[\],;.:&|<>!*=]+")
START = re.compile(r"^(?:(?:pub|abbrev|unfoldable) )*(?:data |record )?(?P<name>[^\s(){}\[\],;:]+)")

Place = Tuple[str, str]  # a module of `specs/`, and a name in it


def words(text: str) -> Set[str]:
    """The names in a text, but those of fields."""
    found: Set[str] = set()
    for line in text.split("\n"):
        line = re.sub(r"(^|\s)(--|//)(\s|/|$).*", "", line)
        line = re.sub(r"(?<=[^\s(])\.[^\s(){}\[\],;.]+", " ", line)
        for part in re.split(r"[\s(){}\[\],;.]+", line):
            found |= {part, part.lstrip("¬λ")}
    return found


@dataclass
class Imports:
    """What the names of a file mean: of items, and of modules."""

    items: Dict[str, Place] = field(default_factory=dict)
    modules: Dict[str, str] = field(default_factory=dict)

    def add(self, line: str) -> bool:
        found = USE.match(line)
        if not found:
            return False
        path = found["path"]
        if found["names"] is None:
            self.modules[found["as"] or path.split(".")[-1]] = path
            return True
        for item in filter(None, (name.strip() for name in found["names"].split(","))):
            source, _, short = item.partition(" as ")
            self.items[(short or source).strip()] = (path, source.strip())
        return True

    def cited(self, text: str) -> Set[Place]:
        """The places that a text names."""
        names = words(text)
        found = {place for short, place in self.items.items() if uses(short, names)}
        for short, path in self.modules.items():
            if short in names:
                for member in re.findall(r"(?<![\w.])" + re.escape(short) + r"\.([^\s(){}\[\],;.]+)", text):
                    found.add((path, member))
        return found


def uses(short: str, names: Set[str]) -> bool:
    if "◌" not in short:
        return short in names
    return all(any(part in name for name in names) for part in short.split("◌") if part)


@dataclass
class Module:
    """A file of definitions, cut into its definitions."""

    path: Path
    imports: Imports = field(default_factory=Imports)
    texts: Dict[str, str] = field(default_factory=dict)  # the text of each definition
    shown: Dict[str, str] = field(default_factory=dict)  # the same with its comments
    heads: str = ""  # telescopes of modules, which hold for all of them


class Sources:
    def __init__(self) -> None:
        self.modules: Dict[str, Optional[Module]] = {}
        self.crates = [path.name for path in (ROOT / "crates").iterdir() if path.is_dir()]

    def file(self, name: str) -> Optional[Path]:
        """The file of a module `Rattle.CRATE.specs.A.B`."""
        parts = name.split(".")
        if len(parts) < 3 or parts[0] != "Rattle" or parts[1] not in self.crates:
            return None
        base = ROOT / "crates" / parts[1]
        rest = parts[2:]
        if "declared" in rest:
            return declared(base, rest[rest.index("declared") + 1 :])
        path = base.joinpath(*rest).with_suffix(".antt")
        return path if path.is_file() else None

    def module(self, name: str) -> Optional[Module]:
        if name not in self.modules:
            path = self.file(name)
            self.modules[name] = cut(path) if path else None
        return self.modules[name]

    def follow(self, start: Iterable[Place]) -> Dict[Path, Set[str]]:
        """Each file that is reached, with the names that are cited of it."""
        reached: Dict[Path, Set[str]] = {}
        todo = list(start)
        seen: Set[Place] = set()
        while todo:
            place = todo.pop()
            if place in seen:
                continue
            seen.add(place)
            module = self.module(place[0])
            if module is None:
                continue
            reached.setdefault(module.path, set()).add(place[1])
            if module.path.suffix != ".antt":
                continue
            name = owner(module, place[1])
            text = module.texts.get(name, "") + "\n" + module.heads
            todo.extend(module.imports.cited(text))
            mine = words(text)
            todo.extend((place[0], other) for other in module.texts if other != name and uses(other, mine))
        return reached


def owner(module: Module, name: str) -> str:
    """The definition that a name is of: its own, or that of the type whose variant or field it is."""
    if name in module.texts:
        return name
    for title, text in module.texts.items():
        if re.search(r"^\s+(?:pub )?" + re.escape(name) + r" :", text, re.M):
            return title
    return name


def declared(base: Path, rest: List[str]) -> Optional[Path]:
    """The Rust file that declares what a module `declared.A.B` is of."""
    for count in range(len(rest), 0, -1):
        path = (base / "src").joinpath(*rest[:count]).with_suffix(".rt")
        if path.is_file():
            return path
    return base / "src" / "lib.rt"


def cut(path: Path) -> Module:
    module = Module(path)
    if path.suffix != ".antt":
        return module
    name, comment = "", ""
    for line in path.read_text(encoding="utf-8").split("\n"):
        if module.imports.add(line):
            continue
        depth = len(line) - len(line.lstrip(" "))
        body = line.strip()
        if not body or body.startswith("--"):
            comment = comment + line + "\n" if body and not body.startswith("-- #") else ""
            continue
        if re.match(r"(pub )?module ", body):
            module.heads += line + "\n"
            continue
        start = re.match(r"^(?:(?:pub|abbrev|unfoldable) )*(?:(?:data|record) )?(?P<name>[^\s(){}\[\],;:]+)", body)
        if start and depth <= 4 and re.match(r"^((pub|abbrev|unfoldable|data|record) )", body):
            inside = name and depth > 0 and re.match(r"pub \S+ :", body) and is_record(module.texts.get(name, ""), depth)
            if not inside:
                name = start["name"]
        if name:
            module.texts[name] = module.texts.get(name, "") + line + "\n"
            module.shown[name] = module.shown.get(name, "") + comment + line + "\n"
        comment = ""
    return module


def is_record(text: str, depth: int) -> bool:
    """Whether a text is a record or type whose fields are this deep."""
    first = text.split("\n")[0]
    return bool(re.match(r"\s*(?:pub )?(?:record|data) ", first)) and len(first) - len(first.lstrip(" ")) < depth


# ----------------------------------------------------------------------------------------------------------------------
# The clauses of a function

FUNCTION = re.compile(r"^\s*pub (?:unsafe )?fn (?P<name>\w+)\b", re.M)


@dataclass
class Call:
    crate: str
    path: Path
    line: int
    clauses: List[Tuple[str, str]]  # the name of each, and its text


def calls(name: str) -> List[Call]:
    crate, _, function = name.rpartition(":")
    found = []
    for path in sorted((ROOT / "crates").glob("*/src/**/*.rt")):
        if path.name == "tests.rt" or (crate and path.relative_to(ROOT / "crates").parts[0] != crate):
            continue
        text = path.read_text(encoding="utf-8")
        for match in FUNCTION.finditer(text):
            if match["name"] == function:
                clauses = list(clauses_of(text, match.end()))
                line = text.count("\n", 0, match.start("name")) + 1
                found.append(Call(path.relative_to(ROOT / "crates").parts[0], path, line, clauses))
    return found


CLAUSE = re.compile(r"\b(?P<kind>requires|ensures)\*?\s*(?P<name>\w*)\s*\{")


def clauses_of(text: str, start: int) -> Iterable[Tuple[str, str]]:
    """The clauses of the signature that begins here, which its body ends."""
    at = start
    while True:
        brace = text.find("{", at)
        if brace < 0:
            return
        between = text[at:brace]
        head = re.search(r"\b(?P<kind>requires|ensures)\*?\s*(?P<name>\w*)\s*:?\s*$", between)
        if ";" in between and not head:
            return
        if not head:
            return
        depth, end = 1, brace + 1
        while depth:
            depth += {"{": 1, "}": -1}.get(text[end], 0)
            end += 1
        yield (head["kind"] + (" " + head["name"] if head["name"] else ""), text[brace + 1 : end - 1])
        at = end


def main(args: List[str]) -> int:
    by_clause, as_text = "--clause" in args, "--text" in args
    names = [arg for arg in args if not arg.startswith("--")]
    if not names:
        print(__doc__.strip(), file=sys.stderr)
        return 2
    for name in names:
        found = calls(name)
        if not found:
            print(f"no public function {name}", file=sys.stderr)
            return 1
        for call in found:
            if as_text:
                print_text(call)
            else:
                show(call, by_clause)
    return 0


def imports_of(call: Call) -> Imports:
    """What the names of a call's clauses mean."""
    imports = Imports()
    for line in call.path.read_text(encoding="utf-8").split("\n"):
        if line.startswith("ghost use "):
            imports.add(line)
    return imports


def print_text(call: Call) -> None:
    """Prints the clauses of a call, and the definitions that they cite."""
    sources = Sources()
    print(f"{call.path.relative_to(ROOT)}:{call.line}")
    for title, text in call.clauses:
        print(f"    {title} {{{text}}}")
    reached = sources.follow(imports_of(call).cited("\n".join(text for _, text in call.clauses)))
    modules = {module.path: module for module in sources.modules.values() if module}
    for path in sorted((path for path in reached if path.suffix == ".antt"), key=place_of()):
        module = modules[path]
        names = {owner(module, name) for name in reached[path]}
        print(f"\n-- {path.relative_to(ROOT / 'crates')}")
        for name, text in module.shown.items():
            if name in names:
                print("\n" + text, end="")


def show(call: Call, by_clause: bool) -> None:
    sources = Sources()
    imports = imports_of(call)
    print(f"{call.path.relative_to(ROOT)}:{call.line}")
    parts = call.clauses if by_clause else [("", "\n".join(text for _, text in call.clauses))]
    for title, text in parts:
        if title:
            print(f"\n{title}")
        report(sources.follow(imports.cited(text)))


def place_of() -> Callable[[Path], Tuple[int, str]]:
    """Where a file comes in the order of the crates, lowest first."""
    crates = (ROOT / "crates.txt").read_text(encoding="utf-8").split("\n")
    order = [line.split(":")[0].split(" ")[0] for line in crates if ":" in line and not line.startswith("#")]

    def key(path: Path) -> Tuple[int, str]:
        crate = path.relative_to(ROOT / "crates").parts[0]
        return (order.index(crate) if crate in order else -1, str(path))

    return key


def report(reached: Dict[Path, Set[str]]) -> None:
    key = place_of()
    for suffix, what in ((".antt", "files of definitions"), (".rt", "files of types")):
        paths = sorted((path for path in reached if path.suffix == suffix), key=key)
        total = 0
        for path in paths:
            lines = len(path.read_text(encoding="utf-8").splitlines())
            total += lines
            print(f"{lines:6}  {path.relative_to(ROOT / 'crates')}")
        print(f"{total:6}  lines in {len(paths)} {what}")


if __name__ == "__main__":
    signal.signal(signal.SIGPIPE, signal.SIG_DFL)  # a reader such as `head` may stop early
    sys.exit(main(sys.argv[1:]))
