#!/usr/bin/env python3
"""Random pairs of versions of an interface: what `compat .. why` writes of them must be what docs/IDL.md, section 13, says.

    tests/places.py                        3,000 pairs, on bin/dceidl, which is built first if it is out of date
    tests/places.py --program PATH         runs another program
    tests/places.py --seed N --count N     other pairs, or more of them

The second version is the first with a few changes. The types of both are taken from their listings. That the first operation and part that differ are
these, that the steps lead there in both versions, and that the types there cannot be partners, is found anew, by a plain search. The gate does not run
this. The status is 1 if a pair is answered otherwise; its files are printed.
"""

from __future__ import annotations

import argparse
import random
import re
import subprocess
import sys
import tempfile
from collections import Counter
from pathlib import Path
from typing import Dict, List, NamedTuple, Optional, Tuple

sys.dont_write_bytecode = True
sys.path.append(str(Path(__file__).resolve().parent))

from case import ROOT  # noqa: E402

HEAD = "[uuid(11111111-2222-3333-4444-555555555555), version(1.0), pointer_default(unique)] interface t {"
BASIC = ["boolean", "char", "byte", "small", "unsigned small", "short", "unsigned short", "long", "unsigned long", "hyper", "unsigned hyper", "context"]
HANDLE = 1 << 32
WORDS = [["small", "short", "long", "hyper"], ["byte", "boolean"], ["unique", "ptr"], ["in", "out"], ["size_is", "max_is"], ["2", "3", "4"], ["n", "m"]]


class Differs(Exception):
    """Two parts or types that cannot be alike."""


# ----------------------------------------------------------------------------------------------------------------------
# Two versions


def declared(rng: random.Random, number: int, names: List[str]) -> str:
    """The declaration of a type by a number, of types that are there."""
    def one() -> str:
        return rng.choice(["short", "long", "byte", "hyper", *names, *names])

    def member(at: int) -> str:
        return rng.choice([f"{one()} x{at};", f"{one()} x{at}[3];", f"[unique] {one()} *x{at};", f"[unique] struct s{number} *x{at};",
                           f"[string] char x{at}[4];", f"[unique, size_is(n)] {one()} *x{at};"])

    form = rng.choice(["struct", "struct", "struct", "union", "enum", "array", "pointer"])
    if form == "struct":
        return f"typedef struct s{number} {{ long n; long m; {' '.join(map(member, range(rng.randint(1, 3))))} }} t{number};"
    if form == "union":
        return (f"typedef union switch (short k) u{number} {{ case 1: {one()} a; case 2: {rng.choice([f'{one()} b', ''])}; "
                f"{rng.choice(['default: long d;', 'default: ;', ''])} }} t{number};")
    if form == "enum":
        return f"typedef enum {{ {', '.join(f'E{number}_{at}' for at in range(rng.choice([2, 3])))} }} t{number};"
    return f"typedef {one()} t{number}[{rng.choice([2, 3])}];" if form == "array" else f"typedef [unique] {one()} *t{number};"


def operation(rng: random.Random, number: int, names: List[str]) -> str:
    """An operation by a number, whose types are there."""
    def parameter(at: int) -> str:
        of = rng.choice(["long", "short", *names, *names])
        return rng.choice([f"[in] {of} p{at}", f"[in] {of} *p{at}", f"[in, out] {of} *p{at}", f"[out] {of} *p{at}", f"[in, unique] {of} *p{at}",
                           f"[in] {of} p{at}[3]", f"[in, size_is(n)] {of} p{at}[*]", f"[in] handle_t p{at}", f"[in] handles p{at}", f"[in] pipes p{at}"])

    return f"{rng.choice(['void', 'long', 'short'])} f{number}([in] long n, [in] long m, {', '.join(map(parameter, range(rng.randint(1, 3))))});"


def first_version(rng: random.Random) -> List[str]:
    """The declarations of an interface."""
    types: List[str] = ["typedef [context_handle] void *handles;", "typedef pipe long pipes;"]
    names = [f"t{number}" for number in range(rng.randint(1, 5))]
    types += [declared(rng, number, names[:number]) for number in range(len(names))]
    return types + [operation(rng, number, names) for number in range(rng.randint(1, 4))]


def one_word(rng: random.Random, declarations: List[str]) -> List[str]:
    """One word for another."""
    at = rng.randrange(len(declarations))
    tokens = re.findall(r"\w+|\W", declarations[at])
    places = [place for place, token in enumerate(tokens) if any(token in words for words in WORDS)]
    if places:
        place = rng.choice(places)
        tokens[place] = rng.choice([word for words in WORDS if tokens[place] in words for word in words])
    return declarations[:at] + ["".join(tokens)] + declarations[at + 1:]


def one_copy(rng: random.Random, declarations: List[str]) -> List[str]:
    """A copy of a type, in place of the type at some later places."""
    own = [at for at, text in enumerate(declarations) if re.search(r" t\d+(\[\d+\])?;$", text)]
    if not own:
        return declarations
    at = rng.choice(own)
    name = re.search(r"(t\d+)(\[\d+\])?;$", declarations[at])[1]
    copy = re.sub(r"\b([tsu]\d+|E\d+_\d+)\b", lambda found: f"{found[1]}c" if found[1] in (name, f"s{name[1:]}", f"u{name[1:]}") or found[1][0] == "E" else found[1],
                  declarations[at])
    later = [re.sub(rf"\b{name}\b", lambda found: rng.choice([found[0], f"{name}c"]), text) for text in declarations[at + 1:]]
    return declarations[:at + 1] + [copy] + later


def one_less(rng: random.Random, declarations: List[str]) -> List[str]:
    """An operation without its last parameter."""
    at = rng.choice([at for at, text in enumerate(declarations) if "typedef" not in text])
    return declarations[:at] + [re.sub(r", \[[\w, ()]*\] [\w *\[\]]*\);$", ");", declarations[at])] + declarations[at + 1:]


def second_version(rng: random.Random, declarations: List[str]) -> List[str]:
    """Nearly the same declarations."""
    for _ in range(rng.choice([0, 1, 2, 3])):
        declarations = rng.choice([one_word, one_word, one_word, one_copy, one_less])(rng, declarations)
    if rng.random() < 0.3:
        declarations = ["typedef struct { long z; } more;"] + declarations
    return declarations


# ----------------------------------------------------------------------------------------------------------------------
# An interface


class Type(NamedTuple):
    """A type: what must be equal, what its lines say of it, and the types that it names, each by the step to it."""

    own: tuple
    text: str
    parts: Dict[str, Optional[int]]


class Interface(NamedTuple):
    """Types by number, and of each operation its name, its parameters (name, way, attributes, type) and its result."""

    types: Dict[int, Type]
    operations: List[Tuple[str, List[Tuple[str, str, tuple, int]], Optional[int]]]


def attributes(words: List[str], names: List[str]) -> tuple:
    """The attributes after a member or parameter, with the places of their variables."""
    return tuple((word, variable[0] == "*", names.index(variable.lstrip("*"))) for word, variable in zip(words[::2], words[1::2]))


def arm(words: List[str]) -> Optional[int]:
    """The type of an arm, None of an empty one."""
    return None if words[1] == "void" else int(words[1])


def type_of(lines: List[List[str]]) -> Type:
    """The type of its lines in the listing."""
    form, *rest = lines[0][2:lines[0].index("align")]
    if form == "struct":
        names = [words[1] for words in lines[1:]]
        return Type((form, tuple(attributes(words[3:], names) for words in lines[1:])), f"struct {len(names)}", {f".{words[1]}": int(words[2]) for words in lines[1:]})
    if form == "union":
        labelled = [words for words in lines[1:] if words[0] == "arm"]
        parts = {f"arm {words[1]}": arm(words[2:]) for words in labelled}
        parts.update({"default": arm(words[1:]) for words in lines[1:] if words[0] == "default"})
        return Type((form, tuple((step, part is None) for step, part in parts.items())), f"union {len(labelled)}", {**parts, "tag": int(rest[0])})
    if form == "enum":
        return Type((form, tuple(rest)), f"enum {len(rest)}", {})
    step = "pointee" if form in ("ref", "unique", "ptr") else "element"
    return Type((form, tuple(rest[1:])), " ".join([form, *rest[1:]]) if step == "element" else form, {step: int(rest[0])})


def table_of(listing: List[List[str]]) -> Dict[int, Type]:
    """The types of a listing."""
    types = {number: Type((text,), text, {}) for number, text in enumerate(BASIC)}
    for at, words in enumerate(listing):
        if words[0] == "type":
            end = next(place for place in range(at + 1, len(listing)) if listing[place][0] in ("type", "op"))
            types[int(words[1])] = type_of(listing[at:end])
    return types


def interface_of(listing: str, declarations: List[str]) -> Interface:
    """The interface of a listing and its declarations, which have the parameters in their order."""
    lines = [line.split(" ") for line in listing.splitlines()]
    sides: List[Dict[str, List[str]]] = []
    for words in lines:
        if words[0] == "op":
            sides.append({})
        elif words[0] in ("in", "out"):
            sides[-1][words[1]] = words[2:]
    operations = []
    for text in (text for text in declarations if "typedef" not in text):
        name, between = re.match(r"\w+ (\w+)\((.*)\);$", text).groups()
        parameters = re.findall(r"\[([^\]]*)\] [\w ]+?\*?(\w+)(?:\[.\])?(?:, |$)", between)
        sent, names = sides[len(operations)], [parameter for _, parameter in parameters]
        params = []
        for words, parameter in parameters:
            way = " ".join(word for word in ("in", "out") if word in words.split(", "))
            line = sent.get(parameter, [str(HANDLE)])
            params.append((parameter, way, attributes(line[1:], names), int(line[0])))
        operations.append((name, params, int(sent["return"][0]) if "return" in sent else None))
    return Interface(table_of(lines), operations)


# ----------------------------------------------------------------------------------------------------------------------
# The first part that differs, and what is written


def own_differs(old: Optional[Type], new: Optional[Type]) -> bool:
    """Whether two types differ whatever the types that they name are paired with, leaving names aside."""
    if old is None or new is None:
        return True
    return old.own != new.own or len(old.parts) != len(new.parts)


class Pairing:
    """The pairs that the parts so far ask for."""

    def __init__(self, old: Interface, new: Interface):
        self.old, self.new = old, new
        self.partners: Dict[int, int] = {}
        self.back: Dict[int, int] = {}

    def pair(self, first: int, second: int) -> None:
        """Pairs two types, and all that they name."""
        due = [(first, second)]
        while due:
            one, other = due.pop()
            if one != other and min(one, other) < 12 or self.partners.get(one, other) != other or self.back.get(other, one) != one:
                raise Differs
            if one in self.partners:
                continue
            self.partners[one], self.back[other] = other, one
            here, there = self.old.types.get(one), self.new.types.get(other)
            if own_differs(here, there):
                raise Differs
            due += [(part, match) for part, match in zip(here.parts.values(), there.parts.values()) if part is not None]


def first_difference(old: Interface, new: Interface) -> Optional[Tuple[int, Optional[int], str]]:
    """The number of the first operation that differs and of its part, with what differs: `counts`, `parts` or `types`."""
    pairing = Pairing(old, new)
    for number, ((_, params, result), (_, others, other)) in enumerate(zip(old.operations, new.operations)):
        if len(params) != len(others):
            return number, None, "counts"
        parts = [(one[3], another[3], one[1:3] != another[1:3]) for one, another in zip(params, others)]
        for part, (one, another, unlike) in enumerate(parts + [(result, other, (result is None) != (other is None))]):
            if unlike:
                return number, part, "parts"
            if one is None or one == another == HANDLE:
                continue
            try:
                pairing.pair(one, another)
            except Differs:
                return number, part, "types"
    return None


def text_of(interface: Interface, of: Optional[int]) -> str:
    """What is written of a type."""
    return "void" if of is None else "handle_t" if of == HANDLE else interface.types[of].text


def part_of(interface: Interface, number: int, part: int) -> Tuple[str, str, Optional[int]]:
    """The first line of a part, its way, and its type."""
    name, params, result = interface.operations[number]
    if part == len(params):
        return f"op {name} result", "", result
    return f"op {name} parameter {params[part][0]}", f"{params[part][1]} ", params[part][3]


def places(old: Interface, lines: List[str]) -> Tuple[int, int]:
    """The numbers of the operation and part that a first line names."""
    _, name, *rest = lines[0].split(" ")
    number = [each[0] for each in old.operations].index(name)
    params = old.operations[number][1]
    return number, len(params) if rest == ["result"] else [each[0] for each in params].index(rest[1])


def led(old: Interface, new: Interface, lines: List[str], number: int, part: int) -> Tuple[int, int]:
    """The types to which the lines of a place lead; an error if they are others than these lines say."""
    line, _, one = part_of(old, number, part)
    other = part_of(new, number, part)[2]
    assert lines[0] == line
    for step in re.findall(r"\.\w+|arm -?\d+|\w+", lines[1][5:] if lines[1].startswith("path ") else ""):
        at = list(old.types[one].parts).index(step)
        one, other = old.types[one].parts[step], list(new.types[other].parts.values())[at]
    assert lines[-2:] == [f"old {text_of(old, one)}", f"new {text_of(new, other)}"] and len(lines) == 3 + lines[1].startswith("path ")
    return one, other


def judged(old: Interface, new: Interface, shown: str, number: int, part: Optional[int], what: str) -> str:
    """The kind of what is written; an error if it is wrong."""
    lines = shown.splitlines()
    name, params, _ = old.operations[number]
    if what == "counts":
        assert lines == [f"op {name}", f"old {len(params)} parameters", f"new {len(new.operations[number][1])} parameters"]
        return what
    line, way, one = part_of(old, number, part)
    _, other_way, other = part_of(new, number, part)
    if what == "parts":
        assert lines == [line, f"old {way}{text_of(old, one)}", f"new {other_way}{text_of(new, other)}"]
        return what
    end = lines.index("earlier") if "earlier" in lines else len(lines)
    one, other = led(old, new, lines[:end], number, part)
    basic = one != other and min(one, other) < 12
    if end == len(lines):
        assert basic or own_differs(old.types.get(one), new.types.get(other))
        return "types"
    earlier = places(old, lines[end + 1:])
    first, second = led(old, new, lines[end + 1:], *earlier)
    assert earlier <= (number, part) and not basic and (first == one) != (second == other)
    return "clash"


def tried(program: str, rng: random.Random, folder: Path) -> Optional[str]:
    """The kind of what is written of a random pair; None if one version is not accepted."""
    def run(*words: str) -> Tuple[int, str, str]:
        done = subprocess.run([program, *words], cwd=folder, stdin=subprocess.DEVNULL, capture_output=True, timeout=60, check=False)
        return done.returncode, done.stdout.decode(), done.stderr.decode()

    versions, found = {"old.idl": first_version(rng)}, []
    versions["new.idl"] = second_version(rng, versions["old.idl"])
    for name, declarations in versions.items():
        (folder / name).write_text("\n".join([HEAD, *declarations, "}", ""]), encoding="ascii")
        status, listing, _ = run("compile", name, "-")
        if status != 0:
            return None
        found.append(interface_of(listing, declarations))
    old, new = found
    words = ["compat", "old.idl", "-", "new.idl", "-"]
    plain, shown = run(*words), run(*words, "why")
    differs = first_difference(old, new)
    if differs is None:
        assert plain == shown == (0, f"compatible {len(old.operations)}\n", ""), (plain, shown)
        return "compatible"
    assert plain == (1, "", f"refused: compat: Differs {old.operations[differs[0]][0]}\n") and (shown[0], shown[2]) == (plain[0], plain[2]), (plain, shown, differs)
    try:
        return judged(old, new, shown[1], *differs)
    except (AssertionError, ValueError, KeyError, IndexError) as wrong:
        raise AssertionError(shown[1], differs) from wrong


def built() -> str:
    """The path of the program, once it is built."""
    subprocess.run([str(ROOT / "bin" / "dceidl"), "--version"], stdout=subprocess.DEVNULL, check=True)
    return str(ROOT / "bin" / "dceidl")


def main() -> int:
    arguments = argparse.ArgumentParser(description="Compares what `compat .. why` writes of random pairs of versions with a plain model.")
    arguments.add_argument("--program")
    arguments.add_argument("--seed", type=int, default=1)
    arguments.add_argument("--count", type=int, default=3000)
    asked = arguments.parse_args()
    program = str(Path(asked.program).resolve()) if asked.program else built()
    kinds: Counter = Counter()
    with tempfile.TemporaryDirectory() as name:
        number = 0
        while sum(kinds.values()) < asked.count:
            number += 1
            try:
                kind = tried(program, random.Random(f"{asked.seed}:{number}"), Path(name))
            except AssertionError as wrong:
                print(f"FAILED: pair {number}: {wrong}")
                for each in ("old.idl", "new.idl"):
                    print((Path(name) / each).read_text(encoding="ascii"))
                return 1
            if kind is not None:
                kinds[kind] += 1
    print(", ".join(f"{kind} {count}" for kind, count in sorted(kinds.items())))
    return 0


if __name__ == "__main__":
    sys.exit(main())
