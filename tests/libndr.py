#!/usr/bin/env python3
"""Octets that libndr writes, read by files that bin/from-midl made of Samba's interface files.

    tests/libndr.py --sources FOLDER [--program PATH] [--seeds N] [--mutations N] [--c706] [INTERFACE ..]

FOLDER is librpc/idl of Samba's sources (`apt-get source samba`), of the version of python3-samba that is installed. For each operation of each interface that
the Python bindings have, requests and responses are filled with random values, packed by libndr in both orders, decoded by the program, and compared with the values
that were given; they are encoded again, and compared with libndr's octets, other than the numbers of pointers, which each program chooses. Mutated octets are given to
both. It needs python3-samba, and is left out with a line without it. The gate does not run it.
"""

from __future__ import annotations

import argparse
import collections
import importlib
import os
import pickle
import random
import re
import struct
import subprocess
import sys
import tempfile
from dataclasses import dataclass, field, replace
from pathlib import Path
from typing import Any, Callable, Counter, Dict, Iterator, List, Optional, Sequence, Tuple

ROOT = Path(__file__).resolve().parent.parent
sys.path.insert(0, str(ROOT))

from midl.command import translated
from midl.constants import NotConstant, evaluate
from midl.report import BARE, NO_EQUIVALENT, PARTLY
from midl.shapes import Base, Level, Nothing, Primitive, Scope, Shape, Sources
from midl.tokens import Refused, Token
from midl.tree import Body, Field, Interface, Operation, find
from midl.writer import Writer

SIDES = 950  # that the bindings of Samba 4.17.12 fill, at least, with two seeds
COUNTED = ("size_is", "length_is", "switch_is", "max_is")
ANY = "(computed)"  # a value that libndr computes


class NotFilled(Exception):
    """What the bindings cannot be given."""


class Letters(List[int]):
    """Letters, after which libndr may write a zero if their count has room for it."""


@dataclass(frozen=True)
class Tagged:
    """A union: its tag and the value of its arm."""

    tag: int
    value: Any


# ----------------------------------------------------------------------------------------------------------------------
# Values for the bindings, and what they are in the text of the values


class Filler:
    """Makes values of pidl's types: for the bindings, and as plain numbers, lists, texts and dictionaries."""

    def __init__(self, scope: Scope, source: random.Random) -> None:
        self.scope, self.random = scope, source
        self.depth = 0

    def class_of(self, body: Body) -> Any:
        """The class of the bindings for a struct."""
        module = Path(body.place.file).stem
        home = importlib.import_module(f"samba.dcerpc.{module}")
        for name in (body.name, re.sub(f"^{module}_", "", body.name)):
            if hasattr(home, name):
                return getattr(home, name)
        raise NotFilled(f"the bindings have no {body.name}")

    def number(self, base: Primitive, small: bool) -> int:
        """A number of a type."""
        if small:
            return self.random.randrange(4)
        bits = {"small": 8, "char": 8, "byte": 8, "boolean": 1, "short": 16, "long": 32, "hyper": 64}[base.text.split()[-1]]
        if base.enumeration is not None and base.enumeration.kind == "enum":
            index = self.random.randrange(len(base.enumeration.values))
            return self.scope.enumerator(base.enumeration, index) % (1 << bits)
        value = self.random.getrandbits(bits)
        return value if base.text.split()[0] in ("unsigned", "byte", "char", "boolean") else value - (1 << (bits - 1))

    def fields(self, fields: Sequence[Field], place: str, outer: Callable[[str], Optional[int]], beside: Sequence[Field]) -> Iterator[Tuple[Field, Any, Any]]:
        """Values for members or parameters, those first that others name, be it on the other side."""
        shapes = [self.scope.shape(f.type, f.attributes, f.declarator, "unique", place) for f in fields if f.type is not None]
        known: Dict[str, int] = {}

        def value(name: str) -> int:
            found = known.get(name, outer(name))
            if found is None:
                raise NotConstant(name)
            return found

        named, unions = set(), {}
        for each in [*fields, *beside]:
            for attribute in each.attributes:
                words = [t.text for x in attribute.arguments or () for t in x if t.kind == "word"] if attribute.name in COUNTED else []
                named.update(words)
                if attribute.name == "switch_is" and len(words) == 1 and each.type is not None:
                    unions[words[0]] = self.scope.expand(each.type).base
        computed = 2 * self.random.randrange(5)
        for each, shape in zip(fields, shapes):
            name = each.declarator.name
            if name not in named or not isinstance(shape.base, Primitive):
                continue
            union = unions.get(name)
            known[name] = self.tag(union) if isinstance(union, Body) else self.number(shape.base, True)
            ranges = find(each.attributes, "range")
            if ranges:
                low, high = (self.scope.value(a) for a in ranges.arguments or ())
                known[name] = min(max(known[name], low), high)
            if find(each.attributes, "value") and not union:
                known[name] = computed
                yield each, computed, ANY
            else:
                yield each, known[name], known[name]
        for each, shape in zip(fields, shapes):
            if each.declarator.name not in known:
                given, wanted = self.levels(list(shape.levels), shape.base, each, value, place == "parameter")
                if find(each.attributes, "value"):
                    wanted = ANY
                yield each, given, wanted

    def tag(self, union: Body) -> int:
        """A tag for which a union has an arm."""
        labels = [label for each in union.fields for label in each.labels if label is not None]
        if not labels:
            return self.random.randrange(4)
        return self.scope.value(self.random.choice(labels)) % (1 << 32)

    def count(self, tokens: Sequence[Token], value: Callable[[str], int]) -> int:
        """The value of size_is or length_is; stars are the values that pointers point to."""
        words = [t.text for i, t in enumerate(tokens) if not (t.text == "*" and (i == 0 or tokens[i - 1].text in "(+-*/"))]
        return evaluate(words, value)

    def levels(self, levels: List[Level], base: Base, each: Field, value: Callable[[str], int], top: bool) -> Tuple[Any, Any]:
        """A value of these levels of a base."""
        if not levels:
            return self.base(base, each, value)
        level, rest = levels[0], levels[1:]
        if level.is_pointer:
            cls = level.given or ("ref" if top else level.default)
            if cls != "ref" and (self.depth > 6 or self.random.random() < 0.2):
                return None, None
            if not level.sized:
                given, wanted = self.levels(rest, base, each, value, False)
                return (given, wanted) if given is not None or cls == "ref" else (None, None)
        if level.string or (isinstance(base, Primitive) and base.letter and not rest and find(each.attributes, "charset")):
            return self.text(level, base, each, value)
        if level.bound is not None:
            length = level.bound
        else:
            length = self.count(level.lengths[0].tokens if level.lengths else level.size.tokens if level.size else (), value)
            size = self.count(level.size.tokens, value) if level.size else length
            if not 0 <= length <= size or size > 5000:
                raise NotFilled(f"{length} of {size} elements")
            if size > length and level.lengths:
                made = [self.levels(rest, base, each, value, False) for _ in range(size)]
                return [g for g, _ in made], [w for _, w in made[:length]]
        made = [self.levels(rest, base, each, value, False) for _ in range(length)]
        return [g for g, _ in made], [w for _, w in made]

    def text(self, level: Level, base: Base, each: Field, value: Callable[[str], int]) -> Tuple[Any, Any]:
        """A string, or letters with counts."""
        assert isinstance(base, Primitive)
        wide = base.letter == "wide"
        letters = "abcXYZ 19" + ("ä€" if wide else "")
        if level.string:
            length = self.random.randrange(6) if level.bound is None else self.random.randrange(level.bound)
            if level.size is not None:
                length = self.count(level.size.tokens, value) - 1
                if length < 0:
                    raise NotFilled("a string without room for its end")
        else:
            counts = level.lengths[0].tokens if level.lengths else level.size.tokens if level.size else ()
            length = level.bound if level.bound is not None else self.count(counts, value)
        if length > 5000:
            raise NotFilled(f"{length} letters")
        given = "".join(self.random.choice(letters) for _ in range(length))
        units = list(struct.unpack(f"<{len(given)}H", given.encode("utf-16-le"))) if wide else [ord(c) for c in given]
        if level.string and not wide:
            return given, given
        return given, Letters(units + ([0] if level.string else []))

    def base(self, base: Base, each: Field, value: Callable[[str], int]) -> Tuple[Any, Any]:
        """A value without levels."""
        if isinstance(base, Primitive):
            number = self.number(base, False)
            ranges = find(each.attributes, "range")
            if ranges:
                low, high = (self.scope.value(a) for a in ranges.arguments or ())
                number = self.random.randint(low, min(high, low + 100))
            if base.name == "NTTIME_1sec":
                return number % (1 << 32) * 10_000_000, number % (1 << 32)
            if base.name == "ipv4address":
                return ".".join(str(b) for b in struct.pack(">I", number)), number
            return number, number
        if not isinstance(base, Body):
            raise NotFilled("a special type")
        if base.kind == "union":
            return self.union(base, each, value)
        self.depth += 1
        try:
            return self.struct(base)
        finally:
            self.depth -= 1

    def struct(self, body: Body) -> Tuple[Any, Any]:
        """A struct."""
        if body.name == "udlong":
            number = self.random.getrandbits(62)
            return number, {"low": number & 0xFFFFFFFF, "high": number >> 32}
        if body.name in ("dom_sid2", "dom_sid28"):
            subs = [self.random.getrandbits(32) for _ in range(self.random.randrange(1, 5))]
            text = "S-1-5-" + "-".join(map(str, subs))
            rest = [0] * (5 - len(subs)) if body.name == "dom_sid28" else []
            wanted = {"sid_rev_num": 1, "num_auths": len(subs), "id_auth": [0, 0, 0, 0, 0, 5], "sub_auths": subs + rest}
            return importlib.import_module("samba.dcerpc.security").dom_sid(text), wanted
        if Path(body.place.file).name == "pidl.idl":
            given = getattr(importlib.import_module("samba.dcerpc.misc"), body.name)()
        else:
            given = self.class_of(body)()
        wanted = {}
        for each, inside, plain in self.fields(body.fields, "member", lambda name: None, ()):
            set_in(given, each.declarator.name, inside)
            wanted[each.declarator.name] = plain
        return given, wanted

    def union(self, body: Body, each: Field, value: Callable[[str], int]) -> Tuple[Any, Any]:
        """The arm of a union that its tag selects."""
        switch = find(each.attributes, "switch_is")
        if switch is None:
            raise NotFilled("a union without switch_is")
        tag = self.count(switch.arguments[0], value) if switch.arguments else 0
        arms = [a for a in body.fields if any(label is not None and self.scope.value(label) % (1 << 32) == tag for label in a.labels)]
        arm = next(iter(arms or [a for a in body.fields if None in a.labels]), None)
        if arm is None:
            raise NotFilled(f"no arm for {tag}")
        if arm.type is None:
            return None, Tagged(tag, ANY)
        shape = self.scope.shape(arm.type, arm.attributes, arm.declarator, "unique", "arm")
        if isinstance(shape.base, Body) and not shape.base.fields and not shape.levels:
            return None, Tagged(tag, ANY)
        given, wanted = self.levels(list(shape.levels), shape.base, arm, value, False)
        return given, Tagged(tag, wanted)


def set_in(thing: Any, name: str, value: Any) -> None:
    """Gives an object of the bindings a value."""
    try:
        setattr(thing, name, value)
    except (TypeError, AttributeError, OverflowError, ValueError) as fault:
        raise NotFilled(f"{name}: {fault}") from None


# ----------------------------------------------------------------------------------------------------------------------
# The text of the values


WORD = re.compile(r'\s*(?:(x"[0-9a-f]*")|("(?:[^"\\]|\\.)*")|(@?-?\w+)|(.))')


def plain_of(text: str) -> Dict[str, Any]:
    """The roots of a text of values, with pointers followed; a pointer that leads back is cut."""
    roots: Dict[str, Any] = {}
    cells: Dict[str, Any] = {}
    for line in text.splitlines()[2:]:
        name, rest = line.split(" = ", 1)
        words = [m for m in (match.group().strip() for match in WORD.finditer(rest)) if m]
        (cells if name[0] == "@" else roots)[name] = value_of(words)
    return {name: followed(value, cells, 0) for name, value in roots.items()}


def value_of(words: List[str]) -> Any:
    """The value that words begin with; they are taken."""
    word = words.pop(0)
    if word == "{":
        found = {}
        while words[0] != "}":
            name = words.pop(0)
            words.pop(0)
            found[name] = value_of(words)
            if words[0] == ",":
                words.pop(0)
        words.pop(0)
        return found
    if word == "[":
        elements = []
        while words[0] != "]":
            elements.append(value_of(words))
            if words[0] == ",":
                words.pop(0)
        words.pop(0)
        return elements
    if word.startswith('x"'):
        return list(bytes.fromhex(word[2:-1]))
    if word.startswith('"'):
        return re.sub(r"\\x(..)|\\(.)", lambda m: chr(int(m[1], 16)) if m[1] else m[2], word[1:-1])
    if re.fullmatch(r"-?\d+", word):
        if words[:1] == [":"]:
            words.pop(0)
            return Tagged(int(word), value_of(words))
        return int(word)
    return {"null": None, "void": ANY}.get(word, word)


def followed(value: Any, cells: Dict[str, Any], depth: int) -> Any:
    """A value with what its pointers point to in their place."""
    if depth > 200:
        return "cut"
    if isinstance(value, str) and value.startswith("@") and value in cells:
        return followed(cells[value], cells, depth + 1)
    if isinstance(value, dict):
        return {k: followed(v, cells, depth + 1) for k, v in value.items()}
    if isinstance(value, list):
        return [followed(v, cells, depth + 1) for v in value]
    if isinstance(value, Tagged):
        return Tagged(value.tag, followed(value.value, cells, depth + 1))
    return value


def difference(wanted: Any, found: Any, path: str) -> Optional[str]:
    """The first place where values differ."""
    if ANY in (wanted, found):
        return None
    if isinstance(wanted, Tagged):
        if not isinstance(found, Tagged) or found.tag != wanted.tag:
            return f"{path}: tag {wanted.tag}, found {found!r}"
        return difference(wanted.value, found.value, path)
    while isinstance(found, Tagged):  # counts
        found = found.value
    if isinstance(wanted, dict) and isinstance(found, dict):
        for (name, value), (_, other) in zip(sorted_by(wanted, found), found.items()):
            inner = difference(value, other, f"{path}.{name}")
            if inner:
                return inner
        lost = [name for name in wanted if not name.startswith("__")]
        return None if len(lost) <= len(found) else f"{path}: members {list(wanted)}, found {list(found)}"
    if isinstance(wanted, list) and isinstance(found, list):
        if isinstance(wanted, Letters) and found == [*wanted, 0]:
            return None
        if len(wanted) != len(found):
            return f"{path}: {len(wanted)} elements, found {len(found)}"
        return next((d for i, (a, b) in enumerate(zip(wanted, found)) for d in [difference(a, b, f"{path}[{i}]")] if d), None)
    return None if wanted == found else f"{path}: {wanted!r}, found {found!r}"


def sorted_by(wanted: Dict[str, Any], found: Dict[str, Any]) -> List[Tuple[str, Any]]:
    """The members of a dictionary in the order of another one, whose names may be shortened."""
    rest = dict(wanted)
    ordered = []
    for name in found:
        key = name if name in rest else next((k for k in rest if k[:24] == name[:24] or k + "_" == name), "")
        ordered.append((name, rest.pop(key, f"nothing has the name {name}")))
    return ordered


# ----------------------------------------------------------------------------------------------------------------------
# The program


class Program:
    """The program, with one file in the language that it has."""

    def __init__(self, path: str, windows: bool, text: str) -> None:
        self.path, self.before = path, ["windows"] if windows else []
        self.folder = tempfile.TemporaryDirectory()
        (Path(self.folder.name) / "t.idl").write_text(text)

    def run(self, command: str, operation: str, side: str, order: str, given: bytes, *more: str) -> Tuple[int, bytes, str]:
        """Runs a command; answers its status, its output, and its line on standard error."""
        words = [self.path, *self.before, command, "t.idl", "-", operation, side, order, *more]
        ran = subprocess.run(words, cwd=self.folder.name, input=given, stdout=subprocess.PIPE, stderr=subprocess.PIPE)
        return ran.returncode, ran.stdout, ran.stderr.decode().strip()


def without_numbers(octets: bytes, lines: str) -> bytes:
    """Octets with ones in the place of the numbers of pointers that are not null."""
    found = bytearray(octets)
    for line in lines.splitlines():
        place, length, kind = line.split()[:3]
        if kind == "number" and any(found[int(place):int(place) + int(length)]):
            found[int(place):int(place) + int(length)] = b"\1" * int(length)
    return bytes(found)


# ----------------------------------------------------------------------------------------------------------------------
# One interface


@dataclass
class Sums:
    """What came of an interface."""

    operations: int = 0
    filled: int = 0  # sides
    streams: int = 0
    same: int = 0  # written back as they were
    refused: int = 0  # of what the report says is read in part
    faults: List[str] = field(default_factory=list)
    unfilled: Counter[str] = field(default_factory=collections.Counter)
    mutated: Counter[str] = field(default_factory=collections.Counter)


def call_of(module: Any, operation: Operation) -> Any:
    """An object of the bindings for a call."""
    stem = module.__name__.split(".")[-1]
    for name in (operation.name, re.sub(f"^{stem}_", "", operation.name)):
        if hasattr(module, name):
            return getattr(module, name)()
    raise NotFilled("the bindings have no such call")


def fill(scope: Scope, call: Any, operation: Operation, source: random.Random) -> Tuple[Dict[str, Any], Dict[str, Any]]:
    """Gives a call its values; answers those of the request and of the response."""
    wanted: Dict[str, Dict[str, Any]] = {"in": {}, "out": {}}
    for side in ("in", "out"):
        fields = [p for p in operation.parameters if find(p.attributes, side)]
        filler = Filler(scope, source)
        for each, given, plain in filler.fields(fields, "parameter", lambda name: wanted["in"].get(name) if side == "out" else 0, operation.parameters):
            set_in(call, f"{side}_{each.declarator.name}", given)
            wanted[side][each.declarator.name] = plain
    if not (type(operation.result).__name__ == "Simple" and operation.result.words == ("void",)):  # type: ignore[union-attr]
        result = source.getrandbits(31)
        base = scope.expand(operation.result).base
        if isinstance(base, Primitive) and base.text.endswith("small"):
            result &= 0xFF
        set_in(call, "result", result)
        wanted["out"]["return"] = result
    return wanted["in"], wanted["out"]


def packed(call: Any, side: str, big: bool) -> Optional[bytes]:
    """The octets that libndr writes, if it writes any."""
    ndr = importlib.import_module("samba.ndr")
    try:
        made: bytes = (ndr.ndr_pack_in if side == "in" else ndr.ndr_pack_out)(call, bigendian=big)
        return made
    except Exception:  # the bindings raise errors of their own
        return None


def refusal(call: Any, side: str, big: bool, octets: bytes) -> str:
    """Why libndr refuses octets; nothing if it reads them."""
    ndr = importlib.import_module("samba.ndr")
    try:
        (ndr.ndr_unpack_in if side == "in" else ndr.ndr_unpack_out)(call, octets, bigendian=big)
        return ""
    except Exception as fault:
        return re.sub(r"\d+", "N", str(fault))


def apart(work: Callable[[], Any]) -> Any:
    """What some work answers in a process of its own, since the bindings may crash."""
    reader, writer = os.pipe()
    child = os.fork()
    if child == 0:
        os.close(reader)
        try:
            made = ("made", work())
        except Exception as fault:  # nothing may leave this process but by its end
            made = ("not", f"{'' if isinstance(fault, (NotFilled, NotConstant, Nothing)) else type(fault).__name__ + ' '}{fault}")
        with os.fdopen(writer, "wb") as pipe:
            pickle.dump(made, pipe)
            pipe.flush()
        os._exit(0)
    os.close(writer)
    with os.fdopen(reader, "rb") as pipe:
        answer = pipe.read()
    os.waitpid(child, 0)
    if not answer:
        raise NotFilled("the bindings crash")
    kind, found = pickle.loads(answer)
    if kind == "not":
        raise NotFilled(found)
    return found


def filled_call(scope: Scope, module: Any, operation: Operation, seed: int) -> Tuple[Any, Tuple[Dict[str, Any], Dict[str, Any]]]:
    """A call with random values, and these values."""
    call = call_of(module, operation)
    return call, fill(scope, call, operation, random.Random(f"{operation.name} {seed}"))


def filled(scope: Scope, module: Any, operation: Operation, seed: int) -> Dict[str, Tuple[Optional[bytes], Dict[str, Any]]]:
    """For each side the octets of a call with random values, and the values."""
    call, wanted = filled_call(scope, module, operation, seed)
    big = bool(seed % 2)
    made = {side: (packed(call, side, big), values) for side, values in zip(("in", "out"), wanted)}
    for side, (octets, _) in made.items():  # values that are in no stream, as a length over its maximum
        if octets is not None and refusal(call, side, big, octets):
            made[side] = (None, {})
    return made


def check_side(program: Program, name: str, side: str, big: bool, octets: bytes, wanted: Dict[str, Any], partly: bool, sums: Sums) -> Optional[bytes]:
    """Reads the octets of a side and compares values; answers the octets if they are read."""
    order = "big" if big else "little"
    sums.streams += 1
    status, out, notes = program.run("decode", name, side, order, octets)
    where = f"{name} {side} {order} {octets.hex()}"
    if status:
        if partly:
            sums.refused += 1
        else:
            sums.faults.append(f"{where}: {notes}")
        return None
    found = difference(wanted, plain_of(out.decode()), name)
    if found:
        sums.faults.append(f"{where}: {found}")
        return None
    _, back, _ = program.run("encode", name, side, order, out, "65535")
    _, items, _ = program.run("explain", name, side, order, octets)
    if len(back) == len(octets) and without_numbers(back, items.decode()) == without_numbers(octets, items.decode()):
        sums.same += 1
    else:
        sums.faults.append(f"{where}: written back as {back.hex()}")
    return octets


def mutate(program: Program, fresh: Callable[[], Any], name: str, side: str, big: bool, octets: bytes, source: random.Random, sums: Sums) -> None:
    """Gives octets with a mistake to both."""
    changed = bytearray(octets)
    kind = source.choice(["octet", "octet", "cut", "longer"])
    if kind == "octet" and changed:
        changed[source.randrange(len(changed))] ^= 1 << source.randrange(8)
    elif kind == "cut" and changed:
        del changed[source.randrange(len(changed)):]
    else:
        changed += bytes(source.randrange(1, 9))
    ours, _, notes = program.run("decode", name, side, "big" if big else "little", bytes(changed))
    theirs = apart(lambda: refusal(fresh(), side, big, bytes(changed)))
    if ours == 0:
        sums.mutated["read by both" if not theirs else f"refused by libndr alone: {theirs}"] += 1
    else:
        reason = re.sub(r"refused: octets at \d+: (\w+).*", r"\1", notes)
        sums.mutated["refused by both" if theirs else f"{kind}: {reason}, read by libndr"] += 1


def check_interface(interface: Interface, scope: Scope, made: Any, module: Any, words: argparse.Namespace) -> Sums:
    """All operations of an interface."""
    sums = Sums()
    program = words.make(words.program, not words.c706, made.text)
    writer = Writer(scope, interface, not words.c706)
    for operation in interface.operations:
        marks = made.report.operations.get(operation.name)
        if marks is None or BARE in marks:
            continue
        sums.operations += 1
        name = writer.short(operation.name, operation.place)
        lost = [line.text for line in made.report.lines if line.kind == NO_EQUIVALENT and line.text.startswith(operation.name + ",")]
        done = set()
        for seed in range(words.seeds):
            source, big = random.Random(seed), bool(seed % 2)
            try:
                sides = apart(lambda: filled(scope, module, operation, seed))
            except NotFilled as fault:
                sums.unfilled[f"{operation.name}: {fault}"] += 1
                continue
            for side, (octets, wanted) in sides.items():
                if any({"in": "request", "out": "response"}[side] in line.split(":")[0] for line in lost):
                    continue
                if octets is None:
                    sums.unfilled[f"{operation.name} {side}: not packed"] += 1
                    continue
                done.add(side)
                good = check_side(program, name, side, big, octets, wanted, PARTLY in marks, sums)
                for _ in range(words.mutations if good is not None else 0):
                    mutate(program, lambda: filled_call(scope, module, operation, seed)[0], name, side, big, octets, source, sums)
        sums.filled += len(done)
    return sums


def module_of(path: Path) -> Any:
    """The bindings of a file, if there are any."""
    try:
        return importlib.import_module(f"samba.dcerpc.{path.stem}")
    except ImportError:
        return None


def main() -> int:
    """Runs the command."""
    words = argparse.ArgumentParser(description=__doc__)
    words.add_argument("--sources", type=Path, required=True)
    words.add_argument("--program", default=str(ROOT / "bin" / "dceidl"))
    words.add_argument("--seeds", type=int, default=6)
    words.add_argument("--mutations", type=int, default=1)
    words.add_argument("--c706", action="store_true")
    words.add_argument("names", nargs="*", metavar="INTERFACE")
    return check_all(words.parse_args())


def check_all(given: argparse.Namespace) -> int:
    """Checks all interfaces that are asked for."""
    try:
        importlib.import_module("samba.dcerpc")
    except ImportError:
        print("python3-samba is not installed: left out")
        return 0
    given.make = getattr(given, "make", Program)
    sources, faults, total = Sources([given.sources]), 0, Sums()
    print(f"{'interface':22} operations sides streams same in-part faults")
    for path in sorted(given.sources.glob("*.idl")):
        module = module_of(path)
        if module is None:
            continue
        file = sources.file(path)
        if given.names and not any(i.name in given.names for i in file.interfaces):
            continue
        for interface, made in translated(sources, file, not given.c706):
            if given.names and interface.name not in given.names:
                continue
            sums = check_interface(interface, sources.scope(file), made, module, given)
            if sums.streams:
                print(f"{interface.name:22} {sums.operations:10} {sums.filled:5} {sums.streams:7} {sums.same:4} {sums.refused:7} {len(sums.faults):6}", flush=True)
            for fault in sums.faults[:8]:
                print(f"  {fault[:600]}")
            if given.names:
                for line, count in sums.unfilled.most_common(40):
                    print(f"  not filled {count}: {line}")
            faults += len(sums.faults)
            for name in ("operations", "filled", "streams", "same", "refused"):
                setattr(total, name, getattr(total, name) + getattr(sums, name))
            total.mutated += sums.mutated
    print(f"{'all':22} {total.operations:10} {total.filled:5} {total.streams:7} {total.same:4} {total.refused:7} {faults:6}")
    if not given.names and total.filled < SIDES:
        print(f"too few sides are filled: {SIDES} were")
        faults += 1
    for line, count in sorted(total.mutated.items()):
        print(f"mutated: {count} {line}")
    return int(faults > 0)


if __name__ == "__main__":
    sys.exit(main())
