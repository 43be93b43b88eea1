#!/usr/bin/env python3
"""Measures the speed and the memory of the real program, as ratios that mean the same on every machine.

    bench/program.py [--program PATH] [--megabytes N] [--runs N]

`--program` measures another program than bin/dceidl, which is built first where it has to be. `--megabytes` is the size of
the large text, 1 to 256 (100 if not said), and `--runs` how often a small run is repeated (400 if not said; runs over large
files a fortieth as often).

The status is 1 where the time or the memory grows more than it may, or where a run comes to something else than it should; else
it is 0. bench/README.md says what each line means.
"""

from __future__ import annotations

import argparse
import os
import random
import shutil
import struct
import subprocess
import sys
import tempfile
from dataclasses import dataclass
from pathlib import Path
from typing import List, Optional, Sequence

ROOT = Path(__file__).resolve().parent.parent
MEGABYTE = 1_000_000
PARAMETERS = 256
FILE_LIMIT = 1_048_576
MOST_FILES = 64
TYPE_LIMIT = 4_096
BASIC_TYPES = 12
OPERATION_LIMIT = 1_024
MOST_TIMES = 16.0  # the time that ten times the input may take
MOST_TIMES_OF_FOUR = 6.0  # the time that four times an interface file may take
MOST_TIMES_OF_A_PLAN = 4.6  # the time that the plan of four times as many types may take
MOST_SECONDS_OF_A_PLAN = 1.0  # the time that the plan of the most types may take, with its listing
MOST_SECONDS_OF_A_COMPARISON = 0.01  # the time that the comparison of two interfaces of the most types may take
MOST_OCTETS = 100  # the memory for each octet of an interface file
PLANNED_MEMBERS = 60_000
NOISE = 0.001  # seconds; a difference below them cannot be told from none
TIME = shutil.which("time")  # the program `time`, which reports the peak memory of what it runs


@dataclass(frozen=True)
class Run:
    """A command with its input, the status that it should end with, and what it should write, where that is known."""

    what: str
    command: Sequence[str]
    given: Path
    status: int = 0
    out: Optional[bytes] = None


@dataclass(frozen=True)
class Measured:
    """The least processor time of some runs in seconds, and the peak memory of one in octets, where it is known."""

    what: str
    seconds: float
    peak: Optional[int]
    size: int


class Bench:
    """The program, a folder of files to run it on, and what has failed."""

    def __init__(self, program: Path, folder: Path, runs: int) -> None:
        self.program = str(program)
        self.folder = folder
        self.runs = runs
        self.failures: List[str] = []

    def fail(self, why: str) -> None:
        print(f"FAILED: {why}")
        self.failures.append(why)

    def write(self, name: str, octets: bytes) -> Path:
        path = self.folder / name
        path.write_bytes(octets)
        return path

    def seconds(self, run: Run) -> float:
        """The processor time of one run, in the program and in the system. Other work on the machine is not in it."""
        with open(run.given, "rb") as stdin, open(self.folder / "out", "wb") as stdout:
            child = subprocess.Popen(run.command, stdin=stdin, stdout=stdout, stderr=subprocess.DEVNULL)
            _, status, usage = os.wait4(child.pid, 0)
        child.returncode = os.waitstatus_to_exitcode(status)
        if child.returncode != run.status:
            self.fail(f"{run.what}: status {child.returncode}, and not {run.status}")
        return usage.ru_utime + usage.ru_stime

    def peak(self, run: Run) -> Optional[int]:
        """The peak memory of a run of its own. (What Python itself learns of a child is never less than its own memory.)"""
        if TIME is None:
            return None
        kilobytes = self.folder / "peak"
        self.seconds(Run(run.what, [TIME, "-f", "%M", "-o", str(kilobytes), *run.command], run.given, run.status))
        return int(kilobytes.read_text().split()[-1]) * 1024

    def measure(self, runs: Sequence[Run], times: int) -> List[Measured]:
        """Measures runs in turns, so that what disturbs one disturbs the others too, and looks at what each writes."""
        peaks = [self.peak(run) for run in runs]
        for run in runs:
            self.seconds(run)
            if run.out is not None and (self.folder / "out").read_bytes() != run.out:
                self.fail(f"{run.what}: another output than it should be")
        seconds = [min(turns) for turns in zip(*([self.seconds(run) for run in runs] for _ in range(times)))]
        return [Measured(run.what, *rest, run.given.stat().st_size) for run, *rest in zip(runs, seconds, peaks)]

    def small(self, runs: Sequence[Run]) -> List[Measured]:
        return self.measure(runs, self.runs)

    def large(self, runs: Sequence[Run]) -> List[Measured]:
        return self.measure(runs, max(3, self.runs // 40))

    def decode(self, idl: Path, operation: str, order: str) -> List[str]:
        return [self.program, "decode", str(idl), "-", operation, "in", order]

    def encode(self, idl: Path, operation: str, order: str) -> List[str]:
        return [self.program, "encode", str(idl), "-", operation, "in", order, "1"]

    def compile(self, idl: Path) -> List[str]:
        return [self.program, "compile", str(idl), "-"]


# ----------------------------------------------------------------------------------------------------------------------
# What the program is run on


def names(count: int) -> List[str]:
    return [f"p{number}" for number in range(count)]


def operation(name: str, params: Sequence[str]) -> str:
    return f"  void {name}({', '.join(f'[in] hyper {param}' for param in params)});\n"


def interface(operations: Sequence[str]) -> bytes:
    head = "[uuid(11111111-2222-3333-4444-555555555555)]\ninterface t {\n"
    return (head + "".join(operations) + "}\n").encode()


def large_interface(size: int) -> bytes:
    """An interface of operations with as many parameters as they may have, of about this many octets, and one without."""
    operations = [operation("none", [])]
    length = 0
    while length < size - 10_000:
        operations.append(operation(f"f{len(operations)}", names(PARAMETERS)))
        length += len(operations[-1])
    return interface(operations)


@dataclass(frozen=True)
class Language:
    """How the parts of a large file are written in a language."""

    types: Sequence[str]
    constant: str  # of a name and an expression
    struct: str  # of a name and members
    union: str  # of a name and arms
    arm: str  # of a number, a type and a name
    parameter: str  # of a type and a name


IDL = Language(
    types=["small", "unsigned short", "long", "unsigned hyper", "char", "boolean", "byte"],
    constant="const hyper {} = {};\n",
    struct="typedef struct {0} {{\n{1}[ptr] struct {0} *next;\n}} {0}_t;\n",
    union="typedef union switch (long tag) {{\n{1}default: ;\n}} {0};\n",
    arm="case {}: {} {};\n",
    parameter="[in] {} {}",
)
C = Language(
    types=["signed char", "unsigned short", "int", "unsigned long long", "char", "_Bool", "unsigned char"],
    constant="enum {{ {} = {} }};\n",
    struct="typedef struct {0} {{\n{1}struct {0} *next;\n}} {0}_t;\n",
    union="typedef struct {{ int tag; union {{\n{1}}} of; }} {0};\n",
    arm="/* {} */ {} {};\n",
    parameter="{} {}",
)


def deep_expression(number: int) -> str:
    """62 operators in 60 brackets."""
    text = str(number)
    for level in range(60):
        text = f"({text} {'+-|^'[level % 4]} {level})"
    return f"{text} ? {number} : -{number}"


def part(language: Language, number: int) -> str:
    """Constants, an enumeration, a struct, a union and an operation, all of them large."""
    fields = [(language.types[place % len(language.types)], place) for place in range(PARAMETERS)]
    constants = [language.constant.format(f"C{number}_{place}", deep_expression(place)) for place in range(8)]
    enumerators = [f"E{number}_{place} = {place} * 2 + 1" for place in range(64)]
    members = [f"{type} member_{place};\n" for type, place in fields]
    arms = [language.arm.format(place, type, f"arm_{place}") for type, place in fields[:64]]
    parameters = [language.parameter.format(type, f"parameter_{place}") for type, place in fields]
    return "".join(
        [
            *constants,
            f"typedef enum {{ {', '.join(enumerators)} }} E{number};\n",
            language.struct.format(f"S{number}", "".join(members)),
            language.union.format(f"U{number}", "".join(arms)),
            f"{language.types[2]} f{number}({', '.join(parameters)});\n",
        ]
    )


def large_file(language: Language, size: int, head: str = "", end: str = "") -> bytes:
    """As many parts as there is room for, and blanks at the end."""
    parts = [head]
    room = size - len(head) - len(end)
    while len(next_part := part(language, len(parts))) <= room:
        parts.append(next_part)
        room -= len(next_part)
    return "".join([*parts, end]).ljust(size).encode()


def large_idl(size: int) -> bytes:
    return large_file(IDL, size, "[uuid(11111111-2222-3333-4444-555555555555), version(1.0)]\ninterface t {\n", "}\n")


def small_part(number: int) -> str:
    """A constant, a struct that points back, and an array of what an earlier one holds."""
    earlier = max(0, number - 7)
    return (
        f"const long N{number} = {number} * 3 + 1;\n"
        f"typedef struct s{number} {{ long count; [ptr] struct s{number} *next; small bytes[N{number} % 9 + 1];"
        f" hyper far; [ptr] struct s{earlier} *back; boolean last; unsigned short flags; }} t{number};\n"
        f"const hyper M{number} = (N{number} << 4 | N{earlier}) + {number};\n"
        + "".join(f"const long K{number}_{place} = M{number} % {place + 2};\n" for place in range(12))
    )


def many_types(size: int) -> bytes:
    """An interface of this many octets, of thousands of types and constants in one MiB."""
    text = "[uuid(11111111-2222-3333-4444-555555555555), version(1.0)]\ninterface t {\n"
    number = 0
    while len(text) + len(part := small_part(number)) + 2 <= size:
        text += part
        number += 1
    return (text + "}\n").ljust(size).encode()


def imported_files(bench: Bench, files: int, size: int) -> Path:
    """A main file of this many octets that imports so many files less one, each of as many octets, whose structs point to those of the files before. They
    are in a folder of their own; the main file is given."""
    number = 0
    paths: List[Path] = []
    for place in range(files):
        names = ", ".join(f'"{path}"' for path in paths)
        name, imports = ("t", f"  import {names};\n") if place == files - 1 else (f"t{place}", "")
        text = f"[uuid(11111111-2222-3333-4444-{place:012}), version(1.0)]\ninterface {name} {{\n{imports}"
        while len(text) + len(part := small_part(number)) + 2 <= size:
            text += part
            number += 1
        paths.append(bench.write(f"imported.{files}.{place}.idl", (text + "}\n").ljust(size).encode()))
    return paths[-1]


def listed_interface(types: int, operations: int) -> bytes:
    """An interface with so many types, the twelve basic ones included: pairs of a struct and a pointer; and so many operations."""
    pairs = (types - BASIC_TYPES) // 2
    lines = ["[uuid(11111111-2222-3333-4444-555555555555), version(1.0)]", "interface t {"]
    for number in range(pairs):
        lines.append(
            f"typedef struct s{number} {{ long count; hyper far; [unique] struct s{number} *next; boolean last; struct leaf{number % 2} leaf; }} t{number};"
            if number > 1
            else f"struct leaf{number} {{ short a; [ptr] struct leaf{number} *of; }};"
        )
    lines += [f"long f{number}([in] long a, [in] t{number % (pairs - 2) + 2} b, [in] hyper c, [in] t2 d);" for number in range(operations)]
    return "".join(f"{line}\n" for line in [*lines, "}"]).encode()


def planned_interface(types: int, members: int) -> bytes:
    """An interface with so many types, the basic ones among them: structs with so many members in all,
    of which every fourth ends with an array whose size a member has, that array, and pointers. Operations take the first structs."""
    lines = ["[uuid(11111111-2222-3333-4444-555555555555), version(1.0)] interface t {"]
    own = types - BASIC_TYPES
    structs = own * 9 // 10
    each, more = divmod(members, structs)
    for number in range(structs):
        count = each + (number < more)
        names = ", ".join(f"m{member}" for member in range(count - 2))
        last = "[size_is(n)] long a[*]" if number % 4 == 0 else "hyper a"
        lines.append(f"typedef struct {{ long n; short {names}; {last}; }} s{number};")
    lines += [f"void f{number}([in] s{number} *a);" for number in range(own - structs - 1)]
    return "".join(f"{line}\n" for line in [*lines, "}"]).encode()


def compared_interface(types: int, members: int) -> bytes:
    """An interface with so many types, the basic ones among them: structs with so many members in all, each of which an operation takes."""
    lines = ["[uuid(11111111-2222-3333-4444-555555555555), version(1.0)] interface t {"]
    structs = types - BASIC_TYPES
    each, more = divmod(members, structs)
    for number in range(structs):
        names = ", ".join(f"m{member}" for member in range(each + (number < more) - 2))
        lines.append(f"typedef struct {{ long n; short {names}; hyper a; }} s{number};")
    for first in range(0, structs, 4):
        taken = ", ".join(f"[in] s{number} p{number}" for number in range(first, min(first + 4, structs)))
        lines.append(f"void f{first}({taken});")
    return "".join(f"{line}\n" for line in [*lines, "}"]).encode()


def numbers(seed: int) -> List[int]:
    chance = random.Random(seed)
    return [chance.randrange(-(2**63), 2**63) for _ in range(PARAMETERS)]


def octets_of(values: Sequence[int], order: str) -> bytes:
    return struct.pack(f"{'<' if order == 'little' else '>'}{len(values)}q", *values)


def text_of(values: Sequence[int]) -> bytes:
    lines = ["values 2", "op many in"] + [f"{name} = {value}" for name, value in zip(names(len(values)), values)]
    return "".join(f"{line}\n" for line in lines).encode()


def large_text_of(values: Sequence[int], size: int) -> bytes:
    """The same text with so many blanks after each token that it has about this many octets."""
    tokens = text_of(values).split()
    room = max(1, (size - sum(len(token) for token in tokens)) // len(tokens))
    chance = random.Random(size)
    blanks = bytes(chance.choice(b"    \t\r\n") for _ in range(4_096))
    return b"".join(token + (blanks * (room // len(blanks) + 1))[:room] for token in tokens)


# ----------------------------------------------------------------------------------------------------------------------
# What is reported


def tell(measured: Measured, base: Optional[Measured] = None, speed: bool = False) -> float:
    """A line on a run: its time, what it takes beyond another run, its speed, its peak memory. Gives the time beyond."""
    net = measured.seconds - (base.seconds if base is not None else 0)
    line = f"{measured.what:<44}{measured.seconds * 1000:9.3f} ms"
    line += f"  net {net * 1000:9.3f} ms" if base is not None else " " * 18
    line += f"  {measured.size / MEGABYTE / measured.seconds:8.1f} MB/s" if speed else " " * 15
    line += f"  peak {measured.peak / MEGABYTE:6.1f} MB" if measured.peak is not None else ""
    print(line.rstrip())
    return net


def tell_ratio(what: str, over: float, under: float) -> None:
    """A line on a ratio, with its inverse."""
    if min(over, under) <= 0:
        print(f"    {what:<40}   lost in the noise")
    else:
        print(f"    {what:<40}{over / under:9.2f}  (1 : {under / over:.2f})")


def check_growth(bench: Bench, what: str, small: float, large: float, times: str = "ten times", most: float = MOST_TIMES) -> None:
    """So many times the input may take so many times the time, start-up apart."""
    told = f"{times} the input (at most {most:g})"
    if small < NOISE:
        print(f"    {told:<40}   not measured: the small one takes less than {NOISE * 1000:.0f} ms")
        return
    tell_ratio(told, large, small)
    if large > most * small:
        bench.fail(f"{what}: {times} the input takes {large / small:.1f} times the time")


def check_memory(bench: Bench, measured: Measured) -> None:
    """The peak memory of a run for each octet of its file."""
    if measured.peak is None:
        return
    octets = measured.peak / measured.size
    told = f"memory for an octet (at most {MOST_OCTETS})"
    print(f"    {told:<40}{octets:9.1f} octets")
    if octets > MOST_OCTETS:
        bench.fail(f"{measured.what}: {octets:.0f} octets of memory for each octet of the file")


# ----------------------------------------------------------------------------------------------------------------------
# What is measured


def measure_calls(bench: Bench, idl: Path, nothing: Path, encodes: bool) -> Measured:
    """An operation of 256 hypers, beyond the start-up and the reading of the interface file. Gives the start-up."""
    values = numbers(1)
    text = bench.write("values", text_of(values))
    runs = [
        Run("start-up (--version)", [bench.program, "--version"], nothing),
        Run("decode, no parameters, same file", bench.decode(idl, "none", "little"), nothing, 0, b"values 2\nop none in\n"),
    ]
    for order in ("little", "big"):
        octets = bench.write(f"octets.{order}", octets_of(values, order))
        what = f"{PARAMETERS} hypers, {order}"
        runs.append(Run(f"decode, {what}", bench.decode(idl, "many", order), octets, 0, text.read_bytes()))
        if encodes:
            runs.append(Run(f"encode, {what}", bench.encode(idl, "many", order), text, 0, octets.read_bytes()))
    start, base, *calls = bench.small(runs)
    tell(start)
    tell(base, start)
    nets = [tell(call, base) for call in calls]
    if encodes:
        tell_ratio("encode next to decode, net, little", nets[1], nets[0])
        tell_ratio("encode next to decode, net, big", nets[3], nets[2])
    return start


def measure_text(bench: Bench, idl: Path, start: Measured, size: int) -> None:
    """A large text, of blanks for the most part, next to two programs that only read it."""
    values = numbers(2)
    small = bench.write("small", large_text_of(values, size // 10))
    large = bench.write("large", large_text_of(values, size))
    command = bench.encode(idl, "many", "little")
    octets = octets_of(values, "little")
    of_small, of_large, *others = bench.large(
        [
            Run("encode, a tenth of the large text", command, small, 0, octets),
            Run("encode, the large text", command, large, 0, octets),
            Run("wc -w, the large text", ["wc", "-w"], large),
            Run("cat, the large text", ["cat"], large),
        ]
    )
    nets = [tell(of_small, start, True), tell(of_large, start, True)]
    check_growth(bench, "encode", *nets)
    for other in others:
        tell(other, None, True)
        tell_ratio(f"encode next to {other.what.split(',')[0]}", of_large.seconds, other.seconds)


def measure_files(bench: Bench, nothing: Path, start: Measured) -> None:
    """Large interface files, and an operation that takes nothing."""
    small = bench.write("small.idl", large_interface(FILE_LIMIT // 10))
    large = bench.write("large.idl", large_interface(FILE_LIMIT))
    out = b"values 2\nop none in\n"
    of_small, of_large = bench.large(
        [
            Run("decode, a tenth of the largest file", bench.decode(small, "none", "little"), nothing, 0, out),
            Run("decode, the largest interface file", bench.decode(large, "none", "little"), nothing, 0, out),
        ]
    )
    nets = [tell(of_small, start), tell(of_large, start)]
    check_growth(bench, "an interface file", *nets)


def check_listing(bench: Bench, idl: Path, types: Optional[int] = None, operations: Optional[int] = None) -> None:
    """A file has to be listed, with so many types and operations where these are known."""
    ran = subprocess.run(bench.compile(idl), stdin=subprocess.DEVNULL, capture_output=True, check=False)
    lines = ran.stdout.split(b"\n")
    own = sum(line.startswith(b"type ") for line in lines)
    if ran.returncode != 0 or not lines[0].startswith(b"interface t version 1.0 uuid "):
        bench.fail(f"{idl.name}: it is refused: {ran.stderr.decode().strip()}")
    elif types is not None and own + BASIC_TYPES != types:
        bench.fail(f"{idl.name}: it is listed with {own + BASIC_TYPES} types, not {types}")
    elif operations is not None and sum(line.startswith(b"op ") for line in lines) != operations:
        bench.fail(f"{idl.name}: it is not listed with {operations} operations")


def measure_language(bench: Bench, start: Measured) -> None:
    """Files of the whole language, which are compiled to their listing, next to a compiler of C on as much C."""
    files = [bench.write(f"whole.{size}.idl", large_idl(size)) for size in (FILE_LIMIT // 4, FILE_LIMIT)]
    for file in files:
        check_listing(bench, file)
    runs = [
        Run("compile, a quarter of the whole language", bench.compile(files[0]), files[0]),
        Run("compile, the whole language", bench.compile(files[1]), files[1]),
    ]
    compiler = shutil.which("cc")
    if compiler is not None:
        declarations = bench.write("whole.c", large_file(C, FILE_LIMIT))
        runs.append(Run("cc -fsyntax-only, as much C", [compiler, "-fsyntax-only", str(declarations)], declarations))
    of_small, of_large, *others = bench.large(runs)
    nets = [tell(of_small, start, True), tell(of_large, start, True)]
    check_growth(bench, "a file of the whole language", *nets, times="four times", most=MOST_TIMES_OF_FOUR)
    check_memory(bench, of_large)
    for other in others:
        tell(other, None, True)
        tell_ratio("compile next to cc", of_large.seconds, other.seconds)


def measure_types(bench: Bench, start: Measured) -> None:
    """Files of many types and constants, which are compiled to their listing."""
    files = [bench.write(f"types.{size}.idl", many_types(size)) for size in (FILE_LIMIT // 4, FILE_LIMIT)]
    for file in files:
        check_listing(bench, file)
    of_small, of_large = bench.large(
        [
            Run("compile, a quarter of many types and constants", bench.compile(files[0]), files[0]),
            Run("compile, many types and constants", bench.compile(files[1]), files[1]),
        ]
    )
    nets = [tell(of_small, start, True), tell(of_large, start, True)]
    check_growth(bench, "a file of many types and constants", *nets, times="four times", most=MOST_TIMES_OF_FOUR)
    check_memory(bench, of_large)


def measure_imports(bench: Bench, start: Measured) -> None:
    """As many files as an interface may consist of, and a quarter of them."""
    runs = []
    for files in (MOST_FILES // 4, MOST_FILES):
        file = imported_files(bench, files, FILE_LIMIT // MOST_FILES)
        check_listing(bench, file)
        runs.append(Run(f"compile, {files} files of {FILE_LIMIT // MOST_FILES:,} octets", bench.compile(file), file))
    of_few, of_all = bench.large(runs)
    nets = [tell(of_few, start), tell(of_all, start)]
    check_growth(bench, "the files of an interface", *nets, times="four times", most=MOST_TIMES_OF_FOUR)


def measure_listing(bench: Bench, nothing: Path, start: Measured) -> None:
    """The listing of as many types and operations as there may be, beyond the same file without its listing, and of a quarter."""
    runs = []
    for part in (4, 1):
        types, operations = TYPE_LIMIT // part, OPERATION_LIMIT // part
        file = bench.write(f"listed.{types}.idl", listed_interface(types, operations))
        check_listing(bench, file, types, operations)
        told = f"{types:,} types and {operations:,} operations"
        runs.append(Run(f"no listing, {told}", bench.decode(file, "none", "little"), nothing, 6, b""))
        runs.append(Run(f"compile, {told}", bench.compile(file), nothing))
    small_base, small, large_base, large = bench.measure(runs, max(3, bench.runs // 10))
    tell(small_base, start)
    of_small = tell(small, small_base)
    tell(large_base, start)
    of_large = tell(large, large_base)
    check_growth(bench, "the listing", of_small, of_large, times="four times", most=MOST_TIMES_OF_FOUR)
    nets = [measured.seconds - start.seconds for measured in (small, large)]
    check_growth(bench, "the compilation of many types and operations", *nets, times="four times", most=MOST_TIMES_OF_FOUR)


def measure_plan(bench: Bench, nothing: Path, start: Measured) -> None:
    """The plan of as many types as there may be, and its listing, beyond the same file without it, and that of a quarter of them."""
    runs = []
    for part in (4, 1):
        types, members = TYPE_LIMIT // part, PLANNED_MEMBERS // part
        file = bench.write(f"planned.{types}.idl", planned_interface(types, members))
        check_listing(bench, file, types)
        told = f"{types:,} types, {members:,} members"
        runs.append(Run(f"no plan, {told}", bench.decode(file, "none", "little"), nothing, 6, b""))
        runs.append(Run(f"plan, {told}", [bench.program, "plan", str(file), "-"], nothing))
    small_base, small, large_base, large = bench.measure(runs, max(3, bench.runs // 10))
    tell(small_base, start)
    of_small = tell(small, small_base)
    tell(large_base, start)
    of_large = tell(large, large_base)
    check_growth(bench, "the plan", of_small, of_large, times="four times", most=MOST_TIMES_OF_A_PLAN)
    if of_large > MOST_SECONDS_OF_A_PLAN:
        bench.fail(f"the plan of the most types takes {of_large:.2f} seconds")


def measure_comparison(bench: Bench, nothing: Path, start: Measured) -> None:
    """The comparison of as many types as there may be with themselves, beyond that of two files whose UUIDs differ, and that of a quarter of them."""
    runs = []
    for part in (4, 1):
        types, members = TYPE_LIMIT // part, PLANNED_MEMBERS // part
        text = compared_interface(types, members)
        file = bench.write(f"compared.{types}.idl", text)
        other = bench.write(f"other.{types}.idl", text.replace(b"(11111111-", b"(11111112-", 1))
        check_listing(bench, file, types)
        told = f"{types:,} types, {members:,} members"
        operations = (types - BASIC_TYPES + 3) // 4
        runs.append(Run(f"two UUIDs, {told}", [bench.program, "compat", str(file), "-", str(other), "-"], nothing, 1, b""))
        runs.append(Run(f"compat, {told}", [bench.program, "compat", str(file), "-", str(file), "-"], nothing, 0, b"compatible %d\n" % operations))
    small_base, small, large_base, large = bench.measure(runs, max(3, bench.runs // 10))
    tell(small_base, start)
    of_small = tell(small, small_base)
    tell(large_base, start)
    of_large = tell(large, large_base)
    check_growth(bench, "the comparison", of_small, of_large, times="four times", most=MOST_TIMES_OF_FOUR)
    if of_large > MOST_SECONDS_OF_A_COMPARISON:
        bench.fail(f"the comparison of the most types takes {of_large * 1000:.1f} ms")


def has_plan(bench: Bench, idl: Path, nothing: Path) -> bool:
    """Whether the program has the command: where it has not, it ends with status 2 before all else."""
    with open(nothing, "rb") as stdin:
        return subprocess.run([bench.program, "plan", str(idl), "-"], stdin=stdin, capture_output=True, check=False).returncode != 2


def has_encode(bench: Bench, idl: Path, nothing: Path) -> bool:
    """Whether the program has the command: where it has not, it ends with status 2 before all else."""
    with open(nothing, "rb") as stdin:
        command = bench.encode(idl, "many", "little")
        return subprocess.run(command, stdin=stdin, capture_output=True, check=False).returncode != 2


def measure(bench: Bench, size: int) -> None:
    nothing = bench.write("nothing", b"")
    idl = bench.write("hypers.idl", interface([operation("many", names(PARAMETERS)), operation("none", [])]))
    encodes = has_encode(bench, idl, nothing)
    if not encodes:
        print("The program has no command `encode`: it and large texts are not measured.")
    start = measure_calls(bench, idl, nothing, encodes)
    if encodes:
        measure_text(bench, idl, start, size)
    measure_files(bench, nothing, start)
    measure_language(bench, start)
    measure_types(bench, start)
    measure_imports(bench, start)
    measure_listing(bench, nothing, start)
    if has_plan(bench, idl, nothing):
        measure_plan(bench, nothing, start)
        measure_comparison(bench, nothing, start)
    else:
        print("The program has no command `plan`: it is not measured.")


def built() -> Path:
    """The program itself: the script that builds it is no part of what is measured."""
    subprocess.run([ROOT / "bin" / "dceidl", "--version"], check=True, stdout=subprocess.DEVNULL)
    return ROOT / "crates" / "dceidl_program" / "out" / "dceidl_program"


def main() -> int:
    parser = argparse.ArgumentParser(description="Measures the speed and the memory of the program.")
    parser.add_argument("--program", type=Path)
    parser.add_argument("--megabytes", type=int, default=100)
    parser.add_argument("--runs", type=int, default=400)
    words = parser.parse_args()
    if not 1 <= words.megabytes <= 256 or words.runs < 1:
        parser.error("1 to 256 megabytes, and at least one run")
    with tempfile.TemporaryDirectory() as folder:
        bench = Bench(words.program.resolve() if words.program else built(), Path(folder), words.runs)
        measure(bench, words.megabytes * MEGABYTE)
    return 1 if bench.failures else 0


if __name__ == "__main__":
    sys.exit(main())
