#!/usr/bin/env python3
"""Refuses the program memory, one growth at a time: each run must then end with status 5, and write nothing to standard output. Where only one growth
is refused, and it is one that the program can do without, the run may also end as one with memory does.

    tests/refuse_memory.py                    uses bin/dceidl, which is built first if it is out of date
    tests/refuse_memory.py --program PATH     runs another program
    tests/refuse_memory.py --most N           at most N growths of each command, spread over all of them (default: all)

The commands are an encoding and a decoding, the directory interface's compile, encode, decode, explain and trace, a drain, a response with its request, a
call, a wrap, comparisons, a session and the sample. In the run of number N the Nth call of `malloc` or `realloc` is refused; then all calls from the
Nth on are. The gate does not run this. It needs a C compiler, `cc`, for what refuses, and a program that is linked with the C library as a shared object.

The status is 1 if a run ends in another way, or if the sample has fewer than ten growths.
"""

from __future__ import annotations

import argparse
import os
import subprocess
import sys
import tempfile
from pathlib import Path
from typing import Iterable, List, Mapping, NamedTuple, Optional

sys.dont_write_bytecode = True
sys.path.append(str(Path(__file__).resolve().parent / "cases"))
sys.path.append(str(Path(__file__).resolve().parent))

from case import ROOT, interface, lines, octets  # noqa: E402
from explain import ACF, BASE, DIRECTORY, PUT, PUT_LINES  # noqa: E402
from fragments import pdu  # noqa: E402

LEAST_OF_SAMPLE = 10
WANTING = b"want of memory\n"

# Refuses calls by their numbers, from 1, and writes how many there were to a file.
REFUSER = r"""
#define _GNU_SOURCE
#include <dlfcn.h>
#include <stdio.h>
#include <stdlib.h>
static long first, last, calls;
static const char *note;
__attribute__((constructor)) static void begin(void) {
    const char *from = getenv("REFUSED_FROM"), *to = getenv("REFUSED_TO");
    note = getenv("REFUSED_NOTE");
    calls = 0;
    first = from ? atol(from) : 0;
    last = to ? atol(to) : 0;
}
__attribute__((destructor)) static void end(void) {
    long all = calls;
    first = last = 0;
    FILE *file = note ? fopen(note, "w") : NULL;
    if (file) { fprintf(file, "%ld", all); fclose(file); }
}
static int is_refused(void) { ++calls; return first != 0 && first <= calls && (last == 0 || calls <= last); }
void *malloc(size_t size) {
    static void *(*real)(size_t);
    if (!real) real = (void *(*)(size_t))dlsym(RTLD_NEXT, "malloc");
    return is_refused() ? NULL : real(size);
}
void *realloc(void *old, size_t size) {
    static void *(*real)(void *, size_t);
    if (!real) real = (void *(*)(void *, size_t))dlsym(RTLD_NEXT, "realloc");
    return is_refused() ? NULL : real(old, size);
}
"""


class Command(NamedTuple):
    """A command with its files and its input, what it writes, what its ends have, and how it ends."""

    name: str
    words: List[str]
    files: Mapping[str, bytes]
    input: bytes
    out: bytes
    ends: Mapping[str, bytes] = {}
    least: int = 1
    status: int = 0
    notes: bytes = b""


HEAD = interface(
    "typedef struct leaf { long v; } leaf; typedef struct x { [ptr] leaf *y; [ptr] leaf *z; } x; typedef struct pair { [ptr] x *a; [ptr] leaf *b; } pair;",
    "void h([in] pair *p);")
HEAD_OCTETS = octets("02000000 03000000 03000000 04000000 05000000 06000000")
HEAD_TEXT = lines("values 2", "op h in", "p = @1", "@1 = {a = @2, b = @3}", "@2 = {y = @3, z = @4}", "@3 = {v = 5}", "@4 = {v = 6}")
DIRECTORY_FILES = {"dir.idl": DIRECTORY, "base.idl": BASE, "dir.acf": ACF}
PUT_TEXT = lines("values 2", "op put in", "e = @1", "n = 2", 'data = x"abcd"',
                 '@1 = {kind = 4, detail = 4:void, name = "etc", parent = @2, next = @3}',
                 '@2 = {kind = 4, detail = 4:void, name = "/", parent = @2, next = null}',
                 '@3 = {kind = 0, detail = 0:1024, name = "a", parent = @2, next = null}')
LISTING = lines(
    "interface dir version 2.1 uuid 00112233-4455-6677-8899-aabbccddeeff", "type 12 enum 0 4 align 2", "type 13 union 12 align 4", "arm 0 size 8",
    "arm 4 - void", "type 14 struct align 4", "member kind 12", "member detail 13 switch_is kind", "member name 15", "member parent 16",
    "member next 17", "type 15 text 1 16 align 4", "type 16 ptr 14 align 4", "type 17 unique 14 align 4", "type 18 conftext 1 align 4 hoists",
    "type 19 ref 18 align 4", "type 20 ref 14 align 4", "type 21 conf 2 align 1 hoists", "op 0 list", "in path 19", "out first 20", "out return 8",
    "op 1 put", "in e 17", "in n 8", "in data 21 size_is n")
PDUS = pdu(PUT[:40], flags=1, number=1, hint=len(PUT)) + pdu(PUT[40:], flags=2, number=1, hint=len(PUT))
PIPES = {"t.idl": interface("typedef pipe long lp;", "void feed([in] lp d);")}
PIPE_OCTETS = octets("02000000 01000000 02000000 01000000 03000000 00000000")
ANSWERED = {"t.idl": interface("void r([in] unsigned long n, [out, size_is(n)] byte a[*]);"), "request.txt": lines("values 2", "op r in", "n = 2")}
DIFFERING = {"old.idl": interface("typedef struct s { [unique] struct s *n; } s;", "void f([in] s a);", "void g([in] s b);"),
             "new.idl": interface("typedef struct s { [unique] struct s *n; } s;", "typedef struct r { [unique] struct s *n; } r;", "void f([in] s a);",
                                  "void g([in] r b);")}
PLACE = ["op g parameter b", "old struct 1", "new struct 1", "earlier", "op f parameter a", "old struct 1", "new struct 1"]
SCRIPT = lines("open 1 00112233-4455-6677-8899-aabbccddeeff", "use 00112233-4455-6677-8899-aabbccddeeff hi", "down 1")
PUT_TRACED = PUT_LINES[:PUT_LINES.rindex(b"89 1 num")] + lines("89 fault Truncated data[1]")
PUT_FAULT = lines("refused: octets at 89: Truncated")
SAMPLED = lines("cells 2", "octets 28", "sum 178", "same yes")


def directory(verb: str, *more: str) -> List[str]:
    return [verb, "dir.idl", "dir.acf", "put", "in", "little", *more]


COMMANDS = [
    Command("encode", ["encode", "t.idl", "-", "h", "in", "little", "1"], {"t.idl": HEAD}, HEAD_TEXT, HEAD_OCTETS),
    Command("decode", ["decode", "t.idl", "-", "h", "in", "little"], {"t.idl": HEAD}, HEAD_OCTETS, HEAD_TEXT),
    Command("directory: compile", ["compile", "dir.idl", "dir.acf"], DIRECTORY_FILES, b"", LISTING),
    Command("directory: encode", directory("encode", "1"), DIRECTORY_FILES, PUT_TEXT, PUT),
    Command("directory: decode", directory("decode"), DIRECTORY_FILES, PUT, PUT_TEXT),
    Command("directory: explain", directory("explain"), DIRECTORY_FILES, PUT, PUT_LINES),
    Command("directory: trace", directory("trace"), DIRECTORY_FILES, PUT[:-1], PUT_TRACED, status=1, notes=PUT_FAULT),
    Command("drain", ["drain", "t.idl", "-", "feed", "in", "little"], PIPES, PIPE_OCTETS, lines("values 2", "op feed in", "d = []"),
            {"pipe0.out": lines("1", "2", "3")}),
    Command("response", ["decode", "t.idl", "-", "r", "out", "little", "given", "request.txt"], ANSWERED, octets("02000000 ABCD"),
            lines("values 2", "op r out", 'a = x"abcd"')),
    Command("call", ["call", "dir.idl", "dir.acf", "-"], DIRECTORY_FILES, PDUS, lines("call 7") + PUT_TEXT),
    Command("wrap", directory("wrap", "7", "1024"), DIRECTORY_FILES, PUT_TEXT, pdu(PUT, number=1)),
    Command("compat", ["compat", "dir.idl", "dir.acf", "dir.idl", "-"], DIRECTORY_FILES, b"", lines("compatible 2")),
    Command("compat why", ["compat", "old.idl", "-", "new.idl", "-", "why"], DIFFERING, b"", lines(*PLACE), status=1,
            notes=lines("refused: compat: Differs g")),
    Command("session", ["session"], {}, SCRIPT, lines("ok", "ok", "ended 1"), {"res0.out": lines("hi")}),
    Command("sample", ["sample", "1", "2"], {}, b"", SAMPLED, least=LEAST_OF_SAMPLE),
    Command("no words", [], {}, b"", SAMPLED, least=LEAST_OF_SAMPLE),
]


class Ran(NamedTuple):
    """What came of a run, and how many growths it had."""

    status: int
    out: bytes
    notes: bytes
    ends: Mapping[str, bytes]
    growths: int


def run(program: str, refuser: Path, command: Command, first: Optional[int] = None, last: Optional[int] = None) -> Ran:
    """A run in a fresh folder, in which the growths of these numbers are refused."""
    with tempfile.TemporaryDirectory() as name:
        folder, note = Path(name, "run"), Path(name, "note")
        folder.mkdir()
        for file, content in command.files.items():
            (folder / file).write_bytes(content)
        around = {**os.environ, "LD_PRELOAD": str(refuser), "REFUSED_NOTE": str(note), "REFUSED_FROM": str(first or 0), "REFUSED_TO": str(last or 0)}
        ran = subprocess.run([program, *command.words], input=command.input, capture_output=True, cwd=folder, env=around, check=False)
        ends = {end.name: end.read_bytes() for end in sorted([*folder.glob("pipe*.out"), *folder.glob("res*.out")])}
        return Ran(ran.returncode, ran.stdout, ran.stderr, ends, int(note.read_text()))


def faults(command: Command, ran: Ran, begun: bool) -> Iterable[str]:
    """What is wrong with a run that was refused memory. The ends may have a prefix of their lines. Notes have a line once the words and the ends are
    made, which `main` does."""
    if (ran.status, ran.out) != (5, b"") or ran.notes not in ([WANTING] if begun else [WANTING, b""]):
        yield f"status {ran.status}, out {ran.out[:60]!r}, notes {ran.notes[:60]!r}"
    for name, has in ran.ends.items():
        if not command.ends.get(name, b"").startswith(has):
            yield f"{name} has {has[:60]!r}"


def chosen(growths: int, most: Optional[int]) -> Iterable[int]:
    """The numbers of the growths that are refused."""
    step = 1 if most is None else max(1, -(-growths // most))
    return range(1, growths + 1, step)


def refuse(program: str, refuser: Path, command: Command, most: Optional[int]) -> bool:
    """Refuses the growths of a command in turn, and answers whether all runs ended as they should."""
    whole = run(program, refuser, command)
    right = (whole.status, whole.out, whole.notes, dict(whole.ends)) == (command.status, command.out, command.notes, dict(command.ends)) and whole.growths >= command.least
    if not right:
        print(f"FAILED: {command.name}: with memory it ends with status {whole.status}, {whole.growths} growths: {whole.notes[:100]!r}")
        return False
    begun, tried, spared = False, 0, 0
    for number in chosen(whole.growths, most):
        for last in (number, None):
            tried += 1
            ran = run(program, refuser, command, number, last)
            begun = begun or ran.notes == WANTING
            if last and (ran.status, ran.out, ran.notes, dict(ran.ends)) == (whole.status, whole.out, whole.notes, dict(whole.ends)):
                spared += 1
                continue
            for fault in faults(command, ran, begun):
                print(f"FAILED: {command.name}, growth {number}{'' if last else ' and all after it'}: {fault}")
                right = False
    print(f"{command.name}: {whole.growths} growths, {tried - spared} runs that end with status 5, {spared} that could do without the growth")
    return right


def made(folder: Path) -> Path:
    """What refuses, as a shared object."""
    source, refuser = folder / "refuser.c", folder / "refuser.so"
    source.write_text(REFUSER)
    subprocess.run(["cc", "-O1", "-shared", "-fPIC", "-o", str(refuser), str(source), "-ldl"], check=True)
    return refuser


def built(script: Path) -> str:
    """The program, which the script of this repository builds if it is out of date."""
    subprocess.run([script, "--version"], check=True, stdout=subprocess.DEVNULL)
    return str(ROOT / "crates" / "dceidl_program" / "out" / "dceidl_program")


def main() -> int:
    parser = argparse.ArgumentParser(description="Refuses the program memory, one growth at a time.")
    parser.add_argument("--program", type=Path)
    parser.add_argument("--most", type=int)
    asked = parser.parse_args()
    program = str(asked.program.resolve()) if asked.program else built(ROOT / "bin" / "dceidl")
    with tempfile.TemporaryDirectory() as name:
        refuser = made(Path(name))
        right = [refuse(program, refuser, command, asked.most) for command in COMMANDS]
    return int(not all(right))


if __name__ == "__main__":
    sys.exit(main())
