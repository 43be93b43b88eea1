"""The command `session`: a script over the resources res0.out to res7.out."""

from dataclasses import replace

from case import CLOSED, FOLDER, FULL, Case, Folder, OneAtATime, Sparse, commands, lines

ID = "00112233-4455-6677-8899-aabbccddeeff"
OTHER = "00112233-4455-6677-8899-aabbccddee00"
NIL = "00000000-0000-0000-0000-000000000000"


def session(name, script, *answers, files=None, ends=None, **more):
    """A script, and the line of each of its answers."""
    octets = script if not isinstance(script, (list, tuple)) else lines(*script)
    return Case(f"session: {name}", ["session"], files or {}, octets, lines(*answers) if "out" not in more else more.pop("out"), ends=ends or {}, **more)


def refused(name, script, line):
    """A script that is refused for a line."""
    return session(name, script, notes=lines(f"refused: script {line}"), status=1)


def ids(count):
    """So many identifiers."""
    return [f"00112233-4455-6677-8899-{at:012x}" for at in range(1, count + 1)]


CASES = [
    session("no line", b""),
    session("opened twice, used, ended with its client", [f"open 1 {ID}", f"open 1 {ID}", f"use {ID} hi", "down 1", f"close {ID}"],
            "ok", "twice", "ok", "ended 1", "unknown", ends={"res0.out": b"hi\n"}),
    session("one octet at a time", OneAtATime(lines(f"open 1 {ID}", f"use {ID} hi", f"close {ID}")), "ok", "ok", "ok", ends={"res0.out": b"hi\n"}),
    session("an identifier in either case is one", [f"open 1 {ID}", f"open 2 {ID.upper()}", f"use {ID.upper()} x"], "ok", "twice", "ok", ends={"res0.out": b"x\n"}),
    session("the nil identifier", [f"open 1 {NIL}"], "null"),
    session("a resource that is not used makes no file", [f"open 1 {ID}", f"close {ID}"], "ok", "ok"),
    session("an empty text, and spaces", [f"open 1 {ID}", f"use {ID} ", f"use {ID}   a  "], "ok", "ok", "ok", ends={"res0.out": b"\n  a  \n"}),
    session("a file is appended to", [f"open 1 {ID}", f"use {ID} b"], "ok", "ok", files={"res0.out": b"a\n"}, ends={"res0.out": b"a\nb\n"}),
    session("a folder in the place of a file", [f"open 1 {ID}", f"use {ID} x", f"open 1 {OTHER}", f"use {OTHER} y", f"close {ID}"], "ok", "failed", "ok", "ok", "ok",
            files={"res0.out": Folder()}, ends={"res1.out": b"y\n"}),
    session("the ninth open", [f"open 0 {one}" for one in ids(9)] + [f"open 0 {NIL}", f"open 0 {ids(1)[0]}"], *["ok"] * 8, *["none"] * 3),
    session("an identifier again, after its end", [f"open 1 {ID}", f"use {ID} x", f"close {ID}", f"open 1 {ID}", f"use {ID} y"], "ok", "ok", "ok", "ok", "ok",
            ends={"res0.out": b"x\n", "res1.out": b"y\n"}),
    session("a client of two, and one without", [f"open 1 {ID}", f"open 2 {NIL[:-1]}1", f"open 1 {OTHER}", "down 1", "down 1", "down 4294967295"],
            "ok", "ok", "ok", "ended 2", "ended 0", "ended 0"),
    session("what is open at the end is ended", [f"open 1 {ID}", f"use {ID} x"], "ok", "ok", ends={"res0.out": b"x\n"}),
    refused("a number with a leading zero", [f"open 01 {ID}"], 1),
    refused("a number that is too large", [f"open 1 {ID}", "down 4294967296"], 2),
    refused("no line feed at the end", b"down 1\ndown 2", 2),
    refused("an empty line", b"down 1\n\ndown 2\n", 2),
    refused("a use without the space after the identifier", [f"use {ID}"], 1),
    refused("a carriage return", b"down 1\r\n", 1),
    refused("two spaces", [f"close  {ID}"], 1),
    refused("a word in capitals", [f"Close {ID}"], 1),
    refused("an identifier of 35 octets", [f"close {ID[:-1]}"], 1),
    refused("a text with an octet past the printable ones", f"use {ID} ".encode() + b"\x7f\n", 1),
    session("one octet too many", Sparse(1_048_577), notes=lines("refused: script TooLong"), status=1),
    session("as many octets as there may be", Sparse(1_048_576), notes=lines("refused: script 1"), status=1),
    session("no line of a script that is refused is done", [f"open 1 {ID}", f"use {ID} x", "x"], notes=lines("refused: script 3"), status=1),
    session("a folder in the place of the input", FOLDER, notes=lines("read fault"), status=3),
    session("a full output", [f"open 1 {ID}", f"use {ID} x"], out=FULL, notes=lines("write fault"), status=4, ends={"res0.out": b"x\n"}),
    session("a full output without answers", b"", out=FULL),
    session("full notes", b"x", notes=FULL, status=4),
    session("closed notes", b"", notes=CLOSED),
    Case("session: with a word more", ["session", "x"], notes=lines("words refused"), status=2),
    *(replace(line, alone=True) for line in commands("docs/SESSION.md")),
]
