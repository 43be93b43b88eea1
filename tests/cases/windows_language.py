"""The windows language: the word before a command, and counts that nothing states. (`windows.py` is of `examples/real/windows.sed`.)"""

from case import Case, interface, lines, octets
from idl import marked, readable

WORDS = ("compile", "plan", "decode", "explain", "trace", "drain", "encode", "migrate", "call", "wrap", "compat")
HEADER = "interface t version 0.0 uuid 11111111-2222-3333-4444-555555555555"

# ----------------------------------------------------------------------------------------------------------------------
# The word

ECHO = interface("long f([in] long x);")
ECHO_OCTETS = octets("05000000")
ECHO_TEXT = lines("values 2", "op f in", "x = 5")
REQUEST = octets("05 00 00 03 10000000 1c00 0000 07000000 04000000 0000 0000 05000000")


def refused(name, *words):
    """Words that are no command, though the file and the input are there."""
    return Case(f"windows: {name}", words, {"t.idl": ECHO}, ECHO_OCTETS, notes=lines("words refused"), status=2)


def both(name, words, files, given, out):
    """A command that writes the same with the word `windows` before it as without, since no file has a word of that language."""
    return [Case(f"windows: {name}{more}", [*before, *words], files, given, out)
            for before, more in (([], ", without the word"), (["windows"], ""))]


NO_COMMANDS = [
    refused("alone", "windows"),
    refused("before itself", "windows", "windows", "compile", "t.idl", "-"),
    refused("before session", "windows", "session"),
    refused("before sample", "windows", "sample", "1", "2"),
    refused("before why", "windows", "why"),
    refused("before help", "windows", "help"),
    refused("before --version", "windows", "--version"),
    refused("after the command", "decode", "windows", "t.idl", "-", "f", "in", "little"),
    refused("at the end", "compile", "t.idl", "-", "windows"),
    refused("in capitals", "WINDOWS", "compile", "t.idl", "-"),
    *[refused(f"before {word} alone", "windows", word) for word in WORDS],
]

SAME = [
    *both("compile", ["compile", "t.idl", "-"], {"t.idl": ECHO}, b"", lines(HEADER, "op 0 f", "in x 7", "out return 7")),
    *both("decode", ["decode", "t.idl", "-", "f", "in", "little"], {"t.idl": ECHO}, ECHO_OCTETS, ECHO_TEXT),
    *both("explain", ["explain", "t.idl", "-", "f", "in", "little"], {"t.idl": ECHO}, ECHO_OCTETS, lines("0 4 num x 5")),
    *both("trace", ["trace", "t.idl", "-", "f", "in", "little"], {"t.idl": ECHO}, ECHO_OCTETS, lines("0 4 num x 5")),
    *both("drain", ["drain", "t.idl", "-", "f", "in", "little"], {"t.idl": ECHO}, ECHO_OCTETS, ECHO_TEXT),
    *both("encode", ["encode", "t.idl", "-", "f", "in", "little", "1"], {"t.idl": ECHO}, ECHO_TEXT, ECHO_OCTETS),
    *both("migrate", ["migrate", "t.idl", "-", "f", "in"], {"t.idl": ECHO}, lines("values 1", "op f in", "x = 5"), ECHO_TEXT),
    *both("call", ["call", "t.idl", "-", "-"], {"t.idl": ECHO}, REQUEST, lines("call 7") + ECHO_TEXT),
    *both("wrap", ["wrap", "t.idl", "-", "f", "in", "little", "7", "1024"], {"t.idl": ECHO}, ECHO_TEXT, REQUEST),
    *both("compat", ["compat", "t.idl", "-", "t.idl", "-"], {"t.idl": ECHO}, b"", lines("compatible 1")),
    *both("compat with why", ["compat", "t.idl", "-", "t.idl", "-", "why"], {"t.idl": ECHO}, b"", lines("compatible 1")),
    *both("given", ["decode", "t.idl", "-", "f", "out", "little", "given", "r.text"], {"t.idl": ECHO, "r.text": ECHO_TEXT}, octets("06000000"),
          lines("values 2", "op f out", "return = 6")),
]

# ----------------------------------------------------------------------------------------------------------------------
# The two words: names in C706, and outside attribute brackets in both languages

NAMES = interface("typedef struct any_size { long any_length; } any_size;", "void f([in] any_size any_length);")
TURNED = interface("void f([in] long any_size, [in, size_is(any_size)] byte a[*]);")


def wrong(what, text, *before):
    """A file that is refused with `what` at the mark."""
    content, place = marked(text)
    return Case(f"windows: {what}{' windows' if before else ''}: {readable(text)}", [*before, "compile", "t.idl", "-"], {"t.idl": content},
                notes=lines(f"idl t.idl:{place}: {what}"), status=6)


MEANT = [
    *both("names outside attribute brackets", ["decode", "t.idl", "-", "f", "in", "little"], {"t.idl": NAMES}, ECHO_OCTETS,
          lines("values 2", "op f in", "any_length = {any_length = 5}")),
    Case("windows: a name in attribute brackets in C706", ["decode", "t.idl", "-", "f", "in", "little"], {"t.idl": TURNED},
         octets("01000000 01000000 ab"), lines("values 2", "op f in", "any_size = 1", 'a = x"ab"')),
    wrong("Syntax", "[local] interface t { void f([in] long any_size, [in, size_is(§any_size)] byte a[*]); }", "windows"),
    wrong("Syntax", "[local] interface t { void f([in, §any_size] byte a[*]); }"),
    wrong("Syntax", "[local] interface t { typedef [§any_length] byte a[*]; void f(); }"),
    wrong("Rule 1", "[local] interface t { typedef [§any_size] byte a[*]; void f(); }", "windows"),
    wrong("Syntax", "[local] interface t { void f([in, any_size§(n)] byte a[*], [in] long n); }", "windows"),
    wrong("Rule 1", "[§any_length] interface t { void f(); }", "windows"),
]

# ----------------------------------------------------------------------------------------------------------------------
# Counts that nothing states

COUNTED = interface(
    "typedef [any_length] unsigned short letters[*];",
    "typedef struct { unsigned short Length, MaximumLength; [unique] letters *Buffer; } counted;",
    "void name([in] counted *n);",
)
ROOM = octets("0a00 0c00 02000000 06000000 00000000 05000000 5300 6500 6500 6400 6f00")
ROOM_TEXT = lines("values 2", "op name in", "n = @1", "@1 = {Length = 10, MaximumLength = 12, Buffer = @2}", "@2 = 6:0:[83, 101, 101, 100, 111]")
DRIVE = interface("typedef [any_length] unsigned short drive[3];", "void f([in] drive d);")
ACL = interface("typedef struct { unsigned char r, s; unsigned short n; [any_size] byte d[*]; } acl;", "void f([in] acl *a);")
TREE = interface("typedef struct entry { unsigned long n; [any_size, unique] struct entry *e; } entry;", "void f([in] entry *e);")
PARTS = interface("void f([in] long n, [in, size_is(n), any_length] short *a, [in, any_size, length_is(n)] short *b);")


def read_and_written(name, text, operation, given, *values):
    """Octets that are read as these values, which are written as the same octets."""
    shown = lines("values 2", f"op {operation} in", *values)
    return [Case(f"windows: {name}, decoded", ["windows", "decode", "t.idl", "-", operation, "in", "little"], {"t.idl": text}, given, shown),
            Case(f"windows: {name}, encoded", ["windows", "encode", "t.idl", "-", operation, "in", "little", "1"], {"t.idl": text}, shown, given)]


FREE = [
    *read_and_written("a counted string with room", COUNTED, "name", ROOM, *ROOM_TEXT.decode().splitlines()[2:]),
    *read_and_written("a counted string whose lengths say something else", COUNTED, "name",
                      octets("0100 0200 02000000 03000000 01000000 02000000 5300 6500"),
                      "n = @1", "@1 = {Length = 1, MaximumLength = 2, Buffer = @2}", "@2 = 3:1:[83, 101]"),
    *read_and_written("an empty counted string", COUNTED, "name", octets("0000 0200 02000000 01000000 00000000 00000000"),
                      "n = @1", "@1 = {Length = 0, MaximumLength = 2, Buffer = @2}", "@2 = 1:0:[]"),
    *read_and_written("no string", COUNTED, "name", octets("0000 0000 00000000"), "n = @1", "@1 = {Length = 0, MaximumLength = 0, Buffer = null}"),
    *read_and_written("a part of an array of fixed size", DRIVE, "f", octets("00000000 02000000 4300 3a00"), "d = 0:[67, 58]"),
    *read_and_written("an array at the end of a struct", ACL, "f", octets("03000000 02 00 0b00 616263"),
                      "a = @1", '@1 = {r = 2, s = 0, n = 11, d = x"616263"}'),
    *read_and_written("a pointer to an array of the struct that has it", TREE, "f",
                      octets("07000000 02000000 02000000 01000000 00000000 02000000 00000000"),
                      "e = @1", "@1 = {n = 7, e = @2}", "@2 = [{n = 1, e = null}, {n = 2, e = null}]"),
    *read_and_written("a stated count beside a free one", PARTS, "f",
                      octets("02000000 02000000 00000000 01000000 0500 0000 03000000 00000000 02000000 0600 0700"),
                      "n = 2", "a = @1", "b = @2", "@1 = 2:0:[5]", "@2 = 3:0:[6, 7]"),
    Case("windows: a counted string that is explained", ["windows", "explain", "t.idl", "-", "f", "in", "little"], {"t.idl": DRIVE},
         octets("00000000 01000000 4300"), lines("0 4 offset d 0", "4 4 actual d 1", "8 2 num d[0] 67")),
    Case("windows: an actual count past the bound", ["windows", "decode", "t.idl", "-", "f", "in", "little"], {"t.idl": DRIVE},
         octets("00000000 04000000"), notes=lines("refused: octets at 4: PastBound"), status=1),
    Case("windows: a stated count that differs", ["windows", "decode", "t.idl", "-", "f", "in", "little"], {"t.idl": PARTS},
         octets("02000000 03000000 00000000 01000000 0500 0000 03000000 00000000 01000000 0600"),
         notes=lines("refused: octets at 4: Disagrees wanted 2 found 3"), status=1),
    Case("windows: in an import", ["windows", "decode", "t.idl", "-", "f", "in", "little"],
         {"t.idl": interface('import "b.idl";', "void f([in] drive d);"), "b.idl": interface("typedef [any_length] short drive[2];", name="b")},
         octets("00000000 01000000 4300"), lines("values 2", "op f in", "d = 0:[67]")),
]

# ----------------------------------------------------------------------------------------------------------------------
# Two versions

SIZED = interface("void f([in] long n, [in, size_is(n), length_is(n)] byte a[*]);")
LONG_FREE = interface("void f([in] long n, [in, size_is(n), any_length] byte a[*]);")
SIZE_FREE = interface("void f([in] long n, [in, any_size, length_is(n)] byte a[*]);")


def compared(name, old, new, out=b"", notes=b"", *why):
    """What the comparison of two versions answers."""
    return Case(f"windows: compat, {name}", ["windows", "compat", "old.idl", "-", "new.idl", "-", *why], {"old.idl": old, "new.idl": new},
                out=out, notes=notes, status=1 if notes else 0)


DIFFERS = lines("refused: compat: Differs f")

VERSIONS = [
    compared("free counts", LONG_FREE, LONG_FREE, lines("compatible 1")),
    compared("a length is stated, and free", SIZED, LONG_FREE, notes=DIFFERS),
    compared("a length is free, and stated", LONG_FREE, SIZED, notes=DIFFERS),
    compared("a size is stated, and free", SIZED, SIZE_FREE, notes=DIFFERS),
    compared("a size is free, and stated", SIZE_FREE, SIZED, notes=DIFFERS),
]

CASES = [*NO_COMMANDS, *SAME, *MEANT, *FREE, *VERSIONS]
