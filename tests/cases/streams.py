"""Standard streams that are closed, that fail, or that nobody reads."""

from case import CLOSED, FOLDER, FULL, UNREAD, Case, interface, lines, octets

PLAIN = {"t.idl": interface("void f([in] small x);", "void ping();")}
DECODE = ["decode", "t.idl", "-", "f", "in", "little"]
ENCODE = ["encode", "t.idl", "-", "f", "in", "little", "1"]
PING = ["decode", "t.idl", "-", "ping", "in", "little"]
UNKNOWN = ["decode", "t.idl", "-", "g", "in", "little"]
ONE = octets("01")
TEXT = lines("values 2", "op f in", "x = 1")

INPUT = [
    Case("streams: closed input", DECODE, PLAIN, CLOSED, notes=lines("read fault"), status=3),
    Case("streams: closed input, no parameters", PING, PLAIN, CLOSED, notes=lines("read fault"), status=3),
    Case("streams: a folder as input", DECODE, PLAIN, FOLDER, notes=lines("read fault"), status=3),
    Case("streams: closed input, unknown operation", UNKNOWN, PLAIN, CLOSED,
         notes=lines("idl t.idl: NoOperation g"), status=6),
    Case("streams: closed input, an empty file", DECODE, {"t.idl": b""}, CLOSED,
         notes=lines("idl t.idl:1:1: Syntax"), status=6),
    Case("streams: closed input, a file with an octet of no token", DECODE, {"t.idl": b" #"}, CLOSED,
         notes=lines("idl t.idl:1:2: BadOctet"), status=6),
    Case("streams: closed input of encode", ENCODE, PLAIN, CLOSED, notes=lines("read fault"), status=3),
]

BLOCKS = [
    Case("streams: a file is taken as far as its value and an octet more", DECODE, PLAIN, ONE + bytes(300_000),
         notes=lines("refused: octets at 1: Trailing"), status=1, left=bytes(299_999)),
    Case("streams: a value of more than a block", DECODE, {"t.idl": interface("void f([in] byte d[300000]);")}, bytes(300_000) + b"abc",
         notes=lines("refused: octets at 300000: Trailing"), status=1, left=b"bc"),
    Case("streams: a value of more than a block, to the end of the file", DECODE, {"t.idl": interface("void f([in] byte d[300000]);")}, bytes(300_000),
         lines("values 2", "op f in", 'd = x"' + "00" * 300_000 + '"'), left=b""),
    Case("streams: nothing of a file is taken before the words are a command", ["decode"], PLAIN, ONE + bytes(300_000),
         notes=lines("words refused"), status=2, left=ONE + bytes(300_000)),
]

OUT = [
    Case("streams: full out", DECODE, PLAIN, ONE, out=FULL, notes=lines("write fault"), status=4),
    Case("streams: closed out", DECODE, PLAIN, ONE, out=CLOSED, notes=lines("write fault"), status=4),
    Case("streams: unread out", DECODE, PLAIN, ONE, out=UNREAD, notes=lines("write fault"), status=4),
    Case("streams: unread out and notes", DECODE, PLAIN, ONE, out=UNREAD, notes=UNREAD, status=4),
    Case("streams: full out and notes", DECODE, PLAIN, ONE, out=FULL, notes=FULL, status=4),
    Case("streams: full out, closed notes", DECODE, PLAIN, ONE, out=FULL, notes=CLOSED, status=4),
    Case("streams: full out, --help", ["--help"], out=FULL, notes=lines("write fault"), status=4),
    Case("streams: full out, --version", ["--version"], out=FULL, notes=lines("write fault"), status=4),
    Case("streams: full out does not matter to a refusal", DECODE, PLAIN, b"", out=FULL,
         notes=lines("refused: octets at 0: Truncated"), status=1),
    Case("streams: closed out does not matter to a refusal", ["decode"], PLAIN, ONE, out=CLOSED,
         notes=lines("words refused"), status=2),
]

NOTES = [
    Case("streams: closed notes do not matter if none are written", DECODE, PLAIN, ONE, TEXT, notes=CLOSED),
    Case("streams: full notes do not matter if none are written", DECODE, PLAIN, ONE, TEXT, notes=FULL),
    Case("streams: full notes, refused octets", DECODE, PLAIN, b"", notes=FULL, status=4),
    Case("streams: unread notes, refused octets", DECODE, PLAIN, b"", notes=UNREAD, status=4),
    Case("streams: full notes, refused words", ["decode"], notes=FULL, status=4),
    Case("streams: closed notes, refused words", ["decode"], notes=CLOSED, status=4),
    Case("streams: full notes, missing file", DECODE, {}, ONE, notes=FULL, status=4),
    Case("streams: full notes, empty file", DECODE, {"t.idl": b""}, ONE, notes=FULL, status=4),
    Case("streams: full notes, a refused text", ENCODE, PLAIN, ONE, notes=FULL, status=4),
    Case("streams: full notes, closed input", DECODE, PLAIN, CLOSED, notes=FULL, status=4),
    Case("streams: full notes, unknown operation", UNKNOWN, PLAIN, ONE, notes=FULL, status=4),
    Case("streams: all closed", DECODE, PLAIN, CLOSED, out=CLOSED, notes=CLOSED, status=4),
]

CASES = INPUT + BLOCKS + OUT + NOTES
