"""The command `drain`: the elements of pipes go to the ends, which are the files pipe0.out to pipe7.out."""

import struct

from case import CLOSED, Case, Folder, LinkTo, OneAtATime, interface, lines, octets

FEED = interface("typedef pipe long lp;", "void feed([in] lp d);", "void ping();", "void two([in] long n, [in] lp a, [in] lp b);")
ONE_TO_THREE = octets("02000000 01000000 02000000 01000000 03000000 00000000")
MANY = range(20_000)  # numbers of one chunk, whose lines take more than an end holds back
FED = lines("values 2", "op feed in", "d = []")


def words(op="feed", order="little", side="in"):
    """The words of a drain."""
    return ["drain", "t.idl", "-", op, side, order]


def many(count):
    """An interface whose operation has so many pipes."""
    return interface("typedef pipe byte bp;", f"void f({', '.join(f'[in] bp p{at}' for at in range(count))});")


def elements(name, typed, given, *shown, text=None):
    """One chunk of a pipe's elements, and the line of each."""
    return Case(f"drain: {name}", words("f"), {"t.idl": interface(f"{typed}; typedef pipe e p;", "void f([in] p d);")},
                octets(given), lines("values 2", "op f in", "d = []" if text is None else text), ends={"pipe0.out": lines(*shown)})


CASES = [
    Case("drain: two chunks", words(), {"t.idl": FEED}, ONE_TO_THREE, FED, ends={"pipe0.out": lines("1", "2", "3")}, left=b""),
    Case("drain: one octet at a time", words(), {"t.idl": FEED}, OneAtATime(ONE_TO_THREE), FED, ends={"pipe0.out": lines("1", "2", "3")}),
    Case("drain: cut after a chunk's count", words(), {"t.idl": FEED}, ONE_TO_THREE[:16], notes=lines("refused: octets at 16: Truncated"),
         status=1, ends={"pipe0.out": lines("1", "2")}),
    Case("drain: cut in a chunk", words(), {"t.idl": FEED}, ONE_TO_THREE[:10], notes=lines("refused: octets at 10: Truncated"), status=1),
    Case("drain: cut before the last count", words(), {"t.idl": FEED}, ONE_TO_THREE[:20], notes=lines("refused: octets at 20: Truncated"),
         status=1, ends={"pipe0.out": lines("1", "2", "3")}),
    Case("drain: a long chunk, and a cut after it", words(), {"t.idl": FEED}, struct.pack("<20001i", len(MANY), *MANY) + octets("02000000 07000000 08"),
         notes=lines("refused: octets at 80013: Truncated"), status=1, ends={"pipe0.out": lines(*map(str, MANY))}),
    Case("drain: an empty pipe", words(), {"t.idl": FEED}, octets("00000000"), FED, ends={"pipe0.out": b""}),
    Case("drain: an octet follows the pipe", words(), {"t.idl": FEED}, ONE_TO_THREE + octets("01 02"),
         notes=lines("refused: octets at 24: Trailing"), status=1, ends={"pipe0.out": lines("1", "2", "3")}, left=octets("02")),
    Case("drain: no pipes", words("ping"), {"t.idl": FEED}, b"", lines("values 2", "op ping in")),
    Case("drain: two pipes", words("two"), {"t.idl": FEED}, octets("05000000 01000000 01000000 00000000 01000000 02000000 00000000"),
         lines("values 2", "op two in", "n = 5", "a = []", "b = []"), ends={"pipe0.out": lines("1"), "pipe1.out": lines("2")}),
    Case("drain: the second pipe is cut", words("two"), {"t.idl": FEED}, octets("05000000 01000000 01000000 00000000 01000000"),
         notes=lines("refused: octets at 20: Truncated"), status=1, ends={"pipe0.out": lines("1")}),
    Case("drain: the values before the pipes are cut", words("two"), {"t.idl": FEED}, octets("0500"),
         notes=lines("refused: octets at 2: Truncated"), status=1),
    Case("drain: eight pipes", words("f"), {"t.idl": many(8)}, octets("01000000 07 000000 00000000") * 8,
         lines("values 2", "op f in", *[f'p{at} = x""' for at in range(8)]), ends={f"pipe{at}.out": lines("7") for at in range(8)}),
    Case("drain: nine pipes are too many", words("f"), {"t.idl": many(9)}, octets("01000000"),
         notes=lines("refused: TooFewEnds wanted 9 found 8"), status=1, left=octets("01000000")),
    Case("drain: too few ends after a label", words("f", "label"), {"t.idl": many(9)}, octets("10000000 01000000"),
         notes=lines("refused: TooFewEnds wanted 9 found 8"), status=1, left=octets("01000000")),
    Case("drain: a bad label before too few ends", words("f", "label"), {"t.idl": many(9)}, octets("20000000 01000000"),
         notes=lines("refused: label: BadOrder"), status=1, left=octets("01000000")),
    Case("drain: too few ends before a closed input", words("f"), {"t.idl": many(9)}, CLOSED,
         notes=lines("refused: TooFewEnds wanted 9 found 8"), status=1),
    Case("drain: after a label", words("feed", "label"), {"t.idl": FEED}, octets("10000000") + ONE_TO_THREE, FED,
         ends={"pipe0.out": lines("1", "2", "3")}),
    Case("drain: big endian", words("feed", "big"), {"t.idl": FEED}, octets("00000001 00000102 00000000"), FED, ends={"pipe0.out": lines("258")}),
    Case("drain: closed input", words(), {"t.idl": FEED}, CLOSED, notes=lines("read fault"), status=3),
    Case("drain: unknown operation", words("none"), {"t.idl": FEED}, ONE_TO_THREE, notes=lines("idl t.idl: NoOperation none"), status=6,
         left=ONE_TO_THREE),
    Case("drain: an end that cannot be made", words(), {"t.idl": FEED, "pipe0.out": Folder()}, ONE_TO_THREE,
         notes=lines("pipe end 0 failed"), status=8, left=ONE_TO_THREE[12:]),
    Case("drain: an end that takes nothing", words(), {"t.idl": FEED, "pipe0.out": LinkTo("/dev/full")}, ONE_TO_THREE,
         notes=lines("pipe end 0 failed"), status=8, left=ONE_TO_THREE[12:]),
    Case("drain: the second end fails", words("two"), {"t.idl": FEED, "pipe1.out": Folder()},
         octets("05000000 01000000 01000000 00000000 01000000 02000000 00000000"), notes=lines("pipe end 1 failed"), status=8,
         ends={"pipe0.out": lines("1")}, left=octets("00000000")),
    Case("drain: an end fails where its pipe ends", words("two"), {"t.idl": FEED, "pipe1.out": Folder()},
         octets("05000000 01000000 01000000 00000000 00000000"), notes=lines("pipe end 1 failed"), status=8, ends={"pipe0.out": lines("1")}, left=b""),
    Case("drain: an end without a pipe is not called", words(), {"t.idl": FEED, "pipe1.out": Folder()}, ONE_TO_THREE, FED,
         ends={"pipe0.out": lines("1", "2", "3")}),
    elements("structs", "typedef struct { long a; boolean b; } e", "02000000 01000000 01 000000 02000000 00 000000 00000000",
             "{a = 1, b = 1}", "{a = 2, b = 0}"),
    elements("bytes are numbers", "typedef byte e", "02000000 AB CD 0000 00000000", "171", "205", text='d = x""'),
    elements("fixed arrays", "typedef long e[2]", "01000000 01000000 02000000 00000000", "[1, 2]"),
    elements("a line longer than an end holds back", "typedef struct { byte x[40000]; } e", "01000000" + "5A" * 40_000 + "00000000", f'{{x = x"{"5a" * 40_000}"}}'),
    elements("arrays of bytes", "typedef struct { byte x[3]; } e", "01000000 010203 00 00000000", '{x = x"010203"}'),
    Case("drain: other commands call no end", ["decode", *words()[1:]], {"t.idl": FEED}, ONE_TO_THREE, lines("values 2", "op feed in", "d = [1, 2, 3]")),
]
