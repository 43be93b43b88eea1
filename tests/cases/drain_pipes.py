"""The command `drain`: elements of every form, several pipes, responses, with requests too, and the files that are the ends."""

from case import Case, Folder, OneAtATime, interface, lines, octets

LONGS = "typedef pipe long lp;"


def words(op="f", side="in", order="little", *more):
    """The words of a drain."""
    return ["drain", "t.idl", "-", op, side, order, *more]


def elements(name, typed, given, *shown, order="little", text="d = []"):
    """A pipe of elements of a type `e`, and the line of each."""
    return Case(f"drain: {name}", words(order=order), {"t.idl": interface(f"{typed} typedef pipe e p;", "void f([in] p d);")},
                octets(given), lines("values 2", "op f in", text), ends={"pipe0.out": lines(*shown)}, left=b"")


def refused(name, typed, given, why, *shown, left=""):
    """The same with octets that are refused: the lines of whole chunks before."""
    return Case(f"drain: {name}", words(), {"t.idl": interface(f"{typed} typedef pipe e p;", "void f([in] p d);")},
                octets(given), notes=lines("refused: " + why), status=1, ends={"pipe0.out": lines(*shown)} if shown else {}, left=octets(left))


GAPS = "typedef struct { byte b; hyper h; } e;"
UNION = "typedef union switch (short k) { case 1: long a; case 2: ; default: hyper h; } e;"
NO_DEFAULT = "typedef union switch (short k) { case 1: long a; } e;"
KIND = "typedef enum { A, B = 4 } e;"
BOTH = interface(LONGS, "void f([in] lp a, [in, out] lp b, [out] lp c);", "long g([in] long n, [out] lp d, [out] long *m);")
POINTED = interface(LONGS, "void f([in, unique] long *q, [in] lp d, [in] short s);")
SIZED = interface(LONGS, "void r([in] unsigned long n, [out, size_is(n)] byte a[*], [out] lp d);")
RESPONSE = octets("02000000 ABCD 0000 02000000 07000000 08000000 00000000")
REQUEST = lines("values 2", "op r in", "n = 2")
NINE = interface("typedef pipe byte bp;", "void f(" + ", ".join(f"[out] bp p{at}" for at in range(9)) + ", [in] bp q);")
FEED = interface(LONGS, "void f([in] lp d);", "void ping();")
ONE_TO_THREE = octets("02000000 01000000 02000000 01000000 03000000 00000000")
FED = lines("values 2", "op f in", "d = []")
GIVEN = ("given", "request.txt")


def with_request(name, request, *, status=0, notes="", left=RESPONSE, files=None):
    """A response that is drained with this request."""
    made = {"t.idl": SIZED, **({"request.txt": request} if files is None else files)}
    if status == 0:
        return Case(f"drain: {name}", words("r", "out", "little", *GIVEN), made, RESPONSE, lines("values 2", "op r out", 'a = x"abcd"', "d = []"),
                    ends={"pipe0.out": lines("7", "8")}, left=b"")
    return Case(f"drain: {name}", words("r", "out", "little", *GIVEN), made, RESPONSE, notes=lines(notes), status=status, left=left)


def kept(name, given, ends, **more):
    """Files that are there before the run: an end's file is emptied at its first call, and not before."""
    return Case(f"drain: {name}", words(), {"t.idl": FEED, "pipe0.out": b"old\n", "pipe1.out": b"old\n"}, octets(given),
                ends={"pipe1.out": b"old\n", **ends}, **more)


CASES = [
    # Elements of every form.
    elements("structs with gaps", GAPS, "02000000 00000000 07 00000000000000 0100000000000000 FF AAAAAAAAAAAAAA FFFFFFFFFFFFFFFF 00000000",
             "{b = 7, h = 1}", "{b = 255, h = -1}"),
    elements("structs with gaps, big endian, in two chunks", GAPS,
             "00000001 00000000 07 00000000000000 0000000000000001 00000001 00000000 08 00000000000000 0000000000000002 00000000",
             "{b = 7, h = 1}", "{b = 8, h = 2}", order="big"),
    elements("unions", UNION, "03000000 0100 0000 05000000 0200 0900 0700000000000000 00000000", "1:5", "2:void", "9:7"),
    elements("enumerated values", KIND, "02000000 0400 0000 00000000", "4", "0"),
    elements("arrays of two dimensions", "typedef short e[2][2];", "01000000 0100 0200 0300 0400 00000000", "[[1, 2], [3, 4]]"),
    elements("arrays of characters", "typedef char e[3];", "01000000 686900 00 00000000", "[104, 105, 0]"),
    elements("arrays of bytes are one token", "typedef byte e[3];", "02000000 01ABFF 000000 0000 00000000", 'x"01abff"', 'x"000000"'),
    elements("characters", "typedef char e;", "02000000 6869 0000 00000000", "104", "105"),
    elements("booleans", "typedef boolean e;", "03000000 00 01 FF 00 00000000", "0", "1", "1"),
    elements("small numbers", "typedef small e;", "03000000 7F 80 FF 00 00000000", "127", "-128", "-1"),
    elements("the greatest numbers", "typedef unsigned hyper e;", "02000000 00000000 FFFFFFFFFFFFFFFF 0000000000000080 00000000",
             "18446744073709551615", "9223372036854775808"),
    elements("structs in structs", "typedef struct { short a; } i; typedef struct { i x; byte y[2]; i z[2]; } e;",
             "01000000 0100 0203 0400 0500 00000000", '{x = {a = 1}, y = x"0203", z = [{a = 4}, {a = 5}]}'),
    elements("a union in a struct", "typedef union switch (short k) { case 1: long a; default: ; } u; typedef struct { u x; byte y; } e;",
             "02000000 0100 0000 05000000 06 000000 0200 07 00 00000000", "{x = 1:5, y = 6}", "{x = 2:void, y = 7}"),
    elements("chunks of one element", "typedef short e;", "01000000 0100 0000 01000000 0200 0000 01000000 0300 0000 00000000", "1", "2", "3"),
    # What is refused.
    refused("an enumerated value in the second chunk", KIND, "01000000 0400 0000 02000000 0000 0100 00000000", "octets at 14: EnumValue", "4", left="00000000"),
    refused("an enumerated value in the first chunk", KIND, "02000000 0400 0100 00000000", "octets at 6: EnumValue", left="00000000"),
    refused("no arm in the second chunk", NO_DEFAULT, "01000000 0100 0000 05000000 01000000 0200 00", "octets at 16: NoArm", "1:5", left="00"),
    refused("a count that claims too much", GAPS, "FFFFFFFF 00000000 07", "octets at 9: Truncated"),
    refused("a count that claims too much after a chunk", "typedef long e;", "02000000 01000000 02000000 05000000 03000000",
            "octets at 20: Truncated", "1", "2"),
    refused("cut in a gap", GAPS, "01000000 0000", "octets at 6: Truncated"),
    refused("cut in a count", "typedef long e;", "01000000 01000000 0000", "octets at 10: Truncated", "1"),
    # Sides, several pipes, and values that are in no pipe.
    Case("drain: the pipes of the inputs alone", words("f"), {"t.idl": BOTH}, octets("01000000 01000000 00000000 01000000 02000000 00000000"),
         lines("values 2", "op f in", "a = []", "b = []"), ends={"pipe0.out": lines("1"), "pipe1.out": lines("2")}),
    Case("drain: the pipes of the outputs alone", words("f", "out"), {"t.idl": BOTH}, octets("00000000 02000000 03000000 04000000 00000000"),
         lines("values 2", "op f out", "b = []", "c = []"), ends={"pipe0.out": b"", "pipe1.out": lines("3", "4")}),
    Case("drain: pipes after the result", words("g", "out"), {"t.idl": BOTH}, octets("05000000 06000000 01000000 07000000 00000000"),
         lines("values 2", "op g out", "m = @1", "return = 6", "d = []", "@1 = 5"), ends={"pipe0.out": lines("7")}),
    Case("drain: a side without pipes", words("g"), {"t.idl": BOTH}, octets("05000000"), lines("values 2", "op g in", "n = 5")),
    Case("drain: a side without pipes, and an octet more", words("g"), {"t.idl": BOTH}, octets("05000000 00"),
         notes=lines("refused: octets at 4: Trailing"), status=1),
    Case("drain: pointers before a pipe", words("f"), {"t.idl": POINTED}, octets("01000000 05000000 0600 0000 01000000 07000000 00000000"),
         lines("values 2", "op f in", "q = @1", "s = 6", "d = []", "@1 = 5"), ends={"pipe0.out": lines("7")}),
    Case("drain: after a label of the other order, octet by octet", words("f", "in", "label"), {"t.idl": FEED},
         OneAtATime(octets("00000000 00000001 00000102 00000000")), FED, ends={"pipe0.out": lines("258")}),
    Case("drain: a label that is cut", words("f", "in", "label"), {"t.idl": FEED}, octets("100000"), notes=lines("refused: label: Truncated"), status=1),
    Case("drain: nine pipes of the other side", words("f"), {"t.idl": NINE}, octets("01000000 07 000000 00000000"),
         lines("values 2", "op f in", 'q = x""'), ends={"pipe0.out": lines("7")}),
    Case("drain: nine pipes of a response", words("f", "out"), {"t.idl": NINE}, octets("00000000"),
         notes=lines("refused: TooFewEnds wanted 9 found 8"), status=1, left=octets("00000000")),
    # A response with its request.
    with_request("with a request", REQUEST),
    with_request("with a request that it does not answer", lines("values 2", "op r in", "n = 3"), status=1,
           notes="refused: octets at 0: Disagrees wanted 3 found 2", left=RESPONSE[6:]),
    with_request("with the text of a response", lines("values 2", "op r out", 'a = x""', "d = []"), status=1, notes="refused: given: text 2:6: OtherName"),
    with_request("with values that do not conform", lines("values 2", "op r in", "n = -1"), status=1, notes="refused: given: value at n: Range"),
    with_request("with a request that is not there", b"", status=7, notes="absent: request.txt", files={}),
    with_request("with a folder", b"", status=9, notes="file fault: request.txt", files={"request.txt": Folder()}),
    Case("drain: a request with inputs", words("f", "in", "little", *GIVEN), {"t.idl": FEED, "request.txt": REQUEST}, ONE_TO_THREE,
         notes=lines("words refused"), status=2, left=ONE_TO_THREE),
    Case("drain: a bad request before too few ends", words("f", "out", "little", *GIVEN), {"t.idl": NINE, "request.txt": b"values 2\nop g in"},
         octets("00"), notes=lines("refused: given: text 2:4: OtherName"), status=1, left=octets("00")),
    # The files that are the ends.
    kept("a file of an end is emptied", "01000000 05000000 00000000", {"pipe0.out": lines("5")}, out=FED),
    kept("a file is emptied for an empty pipe", "00000000", {"pipe0.out": b""}, out=FED),
    kept("no file is emptied before the first chunk is whole", "01000000 0500", {"pipe0.out": b"old\n"},
         notes=lines("refused: octets at 6: Truncated"), status=1),
    kept("a file is emptied for the first chunk, whatever follows", "01000000 05000000 01000000", {"pipe0.out": lines("5")},
         notes=lines("refused: octets at 12: Truncated"), status=1),
    Case("drain: no file is made or emptied by a refusal before the octets", words("none"), {"t.idl": FEED, "pipe0.out": b"old\n"}, ONE_TO_THREE,
         notes=lines("idl t.idl: NoOperation none"), status=6, ends={"pipe0.out": b"old\n"}),
    Case("drain: no pipes, no files", words("ping"), {"t.idl": FEED, "pipe0.out": b"old\n"}, b"", lines("values 2", "op ping in"),
         ends={"pipe0.out": b"old\n"}),
]
