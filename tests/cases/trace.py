"""The command `trace`: the items before the first fault, and the fault with its path; and the program compared with a plain model of it."""

import subprocess

import tracing
from case import CLOSED, ROOT, Case, CheckOf, example, interface, lines, octets

COUNTED = interface("typedef struct { short n; [size_is(n)] long a[*]; } s;", "void put([in] s *p);")
ARMED = interface("typedef [switch_type(short)] union { [case(1)] long x; [case(2)] ; } u; typedef struct { short k; [switch_is(k)] u v; } e;",
                  "void put([in] e a[2]);")
COUNTS = interface("typedef struct { short n; short m; [first_is(m), length_is(n)] long a[4]; } s; typedef struct { short n; short m; [length_is(m)] long a[4]; } t;",
                   "void put([in] s *p, [in] t *q);")
SHARED = interface("void put([in, ptr] long *p, [in, ptr] short *q);")
PIPE = interface("typedef pipe long lp;", "void feed([in] lp d);")
GAPS = interface("typedef struct { byte b; long n; } g;", "void put([in] g a[2]);")
LINKS = interface("typedef struct node { long v; [ptr] struct node *next; } node;", "void ring([in, ptr] node *p);")
SIZED = interface("typedef byte bytes[*]; typedef struct { [size_is(n), unique] bytes *b; short n; } s;", "void put([in] s *p);")
POINTED = interface("typedef byte bytes[*];", "void put([in] unsigned long n, [in, size_is(n)] bytes *p);",
                    "void send([in] unsigned long n, [in, unique, size_is(n)] bytes *p);")
ANSWERED = interface("void r([in] unsigned long n, [out, size_is(n)] byte a[*]);")
STAR = interface("void f([in] long *n, [in, size_is(*n)] byte a[*]);")
REQUEST = lines("values 2", "op r in", "n = 3")


def words(op, order="little", side="in", *more):
    """The words of a trace."""
    return ["trace", "t.idl", "-", op, side, order, *more]


def traced(name, text, op, given, why, *shown, side="in", more=(), files=None):
    """Octets that are refused, and what is printed."""
    return Case(f"trace: {name}", words(op, "little", side, *more), {"t.idl": text, **(files or {})}, octets(given), out=lines(*shown),
                notes=lines(f"refused: octets at {why}"), status=1)


CASES = [
    Case("trace: octets that are accepted are explained", words("put"), {"t.idl": COUNTED}, octets("01000000 0100 0000 05000000"),
         lines("0 4 max @1 1", "4 2 num @1.n 1", "6 2 gap", "8 4 num @1.a[0] 5")),
    Case("trace: a gap that is not zero shows its octets", words("put"), {"t.idl": COUNTED}, octets("01000000 0100 00a1 05000000"),
         lines("0 4 max @1 1", "4 2 num @1.n 1", '6 2 gap x"00a1"', "8 4 num @1.a[0] 5", "gaps that are not zero: 1")),
    Case("trace: explain does not show them", ["explain", "t.idl", "-", "put", "in", "little"], {"t.idl": COUNTED}, octets("01000000 0100 00a1 05000000"),
         lines("0 4 max @1 1", "4 2 num @1.n 1", "6 2 gap", "8 4 num @1.a[0] 5")),
    traced("gaps before a fault", GAPS, "put", "01020300 05000000 02000000 06", "13: Truncated", "0 1 num a[0].b 1", '1 3 gap x"020300"', "4 4 num a[0].n 5",
           "8 1 num a[1].b 2", "9 3 gap", "13 fault Truncated a[1].n", "gaps that are not zero: 1"),
    traced("gaps before an octet that follows the values", GAPS, "put", "010000ff 05000000 02000001 06000000 07", "16: Trailing", "0 1 num a[0].b 1",
           '1 3 gap x"0000ff"', "4 4 num a[0].n 5", "8 1 num a[1].b 2", '9 3 gap x"000001"', "12 4 num a[1].n 6", "16 fault Trailing", "gaps that are not zero: 2"),
    Case("trace: closed input", words("put"), {"t.idl": COUNTED}, CLOSED, notes=lines("read fault"), status=3),
    Case("trace: a bad label", words("put", "label"), {"t.idl": COUNTED}, octets("20000000 01000000 0100 0000 05000000"),
         notes=lines("refused: label: BadOrder"), status=1),
    Case("trace: after a label", words("put", "label"), {"t.idl": COUNTED}, octets("00000000 00000001 0001 0000 0000"),
         lines("0 4 max @1 1", "4 2 num @1.n 1", "6 2 gap", "10 fault Truncated @1.a[0]"), notes=lines("refused: octets at 10: Truncated"), status=1),
    traced("an array that is cut short", COUNTED, "put", "02000000 0200 0000 05000000 0600", "14: Truncated", "0 4 max @1 2", "4 2 num @1.n 2", "6 2 gap",
           "8 4 num @1.a[0] 5", "14 fault Truncated @1.a[1]"),
    traced("octets that end within a gap", COUNTED, "put", "02000000 0200 00", "7: Truncated", "0 4 max @1 2", "4 2 num @1.n 2", "7 fault Truncated @1.a[0]"),
    traced("octets that end between two items", COUNTED, "put", "02000000", "4: Truncated", "0 4 max @1 2", "4 fault Truncated @1.n"),
    traced("no octets", COUNTED, "put", "", "0: Truncated", "0 fault Truncated @1"),
    traced("a wrong count", COUNTED, "put", "02000000 0300 0000 05000000 06000000", "0: Disagrees wanted 3 found 2", "0 4 max @1 2", "4 2 num @1.n 3", "6 2 gap",
           "8 4 num @1.a[0] 5", "12 4 num @1.a[1] 6", "0 fault Disagrees wanted 3 found 2 @1.a @1.n"),
    traced("a wrong count of no elements", COUNTED, "put", "00000000 0300", "0: Disagrees wanted 3 found 0", "0 4 max @1 0", "4 2 num @1.n 3",
           "0 fault Disagrees wanted 3 found 0 @1.a @1.n"),
    traced("a tag without an arm", ARMED, "put", "0100 0100 07000000 0300 0300", "10: NoArm", "0 2 num a[0].k 1", "2 2 tag a[0].v 1", "4 4 num a[0].v.x 7",
           "8 2 num a[1].k 3", "10 fault NoArm a[1].v"),
    traced("a tag that disagrees", ARMED, "put", "0200 0100 07000000", "2: Disagrees wanted 2 found 1", "0 2 num a[0].k 2", "2 2 tag a[0].v 1",
           "4 4 num a[0].v.x 7", "2 fault Disagrees wanted 2 found 1 a[0].v a[0].k"),
    traced("an offset that disagrees", COUNTS, "put", "0100 0100 00000000 01000000 05000000", "4: Disagrees wanted 1 found 0", "0 2 num @1.n 1", "2 2 num @1.m 1",
           "4 4 offset @1.a 0", "8 4 actual @1.a 1", "12 4 num @1.a[0] 5", "4 fault Disagrees wanted 1 found 0 @1.a @1.m"),
    traced("structs that differ in their attributes", COUNTS, "put", "0200 0000 00000000 02000000 05000000 06000000 0200 0300 00000000 02000000 07000000 08000000",
           "28: Disagrees wanted 3 found 2", "0 2 num @1.n 2", "2 2 num @1.m 0", "4 4 offset @1.a 0", "8 4 actual @1.a 2", "12 4 num @1.a[0] 5", "16 4 num @1.a[1] 6",
           "20 2 num @2.n 2", "22 2 num @2.m 3", "24 4 offset @2.a 0", "28 4 actual @2.a 2", "32 4 num @2.a[0] 7", "36 4 num @2.a[1] 8",
           "28 fault Disagrees wanted 3 found 2 @2.a @2.m"),
    traced("a number of another type", SHARED, "put", "02000000 07000000 02000000", "8: OtherType", "0 4 number p 2", "4 4 num @1 7", "8 fault OtherType q"),
    traced("the second chunk of a pipe", PIPE, "feed", "02000000 01000000 02000000 01000000 0300", "18: Truncated", "0 4 chunk d 2", "4 4 num d[0] 1",
           "8 4 num d[1] 2", "12 4 chunk d 1", "18 fault Truncated d[2]"),
    traced("a referent that was met is not read again", LINKS, "ring", "01000000 05000000 01000000 00", "12: Trailing", "0 4 number p 1", "4 4 num @1.v 5",
           "8 4 number @1.next 1", "12 fault Trailing"),
    traced("the count of a referent", SIZED, "put", "09000000 0300 0000 02000000 0708", "8: Disagrees wanted 3 found 2", "0 4 number @1.b 9", "4 2 num @1.n 3",
           "6 2 gap", "8 4 max @2 2", "12 1 num @2[0] 7", "13 1 num @2[1] 8", "8 fault Disagrees wanted 3 found 2 @2 @1.n"),
    traced("the count of what a top-level reference pointer names", POINTED, "put", "03000000 02000000 0708", "4: Disagrees wanted 3 found 2", "0 4 num n 3",
           "4 4 max @1 2", "8 1 num @1[0] 7", "9 1 num @1[1] 8", "4 fault Disagrees wanted 3 found 2 @1 n"),
    traced("the count of what a unique parameter names", POINTED, "send", "03000000 09000000 02000000 0708", "8: Disagrees wanted 3 found 2", "0 4 num n 3",
           "4 4 number p 9", "8 4 max @1 2", "12 1 num @1[0] 7", "13 1 num @1[1] 8", "8 fault Disagrees wanted 3 found 2 @1 n"),
    traced("a count with a request", ANSWERED, "r", "02000000 0708", "0: Disagrees wanted 3 found 2", "0 4 max a 2", "4 1 num a[0] 7", "5 1 num a[1] 8",
           "0 fault Disagrees wanted 3 found 2 a n", side="out", more=("given", "request.txt"), files={"request.txt": REQUEST}),
    traced("a count that a pointer has", STAR, "f", "03000000 01000000 07", "4: Disagrees wanted 3 found 1", "0 4 num @1 3", "4 4 max a 1", "8 1 num a[0] 7",
           "4 fault Disagrees wanted 3 found 1 a n"),
]

# Streams that are cut short everywhere, and with each octet changed, for the program and the plain model
STREAMS = [
    ("parcels.idl", "send", "in", "02000000 0200 00a1 05000000 06000000"),
    ("parcels.idl", "send", "in", "02000000 0200 0000 05000000 06000000"),
    ("parcels.idl", "measure", "in", "0100 0100 07000000 0200 0200"),
    ("directory.idl", "list", "out", example("list-response.hex").decode()),
]


def answer(program, words, given):
    """A program's status and both outputs."""
    done = subprocess.run([program, *words], input=given, cwd=ROOT, stdout=subprocess.PIPE, stderr=subprocess.PIPE)
    return done.returncode, done.stdout.decode(), done.stderr.decode()


def spoilt(given):
    """Octets cut short, and with an octet changed."""
    for end in range(len(given)):
        yield given[:end]
    for at in range(len(given)):
        yield given[:at] + bytes([given[at] ^ 3]) + given[at + 1:]


def unlike_model(program):
    """Where the program and the model differ."""
    for file, operation, side, text in STREAMS:
        _, listing, _ = answer(program, ["compile", f"examples/{file}", "-"], b"")
        of = tracing.interface(listing)
        for given in spoilt(octets(text)):
            shown, refusal = tracing.trace(of, operation, side, "little", given)
            notes = f"refused: octets at {refusal[0]}: {refusal[1]}\n" if refusal else ""
            found = answer(program, ["trace", f"examples/{file}", "-", operation, side, "little"], given)
            if found != (1 if refusal else 0, shown, notes):
                yield f"{operation} of {given.hex()}: wanted {shown!r}, found {found!r}"


CASES.append(CheckOf("trace: as the plain model", lambda program: list(unlike_model(program))))
