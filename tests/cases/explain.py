"""The command `explain`: a line for each item of a stream."""

from case import CLOSED, Case, OneAtATime, interface, lines, octets

SUM = interface("typedef struct { short n; [size_is(n)] hyper a[*]; } s;", "void sum([in] s *p);")
SUM_OCTETS = octets("02000000 00000000 0200 000000000000 0100000000000000 0200000000000000")
SUM_LINES = lines("0 4 max @1 2", "4 4 gap", "8 2 num @1.n 2", "10 6 gap", "16 8 num @1.a[0] 1", "24 8 num @1.a[1] 2")
PIPE = interface("typedef pipe long lp;", "void feed([in] lp d);")
PIPE_OCTETS = octets("02000000 01000000 02000000 01000000 03000000 00000000")
PIPE_LINES = lines("0 4 chunk d 2", "4 4 num d[0] 1", "8 4 num d[1] 2", "12 4 chunk d 1", "16 4 num d[2] 3", "20 4 chunk d 0")
BASE = lines("[uuid(0a0b0c0d-0102-0304-0506-0708090a0b0c), version(1.0)]", "interface base {", "  const long NAME_MAX = 16;",
             "  typedef enum { FILE_KIND, FOLDER_KIND = 4 } kind_t;", "}")
DIRECTORY = lines(
    "[uuid(00112233-4455-6677-8899-aabbccddeeff), version(2.1), pointer_default(unique)]",
    "interface dir {",
    '  import "base.idl";',
    "  typedef [switch_type(kind_t)] union { [case(FILE_KIND)] unsigned long size; [case(FOLDER_KIND)] ; } detail_t;",
    "  typedef struct entry {",
    "    kind_t kind;",
    "    [switch_is(kind)] detail_t detail;",
    "    [string] char name[NAME_MAX];",
    "    [ptr] struct entry *parent;",
    "    struct entry *next;",
    "  } entry;",
    "  unsigned long list([in, string] char *path, [out] entry *first);",
    "  void put([in] handle_t h, [in, unique] entry *e, [in] unsigned long n, [in, size_is(n)] byte data[*]);",
    "}")
ACF = lines("[explicit_handle] interface dir { put([heap] e); }")
PUT = octets(
    "01000000"
    "0400 0400 00000000 04000000 65746300 02000000 03000000"
    "0400 0400 00000000 02000000 2f00 0000 02000000 00000000"
    "0000 0000 00040000 00000000 02000000 6100 0000 02000000 00000000"
    "02000000"
    "02000000 abcd")
PUT_LINES = lines(
    "0 4 number e 1", "4 2 num @1.kind 4", "6 2 tag @1.detail 4", "8 4 offset @1.name 0", "12 4 actual @1.name 4",
    '16 4 text @1.name "etc"', "20 4 number @1.parent 2", "24 4 number @1.next 3", "28 2 num @2.kind 4",
    "30 2 tag @2.detail 4", "32 4 offset @2.name 0", "36 4 actual @2.name 2", '40 2 text @2.name "/"', "42 2 gap",
    "44 4 number @2.parent 2", "48 4 number @2.next 0", "52 2 num @3.kind 0", "54 2 tag @3.detail 0",
    "56 4 num @3.detail.size 1024", "60 4 offset @3.name 0", "64 4 actual @3.name 2", '68 2 text @3.name "a"', "70 2 gap",
    "72 4 number @3.parent 2", "76 4 number @3.next 0", "80 4 num n 2", "84 4 max data 2", "88 1 num data[0] 171",
    "89 1 num data[1] 205")


def words(op, order="little", acf="-", side="in"):
    """The words of an explanation."""
    return ["explain", "t.idl", acf, op, side, order]


def explained(name, text, op, given, *shown, order="little"):
    """Octets of an operation's inputs, and the lines of their items."""
    return Case(f"explain: {name}", words(op, order), {"t.idl": text}, octets(given), lines(*shown))


def small(*parameters):
    """An interface with one operation `f`."""
    return interface(f"void f({', '.join(parameters)});")


CASES = [
    Case("explain: a conformant struct", words("sum"), {"t.idl": SUM}, SUM_OCTETS, SUM_LINES),
    Case("explain: a pipe", words("feed"), {"t.idl": PIPE}, PIPE_OCTETS, PIPE_LINES),
    Case("explain: the directory interface", words("put", acf="dir.acf"), {"t.idl": DIRECTORY, "base.idl": BASE, "dir.acf": ACF}, PUT, PUT_LINES),
    Case("explain: one octet at a time", words("sum"), {"t.idl": SUM}, OneAtATime(SUM_OCTETS), SUM_LINES),
    Case("explain: after a label", words("sum", "label"), {"t.idl": SUM}, octets("10000000") + SUM_OCTETS, SUM_LINES),
    explained("no parameters", interface("void f();"), "f", ""),
    explained("big endian", small("[in] long a"), "f", "00000102", "0 4 num a 258", order="big"),
    explained("a boolean of another octet than 1", small("[in] boolean b"), "f", "FF", "0 1 num b 1"),
    explained("negative numbers", small("[in] small a", "[in] hyper h"), "f", "FF 00000000000000 FEFFFFFFFFFFFFFF",
              "0 1 num a -1", "1 7 gap", "8 8 num h -2"),
    explained("a null pointer", small("[in, unique] long *p"), "f", "00000000", "0 4 number p 0"),
    explained("another number of a pointer", small("[in, unique] long *p"), "f", "00000200 05000000",
              "0 4 number p 131072", "4 4 num @1 5"),
    explained("a reference pointer at the top", small("[in] long *p"), "f", "05000000", "0 4 num @1 5"),
    explained("a varying array's offset is in its paths", small("[in, first_is(a), length_is(b)] long x[8]", "[in] long a", "[in] long b"),
              "f", "03000000 02000000 07000000 08000000 03000000 02000000", "0 4 offset x 3", "4 4 actual x 2", "8 4 num x[3] 7",
              "12 4 num x[4] 8", "16 4 num a 3", "20 4 num b 2"),
    explained("a maximum count that is hoisted has the array's struct's path",
              interface("typedef struct { long n; [size_is(n)] short a[*]; } inner; typedef struct { byte t; inner i; } outer;", "void g([in] outer *p);"),
              "g", "01000000 09 000000 01000000 0500", "0 4 max @1 1", "4 1 num @1.t 9", "5 3 gap", "8 4 num @1.i.n 1", "12 2 num @1.i.a[0] 5"),
    explained("a full pointer's later turn has no lines", small("[in, ptr] long *a", "[in, ptr] long *b"), "f", "01000000 05000000 01000000",
              "0 4 number a 1", "4 4 num @1 5", "8 4 number b 1"),
    Case("explain: octets that are refused", words("sum"), {"t.idl": SUM}, SUM_OCTETS[:8] + octets("0300") + SUM_OCTETS[10:],
         notes=lines("refused: octets at 0: Disagrees wanted 3 found 2"), status=1),
    Case("explain: an octet follows the values", words("sum"), {"t.idl": SUM}, SUM_OCTETS + b"\0",
         notes=lines("refused: octets at 32: Trailing"), status=1),
    Case("explain: closed input", words("sum"), {"t.idl": SUM}, CLOSED, notes=lines("read fault"), status=3),
    Case("explain: a bad label", words("sum", "label"), {"t.idl": SUM}, octets("20000000") + SUM_OCTETS,
         notes=lines("refused: label: BadOrder"), status=1, left=SUM_OCTETS),
]
