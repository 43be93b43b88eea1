"""Decoding of every form of type, on both sides, with a request and without one. The octets and the texts were made from C706 and the pages of docs/."""

from case import Case, OneAtATime, interface, lines, octets

RING = interface("typedef struct node { long v; [ptr] struct node *next; } node;", "void ring([in, ptr] node *p);")
TURNS = interface(
    "typedef struct { long v; } leaf;",
    "typedef struct { [ptr] leaf *y; [ptr] leaf *z; } x;",
    "typedef struct { [ptr] x *a; [ptr] leaf *b; } pair;",
    "void h([in] pair *p);",
)
TWO = interface("void two([in, unique] long *a, [in, unique] long *b);")
OTHER = interface("void f([in, ptr] long *a, [in, ptr] short *b);")
SUM = interface("typedef struct { short n; [size_is(n)] hyper a[*]; } s;", "void sum([in] s *p);")
HOISTED = interface(
    "typedef struct { long n; [size_is(n)] short a[*]; } inner;",
    "typedef struct { byte t; inner i; } outer;",
    "void g([in] outer *p);",
)
SAY = interface("void say([in, string] char *s);")
PICK = interface("typedef union switch (short k) { case 1: long a; default: hyper h; } u;", "void pick([in] u *p);")
PICK_ONE = interface("typedef union switch (short k) { case 1: long a; } u;", "void pick([in] u *p);")
FEED = interface("typedef pipe long lp;", "void feed([in] lp d);")
USE = interface("typedef [context_handle] void *ctx;", "void use([in] ctx c);")
SIZED = interface("void w([in, size_is(n)] byte a[*], [in] unsigned long n);")
VARYING = interface("void v([in, size_is(n), length_is(m)] byte a[*], [in] long n, [in] long m);")
KINDS = interface("typedef enum { A, B = 4 } kind;", "void e([in] kind k);")
GRID = interface("typedef struct { byte t; short m[2][2]; } q;", "void fx([in] q *p);")
CHOICE = interface(
    "typedef [switch_type(short)] union { [case(1)] long a; [default] ; } nu;",
    "void nn([in] short k, [in, switch_is(k)] nu u);",
)
PART = interface("typedef struct { long n; [length_is(n)] short a[4]; } vs;", "void va([in] vs *p);")
BLOB = interface("void blob([in] unsigned long n, [in, size_is(n)] byte d[*]);")

SUM_OCTETS = octets("02000000 00000000 0200 000000000000 0100000000000000 0200000000000000")
RING_OCTETS = octets("01000000 07000000 02000000 08000000 01000000")
TURNS_OCTETS = octets("02000000 03000000 03000000 04000000 05000000 06000000")
FEED_OCTETS = octets("02000000 01000000 02000000 01000000 03000000 00000000")
ID = "00112233-4455-6677-8899-aabbccddeeff"


def words(operation, side="in", order="little", request=None):
    """The words of a decoding; with a request they name its file."""
    given = [] if request is None else ["given", "request.text"]
    return ["decode", "t.idl", "-", operation, side, order, *given]


def files(file, request):
    """The files of a case; the text of a request is one of them."""
    return {"t.idl": file} if request is None else {"t.idl": file, "request.text": request}


def decoded(name, file, operation, input, *values, side="in", order="little", request=None):
    """A case that decodes an operation of the file, and prints its values."""
    return Case(f"decode values: {name}", words(operation, side, order, request), files(file, request), input,
                lines("values 2", f"op {operation} {side}", *values))


def refused(name, file, operation, input, place, reason, side="in", request=None):
    """A case that decodes an operation of the file, and is refused."""
    return Case(f"decode values: {name}", words(operation, side, "little", request), files(file, request), input,
                notes=lines(f"refused: octets at {place}: {reason}"), status=1)


FIXED = [
    decoded("a struct with a fixed array of two dimensions", GRID, "fx", octets("01 00 0100 0200 0300 0400"),
            "p = @1", "@1 = {t = 1, m = [[1, 2], [3, 4]]}"),
    refused("a struct cut after 5 octets", GRID, "fx", octets("01 00 0100 02"), 5, "Truncated"),
    decoded("an enumerated type", KINDS, "e", octets("0400"), "k = 4"),
    refused("a value of no enumerator", KINDS, "e", octets("0100"), 0, "EnumValue"),
    decoded("any octet but zero is TRUE", interface("void f([in] boolean b);"), "f", octets("FF"), "b = 1"),
    decoded("a union by its default arm", PICK, "pick", octets("0900 000000000000 0100000000000000"), "p = @1", "@1 = 9:1"),
    refused("a tag that selects no arm", PICK_ONE, "pick", octets("0400"), 0, "NoArm"),
]

COUNTED = [
    decoded("a conformant array at the end of a struct", SUM, "sum", SUM_OCTETS, "p = @1", "@1 = {n = 2, a = [1, 2]}"),
    refused("a maximum count that differs from its variable", SUM, "sum",
            octets("02000000 00000000 0300 000000000000 0100000000000000 0200000000000000"), 0, "Disagrees wanted 3 found 2"),
    refused("a maximum count of FFFFFFFF with few octets after it", SUM, "sum", octets("FFFFFFFF") + SUM_OCTETS[4:], 32, "Truncated"),
    decoded("a maximum count before two structs", HOISTED, "g", octets("01000000 09 000000 01000000 0500"),
            "p = @1", "@1 = {t = 9, i = {n = 1, a = [5]}}"),
    decoded("a varying array", PART, "va", octets("02000000 00000000 02000000 0500 0600"), "p = @1", "@1 = {n = 2, a = 0:[5, 6]}"),
    refused("an actual count past the bound", PART, "va", octets("02000000 00000000 05000000 0500 0600"), 8, "PastBound"),
    refused("an actual count that differs from its variable", PART, "va", octets("03000000 00000000 02000000 0500 0600"), 8,
            "Disagrees wanted 3 found 2"),
    refused("a claimed maximum of FFFFFFFF", SIZED, "w", octets("FFFFFFFF 010203"), 7, "Truncated"),
    refused("an offset and an actual count past the maximum", VARYING, "v", octets("05000000 FFFFFFFF 01000000"), 8, "PastBound"),
]

TEXTS = [
    decoded("a string", SAY, "say", octets("03000000 00000000 03000000 686900"), "s = @1", '@1 = 3:"hi"'),
    refused("a string without its zero", SAY, "say", octets("03000000 00000000 02000000 6869"), 13, "TextUnended"),
    refused("a string of no elements", SAY, "say", octets("03000000 00000000 00000000"), 8, "TextEmpty"),
    refused("a string with an offset", SAY, "say", octets("03000000 01000000"), 4, "TextOffset"),
    refused("a string with a zero in it", SAY, "say", octets("03000000 00000000 03000000 680000"), 13, "TextZero"),
    refused("a string past the stream limit", SAY, "say", octets("FFFFFFFF 00000000 FFFFFFFF 6869"), 67108864, "TooLong"),
    refused("a string one octet past the stream limit, with all its octets", SAY, "say", octets("F5FFFF03 00000000 F5FFFF03") + b"a" * 67_108_852 + b"\0", 67108864, "TooLong"),
    refused("a string past its maximum count", SAY, "say", octets("01000000 00000000 FFFFFFFF"), 8, "PastBound"),
]

POINTERS = [
    decoded("a node that points to itself", RING, "ring", octets("01000000 07000000 01000000"), "p = @1", "@1 = {v = 7, next = @1}"),
    decoded("a ring of two", RING, "ring", RING_OCTETS, "p = @1", "@1 = {v = 7, next = @2}", "@2 = {v = 8, next = @1}"),
    decoded("a ring of two with other numbers", RING, "ring", octets("FEFFFFFF 07000000 00000200 08000000 FEFFFFFF"),
            "p = @1", "@1 = {v = 7, next = @2}", "@2 = {v = 8, next = @1}"),
    decoded("a ring of two, each octet by itself", RING, "ring", OneAtATime(RING_OCTETS),
            "p = @1", "@1 = {v = 7, next = @2}", "@2 = {v = 8, next = @1}"),
    decoded("a chain of two", RING, "ring", octets("01000000 07000000 02000000 08000000 00000000"),
            "p = @1", "@1 = {v = 7, next = @2}", "@2 = {v = 8, next = null}"),
    decoded("the referent is at the first turn", TURNS, "h", TURNS_OCTETS,
            "p = @1", "@1 = {a = @2, b = @3}", "@2 = {y = @3, z = @4}", "@3 = {v = 5}", "@4 = {v = 6}"),
    decoded("a null pointer among them", TURNS, "h", octets("02000000 03000000 00000000 04000000 05000000 06000000"),
            "p = @1", "@1 = {a = @2, b = @3}", "@2 = {y = null, z = @4}", "@3 = {v = 6}", "@4 = {v = 5}"),
    decoded("unique pointers are not shared", TWO, "two", octets("01000000 05000000 01000000 05000000"),
            "a = @1", "b = @2", "@1 = 5", "@2 = 5"),
    refused("one number of two types", OTHER, "f", octets("01000000 05000000 01000000"), 8, "OtherType"),
    refused("an octet after a null pointer", RING, "ring", octets("00000000 07000000"), 4, "Trailing"),
    refused("an octet after a ring", RING, "ring", RING_OCTETS + octets("FF"), 20, "Trailing"),
    refused("a ring of 10 octets", RING, "ring", RING_OCTETS[:10], 10, "Truncated"),
] + [
    refused(f"a ring cut after {n}", RING, "ring", RING_OCTETS[:n], n, "Truncated") for n in range(20) if n != 10
]

UNIONS = [
    decoded("a union with its tag in a parameter", CHOICE, "nn", octets("0100 0100 05000000"), "k = 1", "u = 1:5"),
    refused("a tag that differs from its parameter", CHOICE, "nn", octets("0100 0200"), 2, "Disagrees wanted 1 found 2"),
    refused("no tag", CHOICE, "nn", octets("0100"), 2, "Truncated"),
]

HANDLES = [
    decoded("a null context handle", USE, "use", bytes(20), "c = ctx(0, 00000000-0000-0000-0000-000000000000)"),
    decoded("a context handle in little order", USE, "use", octets("00000000 33221100 5544 7766 8899aabbccddeeff"), f"c = ctx(0, {ID})"),
    decoded("a context handle in big order", USE, "use", octets("00000000 00112233 4455 6677 8899aabbccddeeff"), f"c = ctx(0, {ID})", order="big"),
]

PIPES = [
    decoded("a pipe of two chunks", FEED, "feed", FEED_OCTETS, "d = [1, 2, 3]"),
    decoded("an empty pipe", FEED, "feed", bytes(4), "d = []"),
    refused("a pipe without its end", FEED, "feed", FEED_OCTETS[:-4], 20, "Truncated"),
    refused("a chunk of more elements than come", FEED, "feed", FEED_OCTETS[:12] + octets("05000000 03000000"), 20, "Truncated"),
]

ADD = interface("void add([in] long a, [in] short b, [in] hyper c);")
ADD_OCTETS = octets("01000000 0200 AAFF 0300000000000000")

ORDERS = [
    decoded("big order with other gap octets", ADD, "add", octets("00000001 0002 AAAA 0000000000000003"), "a = 1", "b = 2", "c = 3", order="big"),
    decoded("each octet by itself", ADD, "add", OneAtATime(ADD_OCTETS), "a = 1", "b = 2", "c = 3"),
    refused("cut in a gap", ADD, "add", ADD_OCTETS[:7], 7, "Truncated"),
    refused("cut in a value", ADD, "add", ADD_OCTETS[:9], 9, "Truncated"),
]

# ----------------------------------------------------------------------------------------------------------------------
# With a request

ANSWER = interface("void r([in] unsigned long n, [out, size_is(n)] byte a[*]);")
ANSWER_OCTETS = octets("02000000 abcd")
OWN = interface("void s2([in, out] unsigned long *n, [out, size_is(*n)] byte a[*]);")
SHORT_REQUEST = "values 1 op r in n = 2"


def request(*values, version=1, operation="r", side="in"):
    """The text of a request."""
    return lines(f"values {version}", f"op {operation} {side}", *values)


def request_refused(name, text, notes, status=1, file=ANSWER, input=ANSWER_OCTETS):
    """A case whose request is refused, before the octets are read."""
    given = {"t.idl": file} if text is None else files(file, text)
    return Case(f"decode given: {name}", words("r", "out", request=b""), given, input, notes=lines(notes), status=status)


GIVEN = [
    decoded("a response without a request", ANSWER, "r", ANSWER_OCTETS, 'a = x"abcd"', side="out"),
    decoded("a response with its request", ANSWER, "r", ANSWER_OCTETS, 'a = x"abcd"', side="out", request=request("n = 2")),
    decoded("a request of version 2", ANSWER, "r", ANSWER_OCTETS, 'a = x"abcd"', side="out", request=request("n = 2", version=2)),
    refused("a response that differs from its request", ANSWER, "r", ANSWER_OCTETS, 0, "Disagrees wanted 3 found 2", side="out", request=request("n = 3")),
    decoded("a variable that travels in the response", OWN, "s2", octets("01000000 01000000 07"), "n = @1", 'a = x"07"', "@1 = 1",
            side="out", request=request("n = @1", "@1 = 5", operation="s2")),
    request_refused("a request of the other side", request("n = 2", side="out"), "refused: given: text 2:6: OtherName"),
    request_refused("a request of another operation", request("n = 2", operation="s"), "refused: given: text 2:4: OtherName"),
    request_refused("a request that is no text", b"", "refused: given: text 1:1: Expected"),
    request_refused("a value past its range", request("n = 4294967296"), "refused: given: value at n: Range"),
    request_refused("a request of 1,048,577 octets", SHORT_REQUEST.encode() + b" " * (1_048_577 - len(SHORT_REQUEST)), "refused: given: text 1:1: TooLong"),
    decoded("a request of 1,048,576 octets", ANSWER, "r", ANSWER_OCTETS, 'a = x"abcd"', side="out",
            request=SHORT_REQUEST.encode() + b" " * (1_048_576 - len(SHORT_REQUEST))),
    request_refused("a request that does not exist", None, "absent: request.text", status=7),
    request_refused("the request comes before the octets", request("n ="), "refused: given: text 4:1: Expected", input=b""),
    Case("decode given: a request with inputs", ["decode", "t.idl", "-", "r", "in", "little", "given", "request.text"],
         files(ANSWER, request("n = 2")), octets("02000000"), notes=lines("words refused"), status=2),
    Case("decode given: no file", ["decode", "t.idl", "-", "r", "out", "little", "given"],
         files(ANSWER, request("n = 2")), ANSWER_OCTETS, notes=lines("words refused"), status=2),
    Case("decode given: another word", ["decode", "t.idl", "-", "r", "out", "little", "beside", "request.text"],
         files(ANSWER, request("n = 2")), ANSWER_OCTETS, notes=lines("words refused"), status=2),
    Case("decode given: an unknown operation comes before the request", ["decode", "t.idl", "-", "q", "out", "little", "given", "none.text"],
         files(ANSWER, None), ANSWER_OCTETS, notes=lines("idl t.idl: NoOperation q"), status=6),
]

CASES = FIXED + COUNTED + TEXTS + POINTERS + UNIONS + HANDLES + PIPES + ORDERS + GIVEN
