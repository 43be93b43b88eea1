"""The command `explain`: every kind of item, on every form of type and on both sides, and responses with their requests."""

from case import Case, Folder, interface, lines, octets

LONGS = "typedef pipe long lp;"


def explained(name, text, op, given, *shown, order="little", side="in", more=(), files=None):
    """Octets of a side of an operation, and the lines of their items."""
    return Case(f"explain: {name}", ["explain", "t.idl", "-", op, side, order, *more], {"t.idl": text, **(files or {})}, octets(given), lines(*shown), left=b"")


def refused(name, text, op, given, why, *, order="little", side="in", left=""):
    """The same, where no line is written."""
    return Case(f"explain: {name}", ["explain", "t.idl", "-", op, side, order], {"t.idl": text}, octets(given),
                notes=lines("refused: " + why), status=1, left=octets(left))


EVERY = interface(
    "typedef [context_handle] void *ctx; typedef union switch (short k) { case 1: long a; case 2: ; default: hyper h; } u; typedef pipe short sp;",
    "void every([in] byte b, [in] ctx c, [in, unique] long *p, [in, size_is(n), first_is(f), length_is(l)] short x[*], [in] long n, [in] long f, [in] long l,",
    " [in] u w, [in, string] char *s, [in] sp d);")
EVERY_OCTETS = (
    "07 000000 05000000 33221100 5544 7766 8899AABBCCDDEEFF 09000000 04000000 05000000 01000000 02000000 0600 0700 05000000 01000000 02000000"
    " 0100 0000 08000000 03000000 00000000 03000000 686900 00 02000000 0900 0A00 00000000")
EVERY_LINES = (
    "0 1 num b 7", "1 3 gap", "4 20 context c ctx(5, 00112233-4455-6677-8899-aabbccddeeff)", "24 4 number p 9", "28 4 num @1 4",
    "32 4 max x 5", "36 4 offset x 1", "40 4 actual x 2", "44 2 num x[1] 6", "46 2 num x[2] 7", "48 4 num n 5", "52 4 num f 1", "56 4 num l 2",
    "60 2 tag w 1", "62 2 gap", "64 4 num w.a 8", "68 4 max @2 3", "72 4 offset @2 0", "76 4 actual @2 3", '80 3 text @2 "hi"', "83 1 gap",
    "84 4 chunk d 2", "88 2 num d[0] 9", "90 2 num d[1] 10", "92 4 chunk d 0")
UNION = interface("typedef union switch (short k) { case 1: long a; case 2: ; default: hyper h; } u;", "void pick([in] u *p);")
CONTEXT = interface("typedef [context_handle] void *ctx;", "void use([in] ctx c);")
KIND = interface("typedef enum { A, B = 4 } kind;", "void e([in] kind k);")
ARRAYS = interface("typedef struct { byte t; short m[2][2]; } q;", "void fx([in] q *p);")
STRINGS = interface("typedef struct { [string] char c[8]; [string] byte b[4]; } s;", "void say([in] s *p);")
LINKS = interface("typedef struct node { long v; [ptr] struct node *next; } node;", "void ring([in, ptr] node *p);")
POINTERS = interface("typedef [unique] short *up; typedef struct { up a[3]; } h;", "void f([in] h *p);")
SIDES = interface(LONGS, "long g([in] long n, [in, out] short *m, [out] lp d);")
STRUCTS = interface("typedef struct { byte b; hyper h; } e; typedef pipe e p;", "void f([in] p d);")
SIZED = interface("void r([in] unsigned long n, [out, size_is(n)] byte a[*]);")


CASES = [
    explained("every kind of item", EVERY, "every", EVERY_OCTETS, *EVERY_LINES),
    explained("an empty context handle", CONTEXT, "use", "00" * 20, "0 20 context c ctx(0, 00000000-0000-0000-0000-000000000000)"),
    explained("a context handle, big endian", CONTEXT, "use", "0000000A 00112233 4455 6677 8899AABBCCDDEEFF",
              "0 20 context c ctx(10, 00112233-4455-6677-8899-aabbccddeeff)", order="big"),
    explained("an arm", UNION, "pick", "0100 0000 05000000", "0 2 tag @1 1", "2 2 gap", "4 4 num @1.a 5"),
    explained("an arm without a type", UNION, "pick", "0200", "0 2 tag @1 2"),
    explained("a default arm", UNION, "pick", "0900 000000000000 0100000000000000", "0 2 tag @1 9", "2 6 gap", "8 8 num @1.h 1"),
    explained("an enumerated value", KIND, "e", "0400", "0 2 num k 4"),
    explained("an array of two dimensions", ARRAYS, "fx", "01 00 0100 0200 0300 0400", "0 1 num @1.t 1", "1 1 gap", "2 2 num @1.m[0][0] 1",
              "4 2 num @1.m[0][1] 2", "6 2 num @1.m[1][0] 3", "8 2 num @1.m[1][1] 4"),
    explained("strings of characters and bytes", STRINGS, "say", "00000000 03000000 686900 00 00000000 02000000 6100", "0 4 offset @1.c 0",
              "4 4 actual @1.c 3", '8 3 text @1.c "hi"', "11 1 gap", "12 4 offset @1.b 0", "16 4 actual @1.b 2", '20 2 text @1.b "a"'),
    explained("a string with a quotation mark and an octet past ASCII", STRINGS, "say", "00000000 04000000 225CFF00 00000000 01000000 00",
              "0 4 offset @1.c 0", "4 4 actual @1.c 4", '8 4 text @1.c "\\"\\\\\\xff"', "12 4 offset @1.b 0", "16 4 actual @1.b 1", '20 1 text @1.b ""'),
    explained("a ring", LINKS, "ring", "FEFFFFFF 07000000 00000200 08000000 FEFFFFFF", "0 4 number p 4294967294", "4 4 num @1.v 7",
              "8 4 number @1.next 131072", "12 4 num @2.v 8", "16 4 number @2.next 4294967294"),
    explained("pointers of an array", POINTERS, "f", "01000000 00000000 01000000 0500 0600", "0 4 number @1.a[0] 1", "4 4 number @1.a[1] 0",
              "8 4 number @1.a[2] 1", "12 2 num @2 5", "14 2 num @3 6"),
    explained("a response with a result and a pipe", SIDES, "g", "0500 0000 06000000 01000000 07000000 00000000", "0 2 num @1 5", "2 2 gap",
              "4 4 num return 6", "8 4 chunk d 1", "12 4 num d[0] 7", "16 4 chunk d 0", side="out"),
    explained("its request", SIDES, "g", "08000000 0900", "0 4 num n 8", "4 2 num @1 9"),
    explained("a pipe of structs with gaps", STRUCTS, "f",
              "02000000 00000000 07 00000000000000 0100000000000000 08 00000000000000 0200000000000000 00000000",
              "0 4 chunk d 2", "4 4 gap", "8 1 num d[0].b 7", "9 7 gap", "16 8 num d[0].h 1", "24 1 num d[1].b 8", "25 7 gap", "32 8 num d[1].h 2",
              "40 4 chunk d 0"),
    explained("an array without elements", interface("void f([in, size_is(n)] hyper a[*], [in] long n);"), "f", "00000000 00000000",
              "0 4 max a 0", "4 4 num n 0"),
    explained("a label of the other order", SIDES, "g", "00000000 00000008 0009", "0 4 num n 8", "4 2 num @1 9", order="label"),
    explained("with a request", SIZED, "r", "02000000 ABCD", "0 4 max a 2", "4 1 num a[0] 171", "5 1 num a[1] 205", side="out",
              more=("given", "request.txt"), files={"request.txt": lines("values 2", "op r in", "n = 2")}),
    Case("explain: with a request that it does not answer", ["explain", "t.idl", "-", "r", "out", "little", "given", "request.txt"],
         {"t.idl": SIZED, "request.txt": lines("values 2", "op r in", "n = 3")}, octets("02000000 ABCD"),
         notes=lines("refused: octets at 0: Disagrees wanted 3 found 2"), status=1, left=b""),
    Case("explain: with a request that is not there", ["explain", "t.idl", "-", "r", "out", "little", "given", "request.txt"],
         {"t.idl": SIZED}, octets("02000000 ABCD"), notes=lines("absent: request.txt"), status=7, left=octets("02000000 ABCD")),
    Case("explain: with a folder", ["explain", "t.idl", "-", "r", "out", "little", "given", "request.txt"],
         {"t.idl": SIZED, "request.txt": Folder()}, octets("02000000 ABCD"), notes=lines("file fault: request.txt"), status=9,
         left=octets("02000000 ABCD")),
    refused("cut", ARRAYS, "fx", "01 00 0100 02", "octets at 5: Truncated"),
    refused("no octet", KIND, "e", "", "octets at 0: Truncated"),
    refused("no enumerated value", KIND, "e", "0100 00", "octets at 0: EnumValue", left="00"),
    refused("an octet follows an enumerated value", KIND, "e", "0400 00 01", "octets at 2: Trailing", left="01"),
    refused("a string without an end", STRINGS, "say", "00000000 02000000 6868 0000", "octets at 9: TextUnended", left="0000"),
    refused("places are counted after a label", KIND, "e", "10000000 0400 00", "octets at 2: Trailing", order="label"),
]
