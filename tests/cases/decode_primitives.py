"""Sides of operations: `out`, the eleven primitives, and operations that are not there."""

from case import Case, interface, lines, octets

NODE = "typedef struct node { long v; [ptr] struct node *next; } node;"


def decode(name, declarations, operation, side, order, given, out):
    """A side that is decoded."""
    return Case(f"side: {name}", ["decode", "t.idl", "-", operation, side, order], {"t.idl": interface(*declarations)}, octets(given), out)


def encode(name, declarations, operation, side, order, text, out):
    """A side that is encoded."""
    return Case(f"side: encode {name}", ["encode", "t.idl", "-", operation, side, order, "1"], {"t.idl": interface(*declarations)}, text, octets(out))


def refused(name, declarations, operation, side, line):
    """A side that is refused before the input is asked for."""
    return Case(f"side: {name}", ["encode", "t.idl", "-", operation, side, "little", "1"], {"t.idl": interface(*declarations)}, b"values 3",
                notes=lines(line), status=6)


ALL = "void f([in] boolean a, [in] char b, [in] byte c, [in] small d, [in] unsigned small e, [in] short g, [in] unsigned short h, [in] long i, " \
      "[in] unsigned long j, [in] hyper k, [in] unsigned hyper l);"
ALL_OCTETS = "01 41 FF FF FF AA FFFF FFFF AAAA FFFFFFFF FFFFFFFF AAAAAAAA FFFFFFFFFFFFFFFF FFFFFFFFFFFFFFFF"
ALL_TEXT = lines("values 2", "op f in", "a = 1", "b = 65", "c = 255", "d = -1", "e = 255", "g = -1", "h = 65535", "i = -1", "j = 4294967295", "k = -1",
                 "l = 18446744073709551615")

CASES = [
    decode("a result", ["unsigned hyper top();"], "top", "out", "big", "FFFFFFFFFFFFFFFF",
           lines("values 2", "op top out", "return = 18446744073709551615")),
    encode("a result", ["unsigned hyper top();"], "top", "out", "big", lines("values 1", "op top out", "return = 18446744073709551615"),
           "FFFFFFFFFFFFFFFF"),
    decode("no result", ["void f([in] long x);"], "f", "out", "little", "", lines("values 2", "op f out")),
    decode("each primitive", [ALL], "f", "in", "little", ALL_OCTETS, ALL_TEXT),
    decode("any octet is true", ["void f([in] boolean b);"], "f", "in", "little", "FF", lines("values 2", "op f in", "b = 1")),
    encode("a boolean", ["void f([in] boolean b);"], "f", "in", "little", lines("values 1", "op f in", "b = 1"), "01"),
    decode("a handle takes no octets", ["void f([in] handle_t h, [in] small x);"], "f", "in", "little", "05", lines("values 2", "op f in", "x = 5")),
    decode("a typedef of a primitive", ["typedef long n;", "n f([in] n x);"], "f", "in", "little", "05000000", lines("values 2", "op f in", "x = 5")),
    decode("other types in the file", [NODE, "void f([in] small x);"], "f", "in", "little", "05", lines("values 2", "op f in", "x = 5")),
    decode("one side is of primitives, the other is not", ["void f([in] small x, [out] long *y);"], "f", "in", "little", "05", lines("values 2", "op f in", "x = 5")),
    encode("the other side", ["void f([in] small x, [out] long *y);"], "f", "out", "little", lines("values 1", "op f out", "y = @1", "@1 = 7"), "07000000"),
    encode("an enumerated result", ["typedef enum { A, B } kind;", "kind f();"], "f", "out", "big", lines("values 1", "op f out", "return = 1"), "0001"),
    refused("an operation that is not there comes first", [NODE, "void f([in, ptr] node *p);"], "g", "in", "idl t.idl: NoOperation g"),
    Case("side: another word", ["decode", "t.idl", "-", "f", "inout", "little"], {"t.idl": interface("void f();")}, notes=lines("words refused"), status=2),
]
