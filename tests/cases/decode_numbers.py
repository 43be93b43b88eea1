"""Decoding of plain integers in little order: values, gaps, and octets that are too few or too many."""

from case import ENDLESS, Case, OneAtATime, Sparse, example, interface, lines, octets

ADD = interface("void add([in] long a, [in] short b, [in] hyper c);")
ADD_OCTETS = octets("01000000 0200 0000 0300000000000000")
ADD_TEXT = lines("values 2", "op add in", "a = 1", "b = 2", "c = 3")
PING = interface("void ping();")
ONE_OF_EACH = interface("void each([in] small a, [in] short b, [in] long c, [in] hyper d);")


def decode(name, file, operation, input, *values, **wanted):
    """A case that decodes an operation of the file; with values it is accepted, and prints them."""
    if values:
        wanted["out"] = lines("values 2", f"op {operation} in", *values)
    words = ["decode", "t.idl", "-", operation, "in", "little"]
    return Case(f"decode: {name}", words, {"t.idl": file}, input, **wanted)


def refused(name, file, operation, input, place, reason):
    """A case that decodes an operation of the file, and is refused."""
    return decode(name, file, operation, input, status=1, notes=lines(f"refused: octets at {place}: {reason}"))


def one(type, name, input, value):
    """A case with one parameter."""
    return decode(f"{type}: {name}", interface(f"void f([in] {type} x);"), "f", octets(input), f"x = {value}")


VALUES = [
    Case("decode: the example of the README", ["decode", "add.idl", "-", "add", "in", "little"],
         {"add.idl": example("add.idl")}, example("add-1-2-3.octets"), ADD_TEXT),
    decode("three integers with a gap", ADD, "add", ADD_OCTETS, "a = 1", "b = 2", "c = 3"),
    decode("gap octets have any values", ADD, "add", octets("01000000 0200 AAFF 0300000000000000"), "a = 1", "b = 2", "c = 3"),
    decode("each octet by itself", ADD, "add", OneAtATime(ADD_OCTETS), "a = 1", "b = 2", "c = 3"),
    Case("decode: no parameters", ["decode", "t.idl", "-", "ping", "in", "little"], {"t.idl": PING}, b"",
         lines("values 2", "op ping in")),
    one("small", "zero", "00", 0),
    one("small", "least", "80", -128),
    one("small", "greatest", "7F", 127),
    one("small", "minus one", "FF", -1),
    one("short", "least", "0080", -32768),
    one("short", "greatest", "FF7F", 32767),
    one("short", "minus one", "FFFF", -1),
    one("short", "octets in little order", "0102", 513),
    one("long", "least", "00000080", -2147483648),
    one("long", "greatest", "FFFFFF7F", 2147483647),
    one("long", "minus one", "FFFFFFFF", -1),
    one("long", "octets in little order", "01020304", 67305985),
    one("hyper", "least", "0000000000000080", -9223372036854775808),
    one("hyper", "greatest", "FFFFFFFFFFFFFF7F", 9223372036854775807),
    one("hyper", "minus one", "FFFFFFFFFFFFFFFF", -1),
    one("hyper", "octets in little order", "0102030405060708", 578437695752307201),
    decode("each type, all gaps", ONE_OF_EACH, "each", octets("01 EE 0200 03000000 0400000000000000"),
           "a = 1", "b = 2", "c = 3", "d = 4"),
    decode("the longest gap", interface("void f([in] small a, [in] hyper b, [in] small c);"), "f",
           octets("FE EEEEEEEEEEEEEE FDFFFFFFFFFFFFFF FC"), "a = -2", "b = -3", "c = -4"),
    decode("no gap after the last value", interface("void f([in] hyper a, [in] small b, [in] short c, [in] small d);"), "f",
           octets("0100000000000000 02 EE 0300 04"), "a = 1", "b = 2", "c = 3", "d = 4"),
    decode("gaps count from the beginning", interface("void f([in] small a, [in] small b, [in] short c, [in] long d);"), "f",
           octets("01 02 0300 04000000"), "a = 1", "b = 2", "c = 3", "d = 4"),
    decode("256 parameters", interface("void f(" + ", ".join(f"[in] hyper p{n}" for n in range(256)) + ");"), "f",
           b"".join(n.to_bytes(8, "little") for n in range(256)), *(f"p{n} = {n}" for n in range(256))),
    decode("the operation that was asked for", interface("void f([in] small a);", "void g([in] short b);", "void h([in] long c);"),
           "g", octets("0500"), "b = 5"),
    decode("the last of 1,024 operations", interface(*(f"void f{n}([in] small x);" for n in range(1024))), "f1023",
           octets("07"), "x = 7"),
]

TOO_FEW = [
    refused(f"cut after {n}", ADD, "add", ADD_OCTETS[:n], n, "Truncated") for n in range(16)
] + [
    refused("cut after 9, each octet by itself", ADD, "add", OneAtATime(ADD_OCTETS[:9]), 9, "Truncated"),
    refused("no octets for a small", interface("void f([in] small x);"), "f", b"", 0, "Truncated"),
    refused("cut in the longest gap", interface("void f([in] small a, [in] hyper b);"), "f", octets("01 EEEEEE"), 4, "Truncated"),
]

TOO_MANY = [
    refused("an octet after no parameters", PING, "ping", octets("00"), 0, "Trailing"),
    refused("an octet after three integers", ADD, "add", ADD_OCTETS + octets("00"), 16, "Trailing"),
    refused("many octets after three integers", ADD, "add", ADD_OCTETS * 5, 16, "Trailing"),
    refused("an octet after three integers, each by itself", ADD, "add", OneAtATime(ADD_OCTETS + octets("EE")), 16, "Trailing"),
    refused("an octet where a gap would be", interface("void f([in] hyper a, [in] small b);"), "f",
            octets("0100000000000000 02 EE"), 9, "Trailing"),
    refused("an input as long as the stream limit", ADD, "add", Sparse(67_108_864), 16, "Trailing"),
    refused("an input past the stream limit", ADD, "add", Sparse(67_108_865), 16, "Trailing"),
    refused("an input without an end", ADD, "add", ENDLESS, 16, "Trailing"),
]

CASES = VALUES + TOO_FEW + TOO_MANY
