"""Decoding of plain integers in either order."""

from case import CLOSED, Case, OneAtATime, interface, lines, octets

ADD = interface("void add([in] long a, [in] short b, [in] hyper c);")
ADD_TEXT = lines("values 2", "op add in", "a = 1", "b = 2", "c = 3")
ADD_LITTLE = octets("01000000 0200 0000 0300000000000000")
ADD_BIG = octets("00000001 0002 0000 0000000000000003")


def decode(name, file, operation, input, order, **wanted):
    """A case that decodes an operation of the file."""
    words = ["decode", "t.idl", "-", operation, "in", order]
    return Case(f"decode, both orders: {name}", words, {"t.idl": file}, input, **wanted)


def both(type, name, value, big):
    """One value, decoded in both orders; `big` is its octets in big order."""
    file, text = interface(f"void f([in] {type} x);"), lines("values 2", "op f in", f"x = {value}")
    big, little = octets(big), octets(big)[::-1]
    return [
        decode(f"{type}, {name}, big", file, "f", big, "big", out=text),
        decode(f"{type}, {name}, little", file, "f", little, "little", out=text),
    ]


VALUES = [
    decode("three integers, little", ADD, "add", ADD_LITTLE, "little", out=ADD_TEXT),
    decode("three integers, big", ADD, "add", ADD_BIG, "big", out=ADD_TEXT),
    decode("gap octets have any values, big", ADD, "add", octets("00000001 0002 AAAA 0000000000000003"), "big", out=ADD_TEXT),
    *both("small", "least", -128, "80"),
    *both("small", "greatest", 127, "7F"),
    *both("small", "minus one", -1, "FF"),
    *both("short", "least", -32768, "8000"),
    *both("short", "greatest", 32767, "7FFF"),
    *both("short", "different octets", 258, "0102"),
    *both("long", "least", -2147483648, "80000000"),
    *both("long", "greatest", 2147483647, "7FFFFFFF"),
    *both("long", "different octets", 16909060, "01020304"),
    *both("hyper", "least", -9223372036854775808, "8000000000000000"),
    *both("hyper", "greatest", 9223372036854775807, "7FFFFFFFFFFFFFFF"),
    *both("hyper", "different octets", 72623859790382856, "0102030405060708"),
]

OCTETS = [
    decode("cut after 9, big", ADD, "add", ADD_BIG[:9], "big", notes=lines("refused: octets at 9: Truncated"), status=1),
    decode("cut inside the gap, big", ADD, "add", ADD_BIG[:7], "big", notes=lines("refused: octets at 7: Truncated"), status=1),
    decode("an octet too many, big", ADD, "add", ADD_BIG + b"\0", "big", notes=lines("refused: octets at 16: Trailing"), status=1),
    decode("each octet by itself, big", ADD, "add", OneAtATime(ADD_BIG), "big", out=ADD_TEXT),
    decode("closed input, big", ADD, "add", CLOSED, "big", notes=lines("read fault"), status=3),
]

CASES = VALUES + OCTETS
