"""The format label (C706, section 14.1) before octets: the order `label`."""

from case import CLOSED, Case, OneAtATime, interface, lines, octets

ADD = interface("void add([in] long a, [in] short b, [in] hyper c);", "void ping();")
VALUES = lines("values 2", "op add in", "a = 1", "b = 2", "c = 3")
LITTLE = octets("01000000 0200 0000 0300000000000000")
BIG = octets("00000001 0002 0000 0000000000000003")


def words(command, *more, op="add", order="label"):
    """The words of a command on the inputs of an operation."""
    return [command, "t.idl", "-", op, "in", order, *more]


def decoded(name, label, values=LITTLE):
    """A label, octets of the values 1, 2 and 3 after it, and their text."""
    return Case(f"label: {name}", words("decode"), {"t.idl": ADD}, octets(label) + values, VALUES)


def refused(name, label, why, left=LITTLE, values=LITTLE):
    """A label that is refused; nothing is taken after it."""
    return Case(f"label: {name}", words("decode"), {"t.idl": ADD}, octets(label) + values,
                notes=lines(f"refused: label: {why}"), status=1, left=left)


CASES = [
    decoded("little endian", "10000000"),
    decoded("big endian", "00000000", BIG),
    decoded("octets 1 to 3 are passed over", "10FFFFFF"),
    decoded("IBM floating-point numbers", "10030000"),
    refused("EBCDIC", "11000000", "Ebcdic"),
    refused("EBCDIC, big endian", "01000000", "Ebcdic"),
    refused("no order", "20000000", "BadOrder"),
    refused("no order, whatever the character set", "F1000000", "BadOrder"),
    refused("no character set", "12000000", "BadCharset"),
    refused("the last character set", "0F000000", "BadCharset"),
    refused("two octets", "1000", "Truncated", b"", b""),
    refused("three octets", "100000", "Truncated", b"", b""),
    refused("two octets, of which the first is refused", "2000", "Truncated", b"", b""),
    refused("no octet", "", "Truncated", b"", b""),
    Case("label: one octet at a time", words("decode"), {"t.idl": ADD}, OneAtATime(octets("10000000") + LITTLE), VALUES),
    Case("label: places are counted after it", words("decode"), {"t.idl": ADD}, octets("10000000") + LITTLE[:9],
         notes=lines("refused: octets at 9: Truncated"), status=1),
    Case("label: alignment is counted after it", words("decode", op="f"), {"t.idl": interface("void f([in] hyper h, [in] small s);")},
         octets("10000000 0100000000000000 07"), lines("values 2", "op f in", "h = 1", "s = 7")),
    Case("label: an octet follows the values", words("decode"), {"t.idl": ADD}, octets("10000000") + LITTLE + b"\0",
         notes=lines("refused: octets at 16: Trailing"), status=1),
    Case("label: an operation without parameters", words("decode", op="ping"), {"t.idl": ADD}, octets("10000000"),
         lines("values 2", "op ping in")),
    Case("label: and an octet more", words("decode", op="ping"), {"t.idl": ADD}, octets("10000000 00"),
         notes=lines("refused: octets at 0: Trailing"), status=1),
    Case("label: closed input", words("decode"), {"t.idl": ADD}, CLOSED, notes=lines("read fault"), status=3),
    Case("label: unknown operation before a bad label", words("decode", op="g"), {"t.idl": ADD}, octets("20000000"),
         notes=lines("idl t.idl: NoOperation g"), status=6, left=octets("20000000")),
    Case("label: encode", words("encode", "1"), {"t.idl": ADD}, VALUES, octets("10000000") + LITTLE),
    Case("label: encode an operation without parameters", words("encode", "1", op="ping"), {"t.idl": ADD},
         lines("values 2", "op ping in"), octets("10000000")),
    Case("label: encode values that do not conform", words("encode", "1"), {"t.idl": ADD},
         lines("values 2", "op add in", "a = 1", "b = 40000", "c = 3"), notes=lines("refused: value at b: Range"), status=1),
]
