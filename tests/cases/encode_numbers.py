"""Encoding of plain integers in either order, and the value text of plain operations: what is read, and what is refused."""

from case import CLOSED, FOLDER, FULL, Case, OneAtATime, Sparse, example, interface, lines, octets

ADD = interface("void add([in] long a, [in] short b, [in] hyper c);")
ADD_TEXT = lines("values 1", "op add in", "a = 1", "b = 2", "c = 3")
ADD_LITTLE = octets("01000000 0200 0000 0300000000000000")
ADD_BIG = octets("00000001 0002 0000 0000000000000003")
PING = interface("void ping();")
PING_TEXT = lines("values 1", "op ping in")
TEXT_LIMIT = 536_870_912


def encode(name, file, operation, text, order="little", chunk="1", **wanted):
    """A case that encodes an operation of the file."""
    words = ["encode", "t.idl", "-", operation, "in", order, chunk]
    return Case(f"encode: {name}", words, {"t.idl": file}, text, **wanted)


def both(type, name, value, big):
    """One value, encoded in both orders; `big` is its octets in big order."""
    file, text = interface(f"void f([in] {type} x);"), lines("values 1", "op f in", f"x = {value}")
    big, little = octets(big), octets(big)[::-1]
    return [
        encode(f"{type}, {name}, big", file, "f", text, "big", out=big),
        encode(f"{type}, {name}, little", file, "f", text, "little", out=little),
    ]


def outside(type, name, value):
    """A value that its type does not have."""
    return encode(f"{type}, {name}", interface(f"void f([in] {type} x);"), "f", lines("values 1", "op f in", f"x = {value}"),
                  status=1, notes=lines("refused: value at x: Range"))


def no_text(name, text, place, reason, operation="add"):
    """A text that is refused at a line and column. `text` is the whole of it."""
    file = interface("void add([in] long a, [in] short b, [in] hyper c);", "void ping();")
    return encode(f"text: {name}", file, operation, text, status=1, notes=lines(f"refused: text {place}: {reason}"))


def no_line(name, line, place, reason):
    """A text whose third line, in the place of `a = 1`, is refused."""
    return no_text(name, lines("values 1", "op add in", line, "b = 2", "c = 3"), place, reason)


def a_text(name, text):
    """Another text of the values 1, 2 and 3."""
    return encode(f"text: {name}", ADD, "add", text, out=ADD_LITTLE)


def refused_words(name, *words):
    """Words that are no command."""
    return Case(f"words of encode: {name}", words, {"t.idl": ADD}, ADD_TEXT, notes=lines("words refused"), status=2)


def chunk(word):
    """The words of an encoding with another CHUNK."""
    return ["encode", "t.idl", "-", "add", "in", "little", word]


VALUES = [
    encode("three integers, little", ADD, "add", ADD_TEXT, out=ADD_LITTLE),
    encode("three integers, big", ADD, "add", ADD_TEXT, "big", out=ADD_BIG),
    Case("encode: the example of decoding", ["encode", "add.idl", "-", "add", "in", "little", "1"],
         {"add.idl": example("add.idl")}, ADD_TEXT, example("add-1-2-3.octets")),
    encode("no parameters", PING, "ping", PING_TEXT),
    encode("no parameters, full out: nothing has to be written", PING, "ping", PING_TEXT, out=FULL),
    encode("the longest gap is zeros", interface("void f([in] small a, [in] hyper b, [in] small c);"), "f",
           lines("values 1", "op f in", "a = -2", "b = -3", "c = -4"), out=octets("FE 00000000000000 FDFFFFFFFFFFFFFF FC")),
    encode("the longest gap is zeros, big", interface("void f([in] small a, [in] hyper b, [in] small c);"), "f",
           lines("values 1", "op f in", "a = -2", "b = -3", "c = -4"), "big", out=octets("FE 00000000000000 FFFFFFFFFFFFFFFD FC")),
    encode("256 parameters", interface("void f(" + ", ".join(f"[in] hyper p{n}" for n in range(256)) + ");"), "f",
           lines("values 1", "op f in", *(f"p{n} = {n}" for n in range(256))), "big",
           out=b"".join(n.to_bytes(8, "big") for n in range(256))),
    *both("small", "least", -128, "80"),
    *both("small", "greatest", 127, "7F"),
    *both("small", "minus one", -1, "FF"),
    *both("short", "least", -32768, "8000"),
    *both("short", "greatest", 32767, "7FFF"),
    *both("short", "different octets", 258, "0102"),
    *both("long", "least", -2147483648, "80000000"),
    *both("long", "greatest", 2147483647, "7FFFFFFF"),
    *both("long", "different octets", 16909060, "01020304"),
    *both("hyper", "least", -9223372036854775808, "8000000000000000"),
    *both("hyper", "greatest", 9223372036854775807, "7FFFFFFFFFFFFFFF"),
    *both("hyper", "different octets", 72623859790382856, "0102030405060708"),
]

RANGES = [
    outside("small", "one less than the least", -129),
    outside("small", "one more than the greatest", 128),
    outside("short", "one less than the least", -32769),
    outside("short", "one more than the greatest", 32768),
    outside("long", "one less than the least", -2147483649),
    outside("long", "one more than the greatest", 2147483648),
    outside("hyper", "one less than the least", -9223372036854775809),
    outside("hyper", "one more than the greatest", 9223372036854775808),
    outside("hyper", "20 digits", 99999999999999999999),
    outside("small", "20 digits and a sign", -99999999999999999999),
    encode("a short of 40000", ADD, "add", ADD_TEXT.replace(b"b = 2", b"b = 40000"),
           notes=lines("refused: value at b: Range"), status=1),
    encode("the first of two values that are too great", ADD, "add", lines("values 1", "op add in", "a = 1", "b = 32768", f"c = {2**63}"),
           notes=lines("refused: value at b: Range"), status=1),
    encode("a text's fault comes before an earlier value's", ADD, "add", lines("values 1", "op add in", "a = 1", "b = 40000", "c = x"),
           notes=lines("refused: text 5:5: Expected"), status=1),
]

TEXTS = [
    a_text("as it is printed", ADD_TEXT),
    a_text("on one line", b"values 1 op add in a = 1 b = 2 c = 3"),
    a_text("no spaces but those between words", b"values 1 op add in a=1 b=2 c=3"),
    a_text("a token a line", ADD_TEXT.replace(b" ", b"\n")),
    a_text("tabs and carriage returns", ADD_TEXT.replace(b" ", b"\t\t").replace(b"\n", b"\r\n")),
    a_text("separators before and after", b" \n\t\r" + ADD_TEXT + b" \n\t\r"),
    a_text("no last line feed", ADD_TEXT.rstrip(b"\n")),
    a_text("many separators", ADD_TEXT.replace(b"=", b"=" + b" " * 200_000)),
    encode("text: each octet by itself", ADD, "add", OneAtATime(ADD_TEXT), out=ADD_LITTLE),
    encode("text: negative numbers", ADD, "add", lines("values 1", "op add in", "a = -1", "b = -2", "c = -3"),
           out=octets("FFFFFFFF FEFF 0000 FDFFFFFFFFFFFFFF")),
    encode("text: zeros", ADD, "add", lines("values 1", "op add in", "a = 0", "b = 0", "c = 0"), out=bytes(16)),
    encode("text: words as names", interface("void values([in] small op, [in] small in, [in] small null);"), "values",
           lines("values 1", "op values in", "op = 1", "in = 2", "null = 3"), out=octets("01 02 03")),
]

HEADS = [
    no_text("empty", b"", "1:1", "Expected"),
    no_text("a line feed alone", b"\n", "2:1", "Expected"),
    no_text("spaces alone", b"   ", "1:4", "Expected"),
    no_text("another first word", b"value 1 op add in a = 1 b = 2 c = 3", "1:1", "Expected"),
    no_text("a first word in capitals", b"Values 1", "1:1", "Expected"),
    no_text("a number first", b"1 values", "1:1", "Expected"),
    no_text("no version", b"values op add in", "1:8", "Expected"),
    no_text("the text ends after its first word", b"values", "1:7", "Expected"),
    no_text("version 0", ADD_TEXT.replace(b"values 1", b"values 0"), "1:8", "Expected"),
    a_text("version 2", ADD_TEXT.replace(b"values 1", b"values 2")),
    no_text("version 3", ADD_TEXT.replace(b"values 1", b"values 3"), "1:8", "Expected"),
    no_text("version -1", ADD_TEXT.replace(b"values 1", b"values -1"), "1:8", "Expected"),
    no_text("version 01", ADD_TEXT.replace(b"values 1", b"values 01"), "1:8", "BadToken"),
    no_text("version one", ADD_TEXT.replace(b"values 1", b"values one"), "1:8", "Expected"),
    no_text("version 1 and letters", ADD_TEXT.replace(b"values 1", b"values 1op"), "1:8", "BadToken"),
    no_text("no op", lines("values 1", "add in"), "2:1", "Expected"),
    no_text("op in capitals", lines("values 1", "OP add in"), "2:1", "Expected"),
    no_text("another operation", lines("values 1", "op sub in"), "2:4", "OtherName"),
    no_text("another operation of the file", PING_TEXT, "2:4", "OtherName"),
    no_text("an operation in capitals", lines("values 1", "op Add in"), "2:4", "OtherName"),
    no_text("the beginning of the operation's name", lines("values 1", "op ad in"), "2:4", "OtherName"),
    no_text("a number for an operation", lines("values 1", "op 1 in"), "2:4", "Expected"),
    no_text("the side out", lines("values 1", "op add out"), "2:8", "OtherName"),
    no_text("a mark for a side", lines("values 1", "op add ="), "2:8", "Expected"),
    no_text("the text ends after the operation", b"values 1\nop add", "2:7", "Expected"),
]

ROOTS = [
    no_text("no roots", lines("values 1", "op add in"), "3:1", "Expected"),
    no_text("the last root is missing", lines("values 1", "op add in", "a = 1", "b = 2"), "5:1", "Expected"),
    no_text("the last root is missing, no line feed", b"values 1\nop add in\na = 1\nb = 2", "4:6", "Expected"),
    no_text("the first root is missing", lines("values 1", "op add in", "b = 2", "c = 3"), "3:1", "OtherName"),
    no_text("roots in another order", lines("values 1", "op add in", "b = 2", "a = 1", "c = 3"), "3:1", "OtherName"),
    no_text("a root twice", lines("values 1", "op add in", "a = 1", "a = 1", "b = 2", "c = 3"), "4:1", "OtherName"),
    no_text("a root too many", ADD_TEXT + b"d = 4\n", "6:1", "Expected"),
    no_text("a root of no parameters", PING_TEXT + b"a = 1\n", "3:1", "Expected", operation="ping"),
    no_text("a number after the roots", ADD_TEXT + b"4\n", "6:1", "Expected"),
    no_text("a mark after the roots", ADD_TEXT + b"}", "6:1", "Expected"),
    no_text("a second text after the first", ADD_TEXT * 2, "6:1", "Expected"),
    no_line("another name", "x = 1", "3:1", "OtherName"),
    no_line("a name in capitals", "A = 1", "3:1", "OtherName"),
    no_line("more than the name", "aa = 1", "3:1", "OtherName"),
    no_line("a name of 40 octets", "a" * 40 + " = 1", "3:1", "OtherName"),
    no_line("no name", "= 1", "3:1", "Expected"),
    no_line("a number for a name", "1 = 1", "3:1", "Expected"),
    no_line("a string for a name", '"a" = 1', "3:1", "Expected"),
    no_line("a name and no =", "a 1", "3:3", "Expected"),
    no_line("two =", "a == 1", "3:4", "Expected"),
    no_line("a colon for =", "a : 1", "3:3", "Expected"),
    no_line("no value", "a =", "4:1", "Expected"),
    no_line("two values", "a = 1 1", "3:7", "Expected"),
    no_line("a comma after a value", "a = 1,", "3:6", "Expected"),
    no_line("a semicolon after a value", "a = 1;", "3:6", "BadToken"),
]

NUMBERS = [
    no_line("a leading zero", "a = 01", "3:5", "BadToken"),
    no_line("two zeros", "a = 00", "3:5", "BadToken"),
    no_line("minus zero", "a = -0", "3:5", "BadToken"),
    no_line("a leading zero after a sign", "a = -01", "3:5", "BadToken"),
    no_line("a sign alone", "a = -", "3:5", "BadToken"),
    no_line("a sign and a space", "a = - 1", "3:5", "BadToken"),
    no_line("two signs", "a = --1", "3:5", "BadToken"),
    no_line("a plus sign", "a = +1", "3:5", "BadToken"),
    no_line("21 digits", "a = " + "1" * 21, "3:5", "BadToken"),
    no_line("21 digits after a sign", "a = -" + "1" * 21, "3:5", "BadToken"),
    no_line("hexadecimal digits", "a = 0x1", "3:5", "BadToken"),
    no_line("digits and a letter", "a = 1L", "3:5", "BadToken"),
    no_line("digits and _", "a = 1_000", "3:5", "BadToken"),
    no_line("a fraction", "a = 1.5", "3:6", "BadToken"),
    no_line("an exponent", "a = 1e3", "3:5", "BadToken"),
]

OTHER_VALUES = [
    no_line("a word for a number", "a = one", "3:5", "Expected"),
    no_line("null for a number", "a = null", "3:5", "Expected"),
    no_line("a cell for a number", "a = @1", "3:5", "Expected"),
    no_line("cell 0", "a = @0", "3:5", "BadToken"),
    no_line("a cell with a leading zero", "a = @01", "3:5", "BadToken"),
    no_line("the last cell", "a = @4294967295", "3:5", "Expected"),
    no_line("a cell past the last", "a = @4294967296", "3:5", "BadToken"),
    no_line("a cell without a number", "a = @", "3:5", "BadToken"),
    no_line("a cell with a letter", "a = @1x", "3:5", "BadToken"),
    no_line("a string for a number", 'a = "1"', "3:5", "Expected"),
    no_line("a string with escapes for a number", 'a = "\\"\\\\\\x0F"', "3:5", "Expected"),
    no_line("a string without an end", 'a = "1', "3:5", "BadToken"),
    no_line("a string with an unknown escape", 'a = "\\n"', "3:5", "BadToken"),
    no_line("a string with a short escape", 'a = "\\x1"', "3:5", "BadToken"),
    no_line("a string with a letter past ASCII", 'a = "ö"', "3:5", "BadToken"),
    no_line("a struct for a number", "a = {v = 1}", "3:5", "Expected"),
    no_line("a list for a number", "a = [1]", "3:5", "Expected"),
    no_line("a text with its maximum for a number", 'a = 1:"x"', "3:6", "Expected"),
    no_line("a context handle for a number", "a = ctx(0, 11111111-2222-3333-4444-555555555555)", "3:5", "Expected"),
]

TOKENS = [
    no_line("a comment", "a = 1 /* one */", "3:7", "BadToken"),
    no_line("a comment to the line's end", "a = 1 # one", "3:7", "BadToken"),
    no_line("a form feed", "a =\f1", "3:4", "BadToken"),
    no_line("a zero octet", "a = \0", "3:5", "BadToken"),
    no_line("a letter past ASCII", "ö = 1", "3:1", "BadToken"),
    no_line("a tab is one column", "a\t=\tx", "3:5", "Expected"),
    no_line("a carriage return makes no line", "a\r=\rx", "3:5", "Expected"),
    no_text("an octet that is no UTF-8", ADD_TEXT.replace(b"= 1", b"= \xff"), "3:5", "BadToken"),
    no_text("a byte order mark", b"\xef\xbb\xbf" + ADD_TEXT, "1:1", "BadToken"),
    no_text("a bad token where nothing is due", ADD_TEXT + b"?", "6:1", "BadToken"),
    no_text("a bad token before another that is not due", lines("values 1", "op add in", "a = 1", "b = ?", "x"), "4:5", "BadToken"),
]

CELLS = [
    no_text("a cell that nothing names", PING_TEXT + b"@1 = 5\n", "3:1", "Unnamed", operation="ping"),
    no_text("a cell after numbers", ADD_TEXT + b"@1 = 5\n", "6:1", "Unnamed"),
    no_text("a cell line without its =", ADD_TEXT + b"@1", "6:1", "Unnamed"),
    no_text("another cell than the first", ADD_TEXT + b"@2 = 5\n", "6:1", "OutOfOrder"),
    no_text("a cell where a root is due", lines("values 1", "op add in", "@1 = 1"), "3:1", "Expected"),
]

LENGTHS = [
    encode("text: of the greatest length, of zero octets", ADD, "add", Sparse(TEXT_LIMIT),
           notes=lines("refused: text 1:1: BadToken"), status=1),
    encode("text: one octet too long", ADD, "add", Sparse(TEXT_LIMIT + 1), notes=lines("refused: text 1:1: TooLong"), status=1),
    encode("text: of the greatest length, of spaces", ADD, "add", Sparse(TEXT_LIMIT, b" "),
           notes=lines(f"refused: text 1:{TEXT_LIMIT + 1}: Expected"), status=1),
    encode("text: one space too long", ADD, "add", Sparse(TEXT_LIMIT + 1, b" "), notes=lines("refused: text 1:1: TooLong"), status=1),
]

OUTSIDE = [
    encode("closed input", ADD, "add", CLOSED, notes=lines("read fault"), status=3),
    encode("a folder as input", ADD, "add", FOLDER, notes=lines("read fault"), status=3),
    encode("full out", ADD, "add", ADD_TEXT, out=FULL, notes=lines("write fault"), status=4),
    encode("closed out", ADD, "add", ADD_TEXT, out=CLOSED, notes=lines("write fault"), status=4),
    encode("full out and notes", ADD, "add", ADD_TEXT, out=FULL, notes=FULL, status=4),
    encode("full notes, a refused text", ADD, "add", b"", notes=FULL, status=4),
    encode("full notes, a refused value", ADD, "add", ADD_TEXT.replace(b"b = 2", b"b = 40000"), notes=FULL, status=4),
    encode("an empty file", b"", "add", ADD_TEXT, notes=lines("idl t.idl:1:1: Syntax"), status=6),
    encode("an octet of no token", ADD + b"#", "add", ADD_TEXT, notes=lines("idl t.idl:5:1: BadOctet"), status=6),
    encode("a banned word", interface("void add([in] float a);"), "add", ADD_TEXT, notes=lines("idl t.idl:3:15: Banned float"), status=6),
    encode("an unknown operation", ADD, "sub", ADD_TEXT, notes=lines("idl t.idl: NoOperation sub"), status=6),
    encode("an unknown operation, closed input", ADD, "sub", CLOSED, notes=lines("idl t.idl: NoOperation sub"), status=6),
    Case("encode: a missing file", chunk("1"), {}, ADD_TEXT, notes=lines("absent: t.idl"), status=7),
    Case("encode: the file's name is no UTF-8", ["encode", b"\xff", "-", "add", "in", "little", "1"], {}, ADD_TEXT,
         notes=lines("words refused"), status=2),
]

WORDS = [
    Case("words of encode: the greatest chunk", chunk("16777216"), {"t.idl": ADD}, ADD_TEXT, ADD_LITTLE),
    refused_words("no chunk", *chunk("1")[:-1]),
    refused_words("a word too many", *chunk("1"), "1"),
    refused_words("decode with a chunk", "decode", *chunk("1")[1:]),
    refused_words("encode alone", "encode"),
    refused_words("an order in capitals", "encode", "t.idl", "-", "add", "in", "BIG", "1"),
    *(refused_words(f"chunk {ascii(word)}", *chunk(word)) for word in (
        "", "0", "01", "+1", "-1", " 1", "1 ", "1.0", "1x", "0x1", "1_000", "16777217", "18446744073709551617", "one", "١")),
]

CASES = (VALUES + RANGES + TEXTS + HEADS + ROOTS + NUMBERS + OTHER_VALUES + TOKENS + CELLS + LENGTHS + OUTSIDE
         + WORDS)
