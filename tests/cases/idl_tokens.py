"""Interface files in which a token is wrong, and values of constants that are cut into tokens in unusual ways."""

from case import Case, interface, lines, octets
from idl import HEADER, MARK, export, fault, header, parameters, parsed, value, whole

PLAIN = interface("void f([in] small x);")
START = f"{HEADER} interface t {{ const long A = "
HERE = MARK.encode()
ESCAPES = "abfnrtv\\?'\""
PRINTABLE = "".join(map(chr, range(0x20, 0x7F)))
LIMIT = 1_048_576

NUMBERS = [
    *parsed("0", "1", "10", "18446744073709551615", "-18446744073709551615", "0x0", "0X0", "0x00", "0xFFFFFFFFFFFFFFFF",
            "0Xffffffffffffffff", "0xaBcDeF", f"0x{'0' * 39}1"),
    *value("BadNumber", "§18446744073709551616", "§18446744073709551620", "§20000000000000000000", "§100000000000000000000",
           "§1111111111111111111111111111111111111111", "-§18446744073709551616", "§0x10000000000000000",
           "§0xFFFFFFFFFFFFFFFF0", "§0x00000000000000010000000000000000", "§00", "§01", "§010", "§012", "§08", "§09", "-§01",
           "§000000000000000000000000000000001", "§0x", "§0X", "§0xg", "§0x1g", "§0x_", "§0xx1", "§0b1", "§0o7", "§1L", "§1l",
           "§1u", "§0x1u", "§1x", "§1_", "§1_000", "§1e3", "§1nnnnnnnnnnnnnnnnnnnnnnnnnnnnnnnn", "1 + §2x", "A + §1A",
           "§1x + 2y"),
    *value("Syntax", "1§.5", "1§.", "§.5", "1§..5", "1 §2", "1 §0x2"),
]

WORDS = [
    *parsed("_", "_9", "A1", "n" * 31, "_" * 31, f"1 /* {'n' * 32} */", f'"{"n" * 32}"'),
    *value("LongName", f"§{'n' * 32}", f"§{'_' * 32}", f"§n{'1' * 31}", f"1 + §{'n' * 32}", f"§{'n' * 31}_ + {'m' * 32}"),
    *whole("LongName", f"§{'n' * 32}"),
    *(fault("LongName", text, f"{name} of {size} octets") for size in (32, 1000) for name, text in (
        ("an interface", interface("void f([in] small x);", name=f"§{'n' * size}")),
        ("an operation", interface("void f([in] small x);", f"void §{'n' * size}();")),
        ("a type", interface("void f([in] small x);", f"§{'n' * size} g();")),
        ("a parameter", interface("void f([in] small x);", f"void g([in] small §{'n' * size});")),
        ("an attribute", interface("void f([in] small x);", f"void g([§{'n' * size}] small y);")))),
    fault("LongName", f"{START}§{'n' * 1_000_000}", "a word of 1,000,000 octets"),
]

IDENTIFIERS = [
    *header("BadNumber", "[uuid(§11111111222233334444555555555555)]", "[uuid(§1111111g-2222-3333-4444-555555555555)]",
            "[uuid(11111111-§2222g-3333-4444-555555555555)]", "[uuid(11111111-2222-3333-4444-§55555555555g)]",
            "[uuid(§11111111_2222_3333_4444_555555555555)]", "[uuid(§01111111-2222-3333-4444-55555555555)]",
            "[uuid(§01111111 -2222-3333-4444-555555555555)]"),
    # Where no identifier can be cut, words and numbers are, with minus signs between.
    *parsed("aaaaaaaa-bbbb-cccc-dddd-eeeeeeeeeee", "aaaaaaaa-bbbb-cccc-dddd-eeeeeeeeeeeg",
            "aaaaaaa-bbbb-cccc-dddd-eeeeeeeeeeee", "aaaaaaaaa-bbbb-cccc-dddd-eeeeeeeeeeee",
            "aaaaaaaa-bbbb-cccc-dddd -eeeeeeeeeeee", "aaaaaaaa-bbbb-cccc/**/-dddd-eeeeeeeeeeee",
            "11111111-2222-3333-4444-55555555555", "11111111-2222-3333-44445555-55555555"),
    *value("Syntax", "§aaaaaaaa-bbbb-cccc-dddd-eeeeeeeeeeee", "§01111111-2222-3333-4444-555555555555",
           "1-§11111111-2222-3333-4444-555555555555", "aaaa-§aaaaaaaa-bbbb-cccc-dddd-eeeeeeeeeeee"),
]

MARKS = [
    *parsed("1||2", "1&&2", "1|2", "1^2", "1&2", "1==2", "1!=2", "1<2", "1>2", "1<=2", "1>=2", "1<<2", "1>>2", "1+2", "1-2",
            "1*2", "1/2", "1%2", "1?2:3", "+1", "-1", "~1", "!1", "(1)", "1+++1", "1---1", "1!=!1", "1==-1", "1<~1", "1&&!1",
            "~~!!1"),
    # The longest token is cut.
    *value("Syntax", "1||§|2", "1&&§&2", "1==§=2", "1!=§=2", "1<<§<2", "1<<§=2", "1>>§>2", "1>>§=2", "1<=§=2"),
    # No token holds a space.
    *value("Syntax", "1 | §| 2", "1 & §& 2", "1 §= = 2", "1 §! = 2", "1 < §< 2", "1 < §= 2", "1 > §> 2", "1 > §= 2"),
    *export("Syntax", "void g([in] long y[1..2]);§;", "void g([in] long y[1 ..*]);§;", "void g([in] long y[0x1..'2']);§;"),
    *parameters("Syntax", "[in] long y[1..§.2]", "[in] long y[1§. .2]", "[in] long y[1..§..2]"),
]

CHARACTERS = [
    *parsed("'a'", "' '", "'~'", "'\"'", "'/'", "'0' + '1'", *(f"'\\{letter}'" for letter in ESCAPES)),
    *value("BadOctet", "'§'", "'§''", "'a§b'", "'a§ '", "'a§", "'§\t'", "'§\r'", "'§\x1f'", "'§\x7f'", "'§ö'", "'a§\t'",
           *(f"'\\§{letter}'" for letter in PRINTABLE if letter not in ESCAPES), "'\\§\t'", "'\\§\r\n'", "'\\§ö'",
           "'\\n§n'", "'\\\\§\\'", "'\\'§;'", "'a§b\n'"),
    *value("OpenText", "§'\n'", "§'a\n'", "§'\\\n'", "§'\\n\n'", "1 + §'a\n'", "'a' + §'\nb'"),
    *whole("OpenText", f"{START}§'", f"{START}§'a", f"{START}§'\\", f"{START}§'\\n", f"{START}§'\\'", "§'"),
    *value("Syntax", "'a'§'b'", "'a' §1"),
]

STRINGS = [
    *parsed('""', '"a"', '"\'"', '"/* a */"', '"// a"', '"010 # $ @ `"', *(f'"\\{letter}"' for letter in ESCAPES),
            '"' + "".join(f"\\{letter}" for letter in ESCAPES) + '"',
            '"' + "".join(letter for letter in PRINTABLE if letter not in '"\\') + '"', f'"{"a" * 100_000}"'),
    *value("BadOctet", '"§\t"', '"§\r"', '"a§\r\n"', '"§\f"', '"§\0"', '"§\x1f"', '"§\x7f"', '"gr§öße"', '"\\§e"', '"\\§ "',
           '"\\§x41"', '"\\§0"', '"\\§\r\n"', '"a§\t\n'),
    *value("OpenText", '§"', '§"\n"', '§"a\n"', '§"a\\\n"', '§"a\\"', '§"\'\n"', '"a" §"\n"'),
    *whole("OpenText", f'{START}§"', f'{START}§"a', f'{START}§"a\\', f'{START}§"a\\"', '§"'),
    *value("Syntax", '"a" §"b"', '"a"§"b"', '1 + §"a"', '(§"a")'),
]

COMMENTS = [
    *parsed("/**/1", "/***/1", "/****/1", "/*/ */1", "/* / * */1", "/* /* */1", "/* // */1", "/* ' */1", '/* " */1', "1/*2*/",
            "/* ö */1", "/*\n\n*/1"),
    *value("OpenComment", "§/*", "§/*/", "§/* *", "§/** /", "1 + §/* \"*\\/\"", "/**/§/*", "1/* */ §/*", "§/* '"),
    fault("OpenComment", HERE + b"/* " + PLAIN, "a whole file in an open comment"),
    *(fault("OpenComment", PLAIN + HERE + text, f"{text} after the file") for text in (b"/*", b"/*/", b"/* *", b"/*\n\n")),
    # A comment ends at its first */, whatever is in it.
    *value("Syntax", "/* /* */§*/", "1 /* /* */ *§/", "1 *§/", "1 / §*", "1 /§/ 2", "/**/§/ 1"),
    *value("BadOctet", "/* */§#", "/* /* */ 1 §# */", "1 /* \" */ + §#"),
]

NO_OCTETS = [*range(9), 0x0B, *range(0x0E, 0x20), *b"#$@\\`", 0x7F, 0x80, 0xA0, 0xBF, 0xC3, 0xF0, 0xFF]

OCTETS = [
    *(fault("BadOctet", PLAIN + HERE + bytes([octet]), f"the octet {octet:02X} at the end") for octet in NO_OCTETS),
    fault("BadOctet", HERE + b"\xef\xbb\xbf" + PLAIN, "a byte order mark"),
    fault("BadOctet", PLAIN.replace(b"void f", "void§\u00a0f".encode()), "a no-break space"),
    fault("BadOctet", PLAIN.replace(b"void f", "void§\vf".encode()), "a vertical tab between words"),
    fault("BadOctet", PLAIN.replace(b"x", b"x" + HERE + b"\0"), "a zero octet after a name"),
    fault("BadOctet", HERE + b"#define x y\n" + PLAIN, "a line of the preprocessor"),
    fault("BadOctet", PLAIN.replace(b"void f", "void f§#".encode()).replace(b"small", b"#small"), "the first of two octets"),
    fault("BadOctet", HERE + bytes(LIMIT), "1,048,576 zero octets"),
    *parameters("BadOctet", "[in] small gr§öße", "[in] small §öl", "[in] small n§$", "[in] small §$n", "§@[in] small y",
                "[in] small y §\\"),
    *value("BadOctet", "1 §# 2", "§`1`", "§\\n", "1 §\\", "n§\\n"),
]

LENGTHS = [
    fault("TooLong", PLAIN.ljust(LIMIT) + HERE + b" ", "1,048,577 octets, the last a space"),
    fault("TooLong", PLAIN.ljust(LIMIT) + HERE + b"\n", "1,048,577 octets, the last a line feed"),
    fault("TooLong", PLAIN + b"\n" * (LIMIT - len(PLAIN)) + HERE + b"\n", "1,048,577 octets, most of them line feeds"),
    fault("TooLong", PLAIN.ljust(LIMIT - 1) + b"\n" + HERE + b" ", "1,048,577 octets, a line feed before the last"),
    fault("TooLong", PLAIN.ljust(LIMIT) + HERE + b" " * 2_000_000, "many more octets than the limit"),
    Case("idl, TooLong: a file without an end", ["decode", "/dev/zero", "-", "f", "in", "little"], {}, octets("01"),
         notes=lines(f"idl /dev/zero:1:{LIMIT + 1}: TooLong"), status=6),
    fault("TooLong", PLAIN + b"/*".ljust(LIMIT - len(PLAIN)) + HERE + b"*/", "a comment that passes the limit"),
    fault("TooLong", b"#".ljust(LIMIT) + HERE + b" ", "an octet of no token, in a file that is too long"),
    fault("TooLong", b"interface".ljust(LIMIT) + HERE + b" ", "a wrong word, in a file that is too long"),
]

ORDER = [
    # The first of several, and one of them before a wrong word, wherever that is.
    *whole("BadOctet", "§# 010", "'§\t 'a\n", "interface t §#", "; }} §#", f"{HEADER} interface t {{ float x; }} §#"),
    *whole("BadNumber", "§010 #", "[§1a] 'a", f"{HEADER} interface t {{ void f([in] long); }} §010", "float §010"),
    *whole("OpenText", "§'a\n #", "§\" /*", "interface §\"t"),
    *whole("OpenComment", "§/* #", "§/* '", "interface §/* t"),
    *whole("LongName", f"§{'n' * 32} #", f"interface t §{'n' * 32}"),
    fault("BadOctet", interface("void f([in] small x);", "void f();", "§#"),
          "an octet of no token after a name that is repeated"),
]

CASES = NUMBERS + WORDS + IDENTIFIERS + MARKS + CHARACTERS + STRINGS + COMMENTS + OCTETS + LENGTHS + ORDER
