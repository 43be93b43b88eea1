"""The limits of the language (docs/IDL.md): for each a text at the limit, which is accepted, and one past it, which is refused.

The limit of 4,096 types is in idl_rules.py, with the place of the type that is one too many. At most 67,108,864 members and arms
cannot be passed by 64 files of 1,048,576 octets.
"""

from typing import Dict, List, Union

from case import Begins, Case, lines
from idl import MARK, marked

FILE = 1_048_576
OPERATIONS = 1_024
PARAMETERS = 256
NESTING = 32
BRACKETS = 64
OPERATORS = 64
FILES = 64
ELEMENTS = 16_777_216
NAME = 31
ENUMERATOR = 32_767
VERSION = 65_535

Content = Union[str, bytes]


def octets_of(content: Content) -> bytes:
    return content.encode() if isinstance(content, str) else content


def accepted(name: str, text: Content, acf: str = "-", **files: Content) -> Case:
    """A file that is listed, with other files."""
    given = {"t.idl": octets_of(text), **{file.replace("_", "."): octets_of(content) for file, content in files.items()}}
    return Case(f"limits: {name}", ["compile", "t.idl", acf], given, out=Begins(b"interface t version "))


def refused(name: str, what: str, text: Content, acf: str = "-", **files: Content) -> Case:
    """The same with a mark in one file, where it is refused."""
    given: Dict[str, bytes] = {}
    line = ""
    for file, content in {"t.idl": text, **{file.replace("_", "."): content for file, content in files.items()}}.items():
        given[file] = octets_of(content)
        if MARK.encode() in given[file]:
            given[file], place = marked(content)
            line = f"idl {file}:{place}: {what}"
    return Case(f"limits: {name}", ["compile", "t.idl", acf], given, notes=lines(line), status=6)


def local(*declarations: str, name: str = "t") -> str:
    """A file of an interface."""
    return f"[local] interface {name} {{ {' '.join(declarations)} }}"


def both(name: str, what: str, most: int, text: str, one_more: str, unit: str) -> List[Case]:
    """A declaration at a limit, and one past it."""
    return [accepted(f"{most:,} {unit}", local(text)), refused(f"{most + 1:,} {unit}", what, local(one_more))]


# ----------------------------------------------------------------------------------------------------------------------
# Files and names

PLAIN = local("void f([in] long x);")
IMPORTING = local('import "u.idl";')
BLANKS = [
    accepted("an interface file of 1,048,576 octets", PLAIN.ljust(FILE)),
    refused("an interface file of 1,048,577 octets", "TooLong", PLAIN.ljust(FILE) + MARK + " "),
    accepted("an imported file of 1,048,576 octets", IMPORTING, u_idl=local(name="u").ljust(FILE)),
    refused("an imported file of 1,048,577 octets", "TooLong", IMPORTING, u_idl=local(name="u").ljust(FILE) + MARK + " "),
    accepted("an attribute file of 1,048,576 octets", PLAIN, "t.acf", t_acf="interface t { }".ljust(FILE)),
    refused("an attribute file of 1,048,577 octets", "TooLong", PLAIN, "t.acf", t_acf="interface t { }".ljust(FILE) + MARK + " "),
]


def importing(count: int, mark_at: int = 0) -> str:
    """A main file that imports others, so that there are so many files. A mark is before the one of a number."""
    names = ", ".join(f'{MARK if at == mark_at else ""}"u{at}.idl"' for at in range(1, count))
    return local(f"import {names};")


def imported(count: int) -> Dict[str, str]:
    """The files that it imports."""
    return {f"u{at}_idl": local(name="u") for at in range(1, count)}


LONG = "n" * NAME
FILES_AND_NAMES = [
    *BLANKS,
    accepted("64 files", importing(FILES), **imported(FILES)),
    accepted("64 files and an attribute file", importing(FILES), "t.acf", t_acf="interface t { }", **imported(FILES)),
    refused("65 files", "TooMany", importing(FILES + 1, FILES), **imported(FILES + 1)),
    accepted("names of 31 octets", local(f"const long {LONG} = 1; struct {LONG} {{ long {LONG}; }}; void f([in] long {LONG});")),
    refused("a constant's name of 32 octets", "LongName", local(f"const long {MARK}{LONG}n = 1;")),
    refused("a tag of 32 octets", "LongName", local(f"struct {MARK}{LONG}n {{ long a; }};")),
    refused("a member's name of 32 octets", "LongName", local(f"struct s {{ long {MARK}{LONG}n; }};")),
    refused("a name of 32 octets in an attribute file", "LongName", PLAIN, "t.acf", t_acf=f"interface t {{ {MARK}{LONG}n(); }}"),
]

# ----------------------------------------------------------------------------------------------------------------------
# Depth


def opened(count: int, mark: str = "") -> str:
    """A constant in round brackets, so that so many brackets are open with the interface's own. A mark is before the last."""
    return f"const long A = {'(' * (count - 2)}{mark}(1{')' * (count - 1)};"


SUM = "1" + " + 0" * OPERATORS
DEPTH = [
    *both("brackets", "Deep", BRACKETS, opened(BRACKETS), opened(BRACKETS + 1, MARK), "open brackets"),
    *both("operators", "Deep", OPERATORS, f"const long A = {SUM};", f"const long A = {SUM} {MARK}+ 0;", "operators in one expression"),
]


def structs(count: int, mark_at: int = -1) -> str:
    """Structs of which each holds the one before; the path down from the last has so many types and `long`."""
    return " ".join(f"{MARK if at == mark_at else ''}struct s{at} {{ {f'struct s{at - 1}' if at else 'long'} a; }};" for at in range(count))


def unions(count: int, mark_at: int = -1) -> str:
    """Unions in the same way. Their tags are not counted."""
    return " ".join(f"{MARK if at == mark_at else ''}union u{at} switch (long k) {{ default: {f'union u{at - 1}' if at else 'long'} a; }};"
                    for at in range(count))


def bounds(count: int) -> str:
    """So many dimensions of one element."""
    return "[1]" * count


DEPTH += [
    *both("structs", "Rule 12", NESTING, structs(NESTING - 1), structs(NESTING, NESTING - 1), "types on a path of structs"),
    *both("unions", "Rule 12", NESTING, unions(NESTING - 1), unions(NESTING, NESTING - 1), "types on a path of unions"),
    *both("arrays", "Rule 12", NESTING, f"typedef long a{bounds(NESTING - 1)};", f"{MARK}typedef long a{bounds(NESTING)};", "types on a path of arrays"),
    accepted("32 types on a path to a text", local(structs(1), "typedef [string] char t0[2]; struct x0 { t0 a; };",
                                                   *(f"struct x{at} {{ struct x{at - 1} a; }};" for at in range(1, NESTING - 2)))),
    refused("33 types on a path to a text", "Rule 12", local(
        "typedef [string] char t0[2]; struct x0 { t0 a; };", *(f"struct x{at} {{ struct x{at - 1} a; }};" for at in range(1, NESTING - 2)),
        f"{MARK}struct last {{ struct x{NESTING - 3} a; }};")),
    accepted("a pointer begins a new path", local(structs(NESTING - 1), f"struct p {{ [ptr] struct s{NESTING - 2} *a; }};")),
]

# ----------------------------------------------------------------------------------------------------------------------
# Counts


def operations(count: int) -> str:
    return "".join(f"void f{at}(); " for at in range(count))


def parameters(count: int) -> str:
    return ", ".join(f"[in] long p{at}" for at in range(count))


COUNTS = [
    *both("operations", "Rule 39", OPERATIONS, operations(OPERATIONS), f"{operations(OPERATIONS)}{MARK}void g();", "operations"),
    *both("parameters", "Rule 39", PARAMETERS, f"void f({parameters(PARAMETERS)});", f"void f({parameters(PARAMETERS)}, {MARK}[in] long q);", "parameters"),
    accepted("1,025 operations of two files", local(f'import "u.idl"; {operations(OPERATIONS)}'), u_idl=local("void f0();", name="u")),
]


def elements(form: str, most: str, one_more: str) -> List[Case]:
    """A form of fixed array with as many elements as there may be, and with more."""
    return [accepted(f"16,777,216 elements of {form}", local(f"typedef {most};")), refused(f"more elements of {form}", "Rule 14", local(f"{MARK}typedef {one_more};"))]


COUNTS += [
    *elements("an array", f"long a[{ELEMENTS}]", f"long a[{ELEMENTS + 1}]"),
    *elements("an array with both bounds", f"long a[0..{ELEMENTS - 1}]", f"long a[0..{ELEMENTS}]"),
    *elements("an array of bytes in hexadecimal digits", "byte a[0x1000000]", "byte a[0x1000001]"),
    *elements("two dimensions", "long a[4096][4096]", "long a[4096][4097]"),
    *elements("three dimensions", "long a[256][256][256]", "long a[256][257][256]"),
    *elements("a text", f"[string] char a[{ELEMENTS}]", f"[string] char a[{ELEMENTS + 1}]"),
    *elements("a named array", "long e[4096]; typedef e a[4096]", "long e[1]; typedef e a[0]")[:1],
    refused("more elements of a named array", "Rule 14", local(f"typedef long e[4096]; {MARK}typedef e a[4097];")),
    accepted("one element", local("typedef long a[1];")),
    refused("no element", "Rule 14", local(f"{MARK}typedef long a[0];")),
    refused("fewer elements than none", "Rule 14", local(f"{MARK}typedef long a[-1];")),
    refused("2^64 - 1 elements", "Rule 14", local(f"{MARK}typedef long a[18446744073709551615];")),
]

# ----------------------------------------------------------------------------------------------------------------------
# Numbers


def constants(type_name: str, least: int, greatest: int) -> List[Case]:
    """Constants of a type at both ends of its range and past them."""
    inside = local(f"const {type_name} A = {least}; const {type_name} B = {greatest};")
    return [
        accepted(f"constants of {type_name} at both ends", inside),
        refused(f"a constant of {type_name} below its range", "Rule 38", local(f"{MARK}const {type_name} A = {least - 1};")),
        refused(f"a constant of {type_name} above its range", "Rule 38", local(f"{MARK}const {type_name} A = {greatest + 1};")),
    ]


def labels(type_name: str, least: int, greatest: int) -> List[Case]:
    """Labels of a switch type at both ends of its range and past them."""
    def union(label: str) -> str:
        return local(f"union u switch ({type_name} k) {{ {label} ; }};")
    return [
        accepted(f"labels of {type_name} at both ends", union(f"case {least}: case {greatest}:")),
        refused(f"a label of {type_name} below its range", "Rule 22", union(f"{MARK}case {least - 1}:")),
        refused(f"a label of {type_name} above its range", "Rule 22", union(f"{MARK}case {greatest + 1}:")),
    ]


INTEGERS = [
    ("small", -2**7, 2**7 - 1), ("unsigned small", 0, 2**8 - 1), ("short", -2**15, 2**15 - 1), ("unsigned short", 0, 2**16 - 1),
    ("long", -2**31, 2**31 - 1), ("unsigned long", 0, 2**32 - 1),
]
LETTERS = [("char", 0, 255), ("boolean", 0, 1)]
NUMBERS = [
    accepted("enumerators of 0 and 32,767", local(f"enum {{ A = 0, B = {ENUMERATOR} }};")),
    accepted("an enumerator of 32,767 after 32,766", local(f"enum {{ A = {ENUMERATOR - 1}, B }};")),
    refused("an enumerator of 32,768", "Rule 13", local(f"enum {{ {MARK}A = {ENUMERATOR + 1} }};")),
    refused("an enumerator of 32,768 after 32,767", "Rule 13", local(f"enum {{ A = {ENUMERATOR}, {MARK}B }};")),
    refused("an enumerator of -1", "Rule 13", local(f"enum {{ {MARK}A = -1 }};")),
    accepted("version 65535.65535", f"[local, version({VERSION}.{VERSION})] interface t {{ }}"),
    refused("version 65536", "Rule 4", f"[local, {MARK}version({VERSION + 1})] interface t {{ }}"),
    refused("version 0.65536", "Rule 4", f"[local, {MARK}version(0.{VERSION + 1})] interface t {{ }}"),
    *(case for integer in INTEGERS + LETTERS + [("byte", 0, 255)] for case in constants(*integer)),
    *(case for integer in INTEGERS + LETTERS for case in labels(*integer)),
    accepted("constants of hyper at both ends", local("const hyper A = -9223372036854775807 - 1; const hyper B = 9223372036854775807;")),
    refused("a constant of hyper above its range", "Rule 38", local(f"{MARK}const hyper A = 9223372036854775808;")),
    accepted("constants of unsigned hyper at both ends", local("const unsigned hyper A = 0; const unsigned hyper B = 18446744073709551615;")),
    refused("a constant of unsigned hyper below its range", "Rule 38", local(f"{MARK}const unsigned hyper A = -1;")),
    refused("a number of 2^64", "BadNumber", local(f"const unsigned hyper A = {MARK}18446744073709551616;")),
    accepted("a sum of 2^64 - 1", local("const unsigned hyper A = 18446744073709551614 + 1;")),
    refused("a sum of 2^64", "OutOfRange", local(f"const unsigned hyper A = 18446744073709551615 {MARK}+ 1;")),
    refused("a difference below -2^63", "OutOfRange", local(f"const hyper A = -9223372036854775807 - 1 {MARK}- 1;")),
    accepted("shifts by 0 and 63 places", local("const unsigned hyper A = 1 << 63; const long B = 1 << 0; const long C = 1 >> 63;")),
    refused("a shift by 64 places", "OutOfRange", local(f"const unsigned hyper A = 1 {MARK}<< 64;")),
    refused("a shift to the right by 64 places", "OutOfRange", local(f"const long A = 1 {MARK}>> 64;")),
    refused("a shift by -1 places", "OutOfRange", local(f"const long A = 1 {MARK}<< -1;")),
]

CASES = FILES_AND_NAMES + DEPTH + COUNTS + NUMBERS
