"""Names, constants and imports: where a file is refused for one, and files that are accepted."""

from typing import Dict

from case import Case, Folder, interface, lines, octets
from idl import HEADER, export, fault, header, marked, parameters, value, whole

PLAIN = interface("void f([in] small x);")


def imported(what: str, name: str, main: str, **files: str) -> Case:
    """Files of which one that is imported, or the main file, is refused at the mark: the only one that has it."""
    contents: Dict[str, bytes] = {}
    told = ""
    for file, text in {"t": main, **files}.items():
        if "§" in text:
            contents[f"{file}.idl"], place = marked(text)
            told = f"idl {file}.idl:{place}: {what}"
        else:
            contents[f"{file}.idl"] = text.encode()
    return Case(f"import, {what}: {name}", ["decode", "t.idl", "-", "f", "in", "little"], contents, octets("01"), notes=lines(told), status=6)


def accepted(name: str, main: str, **files: str) -> Case:
    """Files of which the main one has an operation of one small."""
    contents = {f"{file}.idl": text.encode() for file, text in {"t": main, **files}.items()}
    return Case(f"names: {name}", ["decode", "t.idl", "-", "f", "in", "little"], contents, octets("01"),
                lines("values 2", "op f in", "x = 1"))


def with_import(*exports: str) -> str:
    """A main file that imports u.idl."""
    return f'{HEADER} interface t {{ import "u.idl"; {" ".join(exports)} void f([in] small x); }}'


def file(*exports: str) -> str:
    """A file that is imported."""
    return f"{HEADER} interface u {{ {' '.join(exports)} }}"


def held(condition: str) -> Case:
    """A condition that holds. Where it did not, the array would have no elements, which breaks a rule."""
    return accepted(f"a condition that holds: {condition}", f"{HEADER} interface t {{ typedef long a[{condition}]; void f([in] small x); }}")


def false(condition: str) -> Case:
    """A condition that does not hold, so that the array has no elements."""
    return fault("Rule 14", f"{HEADER} interface t {{ §typedef long a[{condition}]; void f([in] small x); }}", condition)


UNKNOWN = [
    *parameters("Unknown no_t", "[in] §no_t y", "[in] long y[§no_t]", "[in, switch_type(§no_t)] long y"),
    *export("Unknown A", "const long A = §A;", "const long B = 0 && §A;", "typedef long x[§A];", "enum e { A = §A };"),
    *export("Unknown b", "struct §b x();", "typedef struct §b t;", "typedef struct §b *x, y;", "typedef struct §b *x;",
            "struct a { struct §b c; };", "struct §b;"),
    *export("Unknown b", "struct b { long c; }; typedef enum §b *x;", "struct b { long c; }; void g([in] union §b y);",
            "typedef struct a *x; typedef struct §b *y; struct a { long c; };"),
    *header("Unknown A", "[uuid(11111111-2222-3333-4444-555555555555), case(§A)]"),
    *export("Unknown f", "typedef long n[2]; void g([in] §f y);"),
]

TWICE = [
    *export("Twice f", "void §f();", "typedef long §f;", "const long §f = 1;", "enum { §f };"),
    *export("Twice A", "const long A = 1; const long §A = 1 / 0;", "enum e { A, §A };", "typedef long A, §A;", "enum { A }; enum { §A };"),
    *export("Twice a", "struct a { long b; }; union §a switch (long c) { default: ; };", "struct s { long a, §a; };",
            "void g([in] long a, [in] long §a);", "struct a { long b; }; struct §a { long c; };"),
]

CONSTANTS = [
    *value("ZeroDivisor", "5 §% 0", "5 §/ 0", "1 ? 5 §/ 0 : 1", "(1 §/ 0) + (1 << 64)"),
    *value("OutOfRange", "1 §<< 64", "18446744073709551615 §+ 1", "1 §<< (0 - 1)", "0 - 9223372036854775808 §- 1"),
    *value("NotConst", "§f", "1 + §f"),
    *export("NotConst", 'const char *S = "s"; const long A = §S;', "const void *N = NULL; const long A = §N;", "typedef long n; const long A = §n;"),
    *export("Unknown B", "const long A = §B + 5 % 0;"),
    *export("ZeroDivisor", "const long A = 5 §% 0 + B;"),
]

# Division rounds toward zero, a remainder has the sign of what is divided, and operators on bits are those of two's complement.
VALUES = [held(condition) for condition in [
    "7 / 2 * 2 == 6", "-7 / 2 == -3", "-7 % 2 == -1", "7 % -2 == 1", "-1 >> 1 == -1", "~0 == -1", "1 << 63 == 9223372036854775808",
    "(0 && 5 % 0) == 0", "(1 || 5 % 0) == 1", "(1 ? 6 : 5 % 0) == 6", "(-5 ^ 3) == -8", "(-5 & 6) == 2", "(-5 | 2) == -5", "2 + 3 * 4 == 14",
    "10 - 4 - 3 == 3", "(0 ? 1 : 0 ? 2 : 3) == 3", "'a' == 97", "'\\n' == 10", "TRUE == 1", "!7 == FALSE", "0xFF == 255",
]] + [false("7 / 2 * 2 == 7"), false("-1 >> 1 == 0")]

IMPORTS = [
    imported("Twice A", "a name of two files", with_import("const long §A = 1;"), u=file("const long A = 2;")),
    imported("Unknown no_t", "a name in an import", with_import(), u=file("typedef §no_t n;")),
    imported("ZeroDivisor", "a constant in an import", with_import(), u=file("const long A = 1 §/ 0;")),
    imported("Syntax", "a token in an import", with_import(), u=file("typedef §;")),
    imported("BadNumber", "a number in an import", with_import(), u=file("const long A = §012;")),
    imported("Banned float", "a banned word in an import", with_import(), u=file("typedef §float n;")),
    imported("ImportCycle", "two files", with_import(), u=f'{HEADER} interface u {{ import §"t.idl"; }}'),
    imported("ImportCycle", "three files", with_import(), u=f'{HEADER} interface u {{ import "v.idl"; }}', v=f'{HEADER} interface v {{ import §"t.idl"; }}'),
    imported("ImportCycle", "three files without the main file", with_import(), u=f'{HEADER} interface u {{ import "v.idl"; }}',
             v=f'{HEADER} interface v {{ import "w.idl"; }}', w=f'{HEADER} interface w {{ import §"u.idl"; }}'),
    imported("ImportCycle", "a file itself", f'{HEADER} interface t {{ import §"t.idl"; void f([in] small x); }}'),
    imported("Rule 5", "a rule in an import", with_import(), u=file("§long;")),
    imported("Rule 5", "the same rule in both files", with_import("long;"), u=file("§long;")),
    imported("Rule 5", "a lesser rule in the main file", with_import("§long;"), u=file("typedef void v;")),
    accepted("an import of types", with_import("typedef n m;"), u=file("typedef long n;")),
    accepted("an import whose name has escapes", f'{HEADER} interface t {{ import "u\\"\\\\v.idl"; void f([in] small x); }}', **{'u"\\v': file()}),
    accepted("an import twice", f'{HEADER} interface t {{ import "u.idl", "u.idl"; void f([in] small x); }}', u=file("typedef long n;")),
    accepted("operations of imports are passed over", with_import(), u=file("void f([in] no_t x); void f();")),
    accepted("an import loaded by two files", f'{HEADER} interface t {{ import "u.idl", "v.idl"; void f([in] small x); }}',
             u=f'{HEADER} interface u {{ import "v.idl"; }}', v=f"{HEADER} interface v {{ const long A = 1; }}"),
    Case("import, absent", ["decode", "t.idl", "-", "f", "in", "little"], {"t.idl": with_import().encode()}, octets("01"),
         notes=lines("absent: u.idl"), status=7),
    Case("import, a folder", ["decode", "t.idl", "-", "f", "in", "little"], {"t.idl": with_import().encode(), "u.idl": Folder()}, octets("01"),
         notes=lines("file fault: u.idl"), status=9),
    Case("import, absent after an unknown name", ["decode", "t.idl", "-", "f", "in", "little"],
         {"t.idl": with_import("typedef no_t n;").encode()}, octets("01"), notes=lines("absent: u.idl"), status=7),
]

MANY = 64


def chain(count: int, mark: str = "") -> Dict[str, bytes]:
    """The main file and others up to a count, each importing the next."""
    names = ["t", *(f"u{number}" for number in range(1, count))]
    files = {}
    for name, following in zip(names, [*names[1:], None]):
        imports = f'import "{following}.idl"; ' if following else ""
        operation = "void f([in] small x); " if name == "t" else ""
        files[f"{name}.idl"] = f"{HEADER} interface {name} {{ {imports}{operation}}}".encode()
    return files


def main_with(count: int) -> str:
    """A main file that imports so many others. A mark is before the 64th."""
    names = ", ".join(("§" if number == 64 else "") + f'"u{number}.idl"' for number in range(1, count + 1))
    return f"{HEADER} interface t {{ import {names}; void f([in] small x); }}"


def side_by_side(count: int) -> Dict[str, bytes]:
    """So many files that import none."""
    return {f"u{number}.idl": file().encode() for number in range(1, count + 1)}


WIDE, WIDE_PLACE = marked(main_with(64))
LAST, PLACE = marked(f'{HEADER} interface u63 {{ import §"u64.idl"; }}')
COUNTS = [
    Case("import, 64 files", ["decode", "t.idl", "-", "f", "in", "little"], chain(MANY), octets("01"), lines("values 2", "op f in", "x = 1")),
    Case("import, 65 files", ["decode", "t.idl", "-", "f", "in", "little"], {**chain(MANY), "u63.idl": LAST}, octets("01"),
         notes=lines(f"idl u63.idl:{PLACE}: TooMany"), status=6),
    Case("import, 63 files with the main file", ["decode", "t.idl", "-", "f", "in", "little"], {**side_by_side(63), "t.idl": main_with(63).encode()},
         octets("01"), lines("values 2", "op f in", "x = 1")),
    Case("import, 64 files with the main file", ["decode", "t.idl", "-", "f", "in", "little"], {**side_by_side(64), "t.idl": WIDE}, octets("01"),
         notes=lines(f"idl t.idl:{WIDE_PLACE}: TooMany"), status=6),
]

# Each is on the third line of its file.
LINES = [
    fault("Unknown no_t", interface("void f([in] §no_t x);"), "a type of no declaration"),
    fault("Rule 30", interface("void f(§long x);"), "a parameter without a direction"),
    fault("ZeroDivisor", interface("const long A = 5 §% 0;"), "a constant of no value"),
]

CASES = UNKNOWN + TWICE + CONSTANTS + VALUES + IMPORTS + COUNTS + LINES
