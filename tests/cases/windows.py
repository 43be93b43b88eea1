"""examples/real/windows.sed: what each of its lines makes of a file of Windows, and the octets of a request by MIDL, which are those of what it makes.

The octets were worked by hand from the rules of MIDL and of the transfer syntax. What the script leaves as it is must be refused, or have these octets.
"""

import re
import subprocess
from dataclasses import dataclass
from pathlib import Path
from tempfile import TemporaryDirectory

from case import ROOT, Case, CheckOf, Check, LeftOut, lines, octets

REAL = ROOT / "examples" / "real"
FILES = {f"examples/real/{name}.idl": (REAL / f"{name}.idl").read_bytes() for name in ("windows", "wide")}
HEAD = """[
    uuid("11111111-2222-3333-4444-555555555555"),
    version("1.0"),
    pointer_default(unique)
]
"""
MADE = """[uuid(11111111-2222-3333-4444-555555555555), version(1.0), pointer_default(unique)]
"""
IMPORT = '  import "examples/real/windows.idl";\n'


@dataclass(frozen=True)
class Row:
    """The declarations of a file for MIDL, what the script makes of them, the values of a request of `f`, and its octets by MIDL; or, of what is left
    as it is, what the compiler reports."""

    name: str
    before: str
    after: str
    values: str = ""
    octets: str = ""
    told: str = ""


TEXT = "01000000 00000000 01000000 6900"  # a wide string of one letter, without a zero
LETTER = "{offset = 0, actual = 1, letters = [105]}"
WIDE = f"x = @1 @1 = {LETTER}"
HELD = f"x = @1 @1 = @2 @2 = {LETTER}"
POINTED = "typedef struct _S { long v; } S, *PS;"
TYPEDEF = "typedef [handle, string] wchar_t *NAME;"
MADE_TYPEDEF = "typedef wide_text *NAME;"

ROWS = [
    # Attribute lists over several lines, without blanks and with more of them
    Row("a list over two lines", f"{POINTED}\nvoid f([in,\n  unique] PS x);", f"{POINTED}\nvoid f([in, unique] PS x);", "x = @1 @1 = {v = 7}", "01000000 07000000"),
    Row("a list without blanks", f"{POINTED}\nvoid f([in,unique] PS x);", f"{POINTED}\nvoid f([in, unique] PS x);", "x = @1 @1 = {v = 7}", "01000000 07000000"),
    Row("a list with more blanks", f"{POINTED}\nvoid f([ in , unique ] PS x);", f"{POINTED}\nvoid f([in, unique] PS x);", "x = @1 @1 = {v = 7}", "01000000 07000000"),
    Row("a type on the line after its list", f"{POINTED}\nvoid f([in]\n  PS\n  x);", f"{POINTED}\nvoid f([in, ref] PS x);", "x = @1 @1 = {v = 7}", "07000000"),
    Row("a typedef over several lines", "typedef struct _S {\n  long v;\n}\n  S,\n  *PS;\nvoid f([in] PS x);",
        "typedef struct _S {\n  long v;\n} S, *PS;\nvoid f([in, ref] PS x);", "x = @1 @1 = {v = 7}", "07000000"),

    # Binding handles and constant types
    Row("a type that is a handle", "typedef [handle] long H;\nvoid f([in] H x);", "typedef long H;\nvoid f([in] H x);", "x = 7", "07000000"),
    Row("a handle first in a list", f"{TYPEDEF}\nvoid f([in] NAME x);", f"{MADE_TYPEDEF}\nvoid f([in, ref] NAME x);", WIDE, TEXT),
    Row("a handle last in a list", "typedef [string, handle] wchar_t *NAME;\nvoid f([in] NAME x);", f"{MADE_TYPEDEF}\nvoid f([in, ref] NAME x);", WIDE, TEXT),
    Row("a member that is named handle", "typedef struct { long a, handle; } S;\nvoid f([in] S x);", "typedef struct { long a, handle; } S;\nvoid f([in] S x);",
        "x = {a = 1, handle = 2}", "01000000 02000000"),
    Row("a constant text", "void f([in, string] const char *x);", "void f([in, string] char *x);", 'x = @1 @1 = 2:"i"', "02000000 00000000 02000000 6900"),

    # Texts of char, which stay
    Row("a text of char", "void f([in, string] char *x);", "void f([in, string] char *x);", 'x = @1 @1 = 2:"i"', "02000000 00000000 02000000 6900"),
    Row("a text of char, first in the list", "void f([string, in] CHAR *x);", "void f([string, in] CHAR *x);", 'x = @1 @1 = 2:"i"', "02000000 00000000 02000000 6900"),
    Row("a text of char in an array", "typedef struct { [string] char x[4]; } S;\nvoid f([in] S x);", "typedef struct { [string] char x[4]; } S;\nvoid f([in] S x);",
        'x = {x = "i"}', "00000000 02000000 6900"),

    # Wide texts
    Row("a wide text", "void f([in, string] wchar_t *x);", "void f([in] wide_text *x);", WIDE, TEXT),
    Row("a wide text by WCHAR", "void f([in,string] WCHAR* x);", "void f([in] wide_text * x);", WIDE, TEXT),
    Row("a wide text, first in the list", "void f([string, in] WCHAR *x);", "void f([in] wide_text *x);", WIDE, TEXT),
    Row("a wide text, in the middle of the list", "void f([in, string, unique] WCHAR *x);", "void f([in, unique] wide_text *x);", WIDE, "01000000" + TEXT),
    Row("a constant wide text", "void f([in, string] const wchar_t *x);", "void f([in] wide_text *x);", WIDE, TEXT),
    Row("a wide text by LPWSTR", "void f([in, string] LPWSTR x);", "void f([in] wide_text * x);", WIDE, TEXT),
    Row("a wide text by LPCWSTR, unique", "void f([in, unique, string] LPCWSTR x);", "void f([in, unique] wide_text * x);", WIDE, "01000000" + TEXT),
    Row("a pointer to a wide text", "void f([in, string] wchar_t **x);", "void f([in] wide_text **x);", HELD, "02000000" + TEXT),
    Row("a pointer to a wide text by PWSTR", "void f([in, string] PWSTR *x);", "void f([in] wide_text * *x);", HELD, "02000000" + TEXT),
    Row("a member that is a wide text", "typedef struct { [string] wchar_t *x; } S;\nvoid f([in] S x);", "typedef struct { wide_text *x; } S;\nvoid f([in] S x);",
        f"x = {{x = @1}} @1 = {LETTER}", "01000000" + TEXT),
    Row("a wide text by a typedef", f"{TYPEDEF}\nvoid f([in, string, unique] NAME x);", f"{MADE_TYPEDEF}\nvoid f([in, unique] NAME x);", WIDE, "01000000" + TEXT),
    Row("a wide text by a typedef, first in the list", f"{TYPEDEF}\nvoid f([string, in] NAME x);", f"{MADE_TYPEDEF}\nvoid f([in, ref] NAME x);", WIDE, TEXT),
    Row("a member that is a wide text by a typedef", f"{TYPEDEF}\ntypedef struct {{ [string] NAME x; }} S;\nvoid f([in] S x);",
        f"{MADE_TYPEDEF}\ntypedef struct {{ NAME x; }} S;\nvoid f([in] S x);", f"x = {{x = @1}} @1 = {LETTER}", "01000000" + TEXT),
    Row("the letters of an RPC_UNICODE_STRING",
        "typedef struct { USHORT Length; USHORT MaximumLength; [size_is(MaximumLength/2), length_is(Length/2)] WCHAR *Buffer; } S;\nvoid f([in] S x);",
        "typedef struct { USHORT Length; USHORT MaximumLength; wide_text *Buffer; } S;\nvoid f([in] S x);",
        f"x = {{Length = 2, MaximumLength = 2, Buffer = @1}} @1 = {LETTER}", "0200 0200 01000000" + TEXT),
    Row("one letter", "void f([in] wchar_t *x);", "void f([in] WCHAR *x);", "x = @1 @1 = 105", "6900"),
    Row("one letter by LPWSTR", "void f([in] LPWSTR x);", "void f([in, ref] LPWSTR x);", "x = @1 @1 = 105", "6900"),
    Row("letters with a count", "void f([in, size_is(n)] WCHAR *x, [in] DWORD n);", "void f([in, size_is(n)] WCHAR *x, [in] DWORD n);", "x = @1 n = 2 @1 = [105, 0]", "02000000 69000000 02000000"),

    # Wide texts that it does not know, which the compiler refuses
    Row("a wide text in an array", "typedef struct { [string] wchar_t x[4]; } S;", "typedef struct { [string] WCHAR x[4]; } S;", told="Rule 33"),
    Row("a wide text by a typedef of one letter", "typedef WCHAR *NAME;\nvoid f([in, string] NAME x);", "typedef WCHAR *NAME;\nvoid f([in, string, ref] NAME x);", told="Rule 33"),
    Row("a typedef of an array that is a wide text", "typedef [string] wchar_t NAME[8];", "typedef [string] WCHAR NAME[8];", told="Rule 33"),
    Row("a wide text with room", "void f([in, string, size_is(n)] wchar_t *x, [in] DWORD n);", "void f([in, size_is(n)] wide_text *x, [in] DWORD n);", told="Rule"),
    Row("a type that no file declares", "void f([in, string] NAME x);", "void f([in, string] NAME x);", told="Unknown NAME"),

    # Top-level pointers
    Row("a pointer by a typedef", f"{POINTED}\nvoid f([in] PS x);", f"{POINTED}\nvoid f([in, ref] PS x);", "x = @1 @1 = {v = 7}", "07000000"),
    Row("a pointer by a typedef, first out", f"{POINTED}\nvoid f([out, in] PS x);", f"{POINTED}\nvoid f([out, in, ref] PS x);", "x = @1 @1 = {v = 7}", "07000000"),
    Row("a pointer by a typedef with a class", "typedef [unique] long *PL;\nvoid f([in] PL x);", "typedef [unique] long *PL;\nvoid f([in] PL x);", "x = @1 @1 = 7", "01000000 07000000"),
    Row("a pointer by a name in small letters", "typedef long *number;\nvoid f([in] number x);", "typedef long *number;\nvoid f([in, ref] number x);", "x = @1 @1 = 7", "07000000"),
    Row("a pointer of windows.idl", "void f([in] LPDWORD x, [in] DWORD y);", "void f([in, ref] LPDWORD x, [in] DWORD y);", "x = @1 y = 8 @1 = 7", "07000000 08000000"),
    Row("two pointers", "void f([in] PDWORD x, [in, unique] PDWORD y);", "void f([in, ref] PDWORD x, [in, unique] PDWORD y);", "x = @1 y = @2 @1 = 7 @2 = 8", "07000000 02000000 08000000"),
    Row("a pointer to a pointer by a typedef", f"{POINTED}\nvoid f([in] PS *x);", f"{POINTED}\nvoid f([in, ref] PS *x);", "x = @1 @1 = @2 @2 = {v = 7}", "02000000 07000000"),
    Row("an enumeration that begins with P", "typedef enum _POLICY { A, B } POLICY, *PPOLICY;\nvoid f([in] POLICY x);",
        "typedef enum _POLICY { A, B } POLICY, *PPOLICY;\nvoid f([in] POLICY x);", "x = 1", "0100"),
    Row("a handle that begins with P", "typedef [context_handle] void *PRIMARY_HANDLE;\nvoid f([in] PRIMARY_HANDLE x);",
        "typedef [context_handle] void *PRIMARY_HANDLE;\nvoid f([in] PRIMARY_HANDLE x);",
        "x = ctx(0, 00112233-4455-6677-8899-aabbccddeeff)", "00000000 33221100 5544 7766 8899 aabbccddeeff"),

    # New names of windows.idl
    Row("ULARGE_INTEGER", "void f([in] ULARGE_INTEGER x, [in] PULARGE_INTEGER y);", "void f([in] ULARGE_INTEGER x, [in, ref] PULARGE_INTEGER y);",
        "x = {QuadPart = 18446744073709551615} y = @1 @1 = {QuadPart = 1}", "ffffffffffffffff 0100000000000000"),
    Row("DWORDLONG", "void f([in] DWORDLONG x);", "void f([in] DWORDLONG x);", "x = 18446744073709551615", "ffffffffffffffff"),
]

# What is before the declarations: the script makes all of them the same
HEADERS = {
    "ms_union last": HEAD.replace("pointer_default(unique)", "pointer_default(unique),\n    ms_union"),
    "ms_union first": HEAD.replace("    uuid", "    ms_union,\n    uuid"),
    "ms_union in the middle": HEAD.replace("    version", "    ms_union,\n    version"),
    "in one line, without blanks": '[uuid("11111111-2222-3333-4444-555555555555"),ms_union,version(1.0),pointer_default(unique)]\n',
    "with imports": 'import "ms-dtyp.idl";\n  import "ms-lsad.idl", "ms-samr.idl";\n' + HEAD,
}


def translated(text: str) -> str:
    """What the script makes of a file."""
    ran = subprocess.run(["sed", "-E", "-f", str(REAL / "windows.sed")], input=text, stdout=subprocess.PIPE, stderr=subprocess.STDOUT, universal_newlines=True)
    if "GNU" not in subprocess.run(["sed", "--version"], stdout=subprocess.PIPE, stderr=subprocess.STDOUT, universal_newlines=True).stdout:
        raise LeftOut("there is no GNU sed")
    return ran.stdout


def differs(wanted: str, found: str) -> list:
    return [] if wanted == found else [f"wanted {wanted!r}", f"found {found!r}"]


def run(program: str, words: list, made: str, given: bytes = b"") -> subprocess.CompletedProcess:
    """Runs the program on a file that the script made."""
    with TemporaryDirectory() as folder:
        for name, content in {**FILES, "t.idl": made.encode()}.items():
            path = Path(folder, name)
            path.parent.mkdir(parents=True, exist_ok=True)
            path.write_bytes(content)
        return subprocess.run([program, *words], cwd=folder, input=given, stdout=subprocess.PIPE, stderr=subprocess.PIPE)


def of_row(row: Row) -> CheckOf:
    """The case of a row: what the script makes, and its octets or its refusal."""

    def find(program: str) -> list:
        made = translated(f"{HEAD}interface t\n{{\n{row.before}\n}}\n")
        wrong = differs(f"{MADE}interface t\n{{\n{IMPORT}{row.after}\n}}\n", made)
        if row.told:
            told = run(program, ["compile", "t.idl", "-"], made).stderr.decode()
            return wrong + ([] if re.fullmatch(rf"idl t\.idl:\d+:\d+: {row.told}.*\n", told) else [f"found {told!r}"])
        values = lines(f"values 2 op f in {row.values}")
        ran = run(program, ["encode", "t.idl", "-", "f", "in", "little", "1"], made, values)
        return wrong + differs(octets(row.octets).hex(" "), ran.stdout.hex(" ")) + differs("", ran.stderr.decode())

    return CheckOf(f"windows.sed: {row.name}", find)


def of_header(name: str, head: str) -> Check:
    """The case of a header."""

    def find() -> list:
        made = translated(f"{head}interface t {{\nvoid f();\n}}\n").lstrip("\n")
        return differs(f"{MADE}interface t {{\n{IMPORT}void f();\n}}\n", made)

    return Check(f"windows.sed: a header, {name}", find)


def names_of_pointers() -> list:
    """The names of pointers that windows.idl declares, and that the script does not know, or the other way round."""
    known = set(re.findall(r"\*(\w+)[,;]", "".join(re.findall(r"^  s/\$/(.*)/$", (REAL / "windows.sed").read_text(), flags=re.MULTILINE))))
    there = {name for line in (REAL / "windows.idl").read_text().splitlines() if re.match("  (typedef|})", line) for name in re.findall(r"\*(\w+)[,;]", line)}
    return [f"{name} is not in windows.sed" for name in sorted(there - known)] + [f"{name} is not in windows.idl" for name in sorted(known - there)]


CASES = [
    Check("windows.sed: knows the pointers of windows.idl", names_of_pointers),
    *(of_header(name, head) for name, head in HEADERS.items()),
    *map(of_row, ROWS),
]
