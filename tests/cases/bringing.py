"""Each text of docs/BRINGING-YOUR-IDL.md is refused or accepted as the page says."""

import re
import subprocess
import tempfile

from case import ROOT, Begins, Case, Check, CheckOf, lines, octets

HEAD = "[uuid(11111111-2222-3333-4444-555555555555), version(1.0), pointer_default(unique)]\ninterface t {\n"
BASE = {"base.idl": b"[local] interface base { }"}
SPAN = re.compile(r"`([^`]+)`")
MANY = 90  # texts that the page has at least


def sections():
    """The sections of the page, by their headings."""
    parts = re.split(r"^## (.*)\n", (ROOT / "docs" / "BRINGING-YOUR-IDL.md").read_text(encoding="utf-8"), flags=re.MULTILINE)
    return dict(zip(parts[1::2], parts[2::2]))


def rows(section):
    """The rows of its tables: texts, what is reported of them, and what to write in their place."""
    for line in section.splitlines():
        cells = [SPAN.findall(cell) for cell in line.split(" | ")]
        if line.startswith("| `") and not line.startswith("| `[in") and len(cells) == 3:
            yield cells


def compiled(heading, text):
    """The words and files by which a text of a section is compiled, and the name that is reported."""
    if heading == "Attribute configuration files":
        idl = f"{HEAD}typedef long n; void f([in] long x);\n}}\n"
        return ["compile", "t.idl", "t.acf"], {"t.idl": idl.encode(), "t.acf": text.encode()}, "t.acf"
    whole = heading in ("The file and its header", "A whole file")
    content = text if whole else f"{HEAD}{text}\n}}\n"
    return ["compile", "t.idl", "-"], {"t.idl": content.encode(), **BASE}, "t.idl"


def refused(heading, text, told):
    """A text that is refused as the page says."""
    words, files, name = compiled(heading, text)
    return Case(f"bringing: {text}", words, files, notes=lines(f"idl {name}:{told}"), status=6)


def accepted(heading, text):
    """A text that the page has in the place of another."""
    words, files, _ = compiled(heading, text)
    return Case(f"bringing, accepted: {text}", words, files, out=Begins(b"interface "))


def of_rows():
    """The cases of all tables. One place is that of all texts of its row."""
    seen = set()
    for heading, section in sections().items():
        for texts, told, instead in rows(section):
            for at, text in enumerate(texts):
                yield refused(heading, text, told[min(at, len(told) - 1)])
            for text in instead:
                if text[-1] in ";}" and (heading, text) not in seen:
                    seen.add((heading, text))
                    yield accepted(heading, text)


def of_whole_files():
    """The two files that the page has as blocks."""
    blocks = re.findall(r"(?:^    .*\n)+", sections()["A whole file"], flags=re.MULTILINE)
    first, second = ("".join(line[4:] for line in block.splitlines(keepends=True)) for block in blocks)
    return [refused("A whole file", first, "1:1: BadOctet"), accepted("A whole file", second)]


def of_pointers():
    """The table of top-level pointers: the octets of each."""
    declared = "typedef struct { long v; } s, *ps;"
    found = []
    for line in sections()["Attributes and operations"].splitlines():
        cells = [SPAN.findall(cell) for cell in line.split(" | ")]
        if line.startswith("| `[in") and len(cells) == 3 and len(cells[1]) == 1:
            parameter, octets = cells[0][0], bytes.fromhex(cells[1][0])
            files = {"t.idl": f"{HEAD}{declared} void f({parameter});\n}}\n".encode()}
            text = lines("values 2", "op f in", "x = @1", "@1 = {v = 7}")
            found.append(Case(f"bringing, octets: {parameter}", ["encode", "t.idl", "-", "f", "in", "little", "1"], files, text, out=octets))
            found.append(Case(f"bringing, values: {parameter}", ["decode", "t.idl", "-", "f", "in", "little"], files, octets, out=text))
    return found


# A file of Windows, to which examples/real/windows.sed does all, and the octets of a request by MIDL
WINDOWS = """import "ms-dtyp.idl";
[
    uuid("11111111-2222-3333-4444-555555555555"),
    version(1.0),
    ms_union,
    pointer_default(unique)
]
interface t
{
typedef [handle, string] WCHAR *SERVER;
typedef struct _NAME
{
    unsigned short Length;
    unsigned short MaximumLength;
    [size_is(MaximumLength / 2), length_is(Length / 2)]
    wchar_t* Buffer;
} NAME, *PNAME;
typedef struct _INFO { [string] wchar_t * name; DWORD kind; } INFO, *PINFO, *LPINFO;
NET_API_STATUS f([in, string, unique] SERVER Server, [in, string] WCHAR * Share, [in, unique] LPDWORD Level, [in] PNAME Name, [out] LPINFO Info);
}
"""
REQUEST = lines("values 2 op f in Server = @1 Share = @2 Level = @3 Name = @4", "@1 = {offset = 0, actual = 2, letters = [115, 0]}",
                "@2 = {offset = 0, actual = 1, letters = [0]}", "@3 = 7", "@4 = {Length = 2, MaximumLength = 2, Buffer = @5}",
                "@5 = {offset = 0, actual = 1, letters = [110]}")
OCTETS = octets("01000000 02000000 00000000 02000000 73000000"  # Server: a unique pointer, and a string
                "01000000 00000000 01000000 0000 0000"  # Share: a string
                "03000000 07000000"  # Level: a unique pointer, and a number
                "0200 0200 05000000 01000000 00000000 01000000 6e00")  # Name: a struct, and the referent of its member


def by_sed(program):
    """What is wrong with what examples/real/windows.sed makes of a file of Windows: its request, encoded."""
    made = subprocess.run(["sed", "-E", "-f", "examples/real/windows.sed"], input=WINDOWS.encode(), cwd=ROOT, stdout=subprocess.PIPE).stdout
    with tempfile.NamedTemporaryFile(suffix=".idl") as file:
        file.write(made)
        file.flush()
        words = [program, "encode", file.name, "-", "f", "in", "little", "1"]
        ran = subprocess.run(words, input=REQUEST, cwd=ROOT, stdout=subprocess.PIPE, stderr=subprocess.PIPE)
    return [] if ran.stdout == OCTETS and ran.returncode == 0 else [f"found {ran.stdout.hex(' ')} {ran.stderr.decode()}"]


POINTERS = of_pointers()
TABLES = list(of_rows())
CASES = [
    Check("bringing: the page was read", lambda: [] if len(TABLES) >= MANY else [f"it has {len(TABLES)} texts, not {MANY}"]),
    Check("bringing: the table of pointers was read", lambda: [] if len(POINTERS) == 8 else [f"it has {len(POINTERS)} cases, not 8"]),
    *POINTERS,
    *of_whole_files(),
    CheckOf("bringing: a file of Windows by examples/real/windows.sed", by_sed),
    *TABLES,
]
