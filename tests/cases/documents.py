"""The pages of docs/ whose tables and examples are texts with what is reported of them: each is run as the page shows it.

docs/BRINGING-YOUR-IDL.md has bringing.py, and README.md has readme.py.
"""

import re
from typing import Dict, Iterator, List, Tuple

from case import ROOT, Begins, Case, Check, blocks, commands, lines

SPAN = re.compile(r"`([^`]+)`")
RULES = 40


def page(name: str) -> str:
    return (ROOT / "docs" / name).read_text(encoding="utf-8")


def table(text: str, *header: str) -> Iterator[List[str]]:
    """The rows of the table with this header; `\\|` within a cell is a `|`."""
    rows = iter(text.splitlines())
    head = f"| {' | '.join(header)} |"
    if head not in text.splitlines():
        raise ValueError(f"there is no table {head}")
    while next(rows) != head:
        pass
    next(rows)
    for row in rows:
        if not row.startswith("|"):
            return
        yield [cell.strip().replace("\\|", "|") for cell in re.split(r"(?<!\\)\|", row)[1:-1]]


def compiled(name: str, files: Dict[str, str], acf: str = "-", **wanted) -> Case:
    """The compilation of t.idl among these files."""
    return Case(name, ["compile", "t.idl", acf], {file: text.encode() for file, text in files.items()}, **wanted)


def refused(name: str, files: Dict[str, str], line: str, acf: str = "-") -> Case:
    return compiled(name, files, acf, notes=lines(f"idl {line}"), status=6)


def accepted(name: str, files: Dict[str, str], acf: str = "-") -> Case:
    return compiled(name, files, acf, out=Begins(b"interface t version "))


# ----------------------------------------------------------------------------------------------------------------------
# docs/IDL.md

IDL = page("IDL.md")


def within(text: str) -> str:
    """A text of the page as a file: a whole one, or declarations of an interface."""
    return text if "interface " in text else f"[local] interface t {{ {text} }}"


def of_rules() -> Iterator[Tuple[int, Case]]:
    """The smallest text for each rule, and one near it. The rows of rule 39 are too long for texts: idl_rules.py has them."""
    for number, name, column, broken, kept in table(IDL, "N", "Name", "Column", "Breaks it", "Keeps all"):
        told = f"docs/IDL.md, rule {number}, {name}"
        texts = [SPAN.findall(cell) for cell in (broken, kept)]
        if number == "40":
            files = [{"t.idl": within(""), "t.acf": text} for (text,) in texts]
            yield 40, refused(told, files[0], f"t.acf:1:{column}: Rule 40", "t.acf")
            yield 40, accepted(f"{told}, kept", files[1], "t.acf")
        elif number != "39" and texts[0]:
            yield int(number), refused(told, {"t.idl": within(*texts[0])}, f"t.idl:1:{column}: Rule {number}")
            yield int(number), accepted(f"{told}, kept", {"t.idl": within(*(texts[1] or [""]))})


OF_RULES = list(of_rules())


def rules_without_texts() -> List[str]:
    """The rules of which the page has no text."""
    found = {number for number, _ in OF_RULES}
    return [f"docs/IDL.md has no text of rule {number}" for number in range(1, RULES + 1) if number not in found | {39}]


# The texts of the table of section 12 that are too long for it, or that need other files.
DEEP = f"const long A = {'(' * 64}1{')' * 64};"
CHAIN = {f"u{at}.idl": f'[local] interface u {{ import "u{at + 1}.idl"; }}' for at in range(1, 63)}
LONG = {
    "TooLong": {"t.idl": " " * 1_048_577},
    "Deep": {"t.idl": within(DEEP)},
    "TooMany": {"t.idl": within('import "u1.idl";'), **CHAIN, "u63.idl": within('import "v.idl";'), "v.idl": within("")},
}


def of_refusals() -> Iterator[Case]:
    """The text for each WHAT."""
    for what, _, text, line in table(IDL, "WHAT", "When", "Such a text", "Its line"):
        kind, texts, told = SPAN.findall(what)[0], SPAN.findall(text), SPAN.findall(line)[0]
        name = f"docs/IDL.md, section 12, {kind}"
        files = LONG.get(kind) or {"t.idl": within(texts[0] if texts else "")}
        if kind == "Rule 40":
            yield refused(name, {"t.idl": within(""), "t.acf": texts[-1]}, told, "t.acf")
        elif kind == "NoOperation NAME":
            words = ["encode", "t.idl", "-", "f", "in", "little", "1"]
            yield Case(name, words, {file: content.encode() for file, content in files.items()}, notes=lines(f"idl t.idl: {told}"), status=6)
        else:
            yield refused(name, files, told if ".idl:" in told else f"t.idl:{told}")


def of_expressions() -> Iterator[Case]:
    """The expressions with their values, or what they are refused for."""
    for expressions, values in table(IDL, "Expression", "Value"):
        for expression, value in zip(SPAN.findall(expressions), values.split(", ")):
            name = f"docs/IDL.md, {expression} is {value}"
            if value.lstrip("-").isdigit():
                yield accepted(name, {"t.idl": within(f"typedef long a[({expression}) == {value}];")})
            else:
                at = len(within("const long A = ")[:-2]) + re.search(r"<<|%", expression).start() + 1
                yield refused(name, {"t.idl": within(f"const long A = {expression};")}, f"t.idl:1:{at}: {value}")


# ----------------------------------------------------------------------------------------------------------------------
# docs/LISTING.md, docs/ACF.md, docs/TEXT.md


def of_listing() -> Case:
    """The example of the listing: the first block lists the second."""
    listing, text = blocks("docs/LISTING.md")[:2]
    return compiled("docs/LISTING.md: the example", {"t.idl": text}, out=listing.encode())


def of_decoding() -> Case:
    """The stream of docs/DECODING.md: its octets mean its text."""
    idl, dump, text = blocks("docs/DECODING.md")[:3]
    stream = bytes.fromhex("".join(line.split(":")[1] for line in dump.splitlines()))
    return Case("docs/DECODING.md: the stream", ["decode", "t.idl", "-", "put", "in", "little"], {"t.idl": idl.encode()}, stream, text.encode())


def of_windows() -> Iterator[Case]:
    """The interfaces of docs/WINDOWS.md are of the windows language alone, and the values are of the first."""
    _, counted, values, *others = blocks("docs/WINDOWS.md")
    for at, text in enumerate([counted, *others], 1):
        files = {"t.idl": within(text).encode()}
        yield Case(f"docs/WINDOWS.md: interface {at}", ["windows", "compile", "t.idl", "-"], files, out=Begins(b"interface t version "))
        yield Case(f"docs/WINDOWS.md: interface {at} is none of C706", ["compile", "t.idl", "-"], files, notes=Begins(b"idl t.idl:"), status=6)
    given = bytes.fromhex("0a000c00" "02000000" "06000000" "00000000" "05000000" "5300" "6500" "6500" "6400" "6f00")
    yield Case("docs/WINDOWS.md: the values", ["windows", "decode", "t.idl", "-", "name", "in", "little"], {"t.idl": within(counted).encode()}, given,
               values.encode())


def of_acf() -> List[str]:
    """The example of an attribute file is the one that the examples have."""
    return [] if (ROOT / "examples" / "letters.acf").read_text() in blocks("docs/ACF.md") else ["the page has another text than examples/letters.acf"]


TEXT = page("TEXT.md")
DECLARATIONS = blocks("docs/TEXT.md")[1]


def text_of(version: int, shown: str) -> bytes:
    """A text of `f` with the lines that a cell of the page has."""
    return lines(f"values {version}", "op f in", *SPAN.findall(shown))


def migrated(name: str, parameters: str, given: bytes, **wanted) -> Case:
    """A text of an operation `f` with these parameters and the page's declarations."""
    files = {"t.idl": within(f"{DECLARATIONS} void f({SPAN.findall(parameters)[0]});").encode()}
    return Case(f"docs/TEXT.md, {name}", ["migrate", "t.idl", "-", "f", "in"], files, given, **wanted)


def of_forms() -> Iterator[Case]:
    """The values of each form of type on the page, read in both versions, and printed as the page shows them."""
    rows = [(form, parameters, shown, shown) for form, _, parameters, shown in table(TEXT, "Type", "How a value is written", "Such parameters", "Their lines")]
    rows += table(TEXT, "Type", "Such parameters", "Version 2", "Version 1")
    for form, parameters, second, first in rows:
        for version, given in ((1, first), (2, second)):
            yield migrated(f"{form}, version {version}", parameters, text_of(version, given), out=text_of(2, second))


def of_misfits() -> Iterator[Case]:
    """The values of the page that do not conform, with their paths and reasons."""
    for reason, _, parameters, shown, path in table(TEXT, "Reason", "When", "Such parameters", "Their lines", "Its path"):
        yield migrated(reason, parameters, text_of(2, shown), notes=lines(f"refused: value at {SPAN.findall(path)[0]}: {reason}"), status=1)


def of_texts() -> Iterator[Case]:
    """The value texts of the page that are refused, and where."""
    for reason, _, text, place in table(TEXT, "Reason", "When", "Such a text", "Its place"):
        if SPAN.findall(text):
            yield Case(f"docs/TEXT.md, {reason}: {text}", ["encode", "t.idl", "-", "f", "in", "little", "1"],
                       {"t.idl": within("void f([in] long a);").encode()}, SPAN.findall(text)[0].encode(),
                       notes=lines(f"refused: text {SPAN.findall(place)[0]}: {reason}"), status=1)


# ----------------------------------------------------------------------------------------------------------------------
# What pages name

PLACE = re.compile(r"`(\w+): (specs|src|proofs)/(?:\w+/)*(\w+)(?:\.\w+)?(?:, (\w+))?`((?:, `\w+`)*)")


def named_in(path: str, name: str) -> bool:
    """Whether a file, or one below a folder, of this name holds a word."""
    return any(re.search(rf"\b{name}\b", file.read_text(encoding="utf-8")) for file in ROOT.glob(path))


def wrong_places(text: str) -> Iterator[str]:
    """The definitions that a page names and that are not there: `crate: specs/File, name`, and further names after it."""
    for crate, folder, file, first, more in PLACE.findall(text):
        path = f"crates/{crate}/{folder}/**/{file}.*"
        if not any(ROOT.glob(path)):
            yield f"{crate}: {folder}/{file} is not there"
        for name in [first, *SPAN.findall(more)] if first else []:
            if not named_in(path, name):
                yield f"{crate}: {folder}/{file} has no {name}"


PATH = re.compile(r"`(crates/[\w/.{},*]+)`")


def spelled_out(path: str) -> List[str]:
    """A path with `{a,b}` as one path for each."""
    start, brace, rest = path.partition("{")
    if not brace:
        return [path]
    inner, _, after = rest.partition("}")
    return [whole for part in inner.split(",") for whole in spelled_out(start + part + after)]


def wrong_paths(text: str) -> Iterator[str]:
    """The paths of crates that a page names and that are not there. A word in capitals means any name."""
    for path in (whole for found in PATH.findall(text) for whole in spelled_out(found)):
        pattern = re.sub(r"[A-Z]{4,}", "*", path).rstrip("/")
        if not any(ROOT.glob(pattern)):
            yield f"{path} is not there"


def wrong_examples() -> Iterator[str]:
    """The worked examples that docs/NDR.md names and that are not there."""
    paths = [f"crates/example_ndr/{path}" for path in ("src/*.rt", "proofs/**/*.antt")]
    held = "".join(file.read_text(encoding="utf-8") for path in paths for file in ROOT.glob(path))
    for mark in re.findall(r"\*\*Example\*\*((?: |\n)+`\w+`(?:,(?: |\n)+`\w+`)*)", page("NDR.md")):
        for name in SPAN.findall(mark):
            if not re.search(rf"\b{name}\b", held):
                yield f"there is no example {name}"


def places_of_pages() -> List[str]:
    """What the pages name and the sources do not have."""
    pages = sorted(path.name for path in (ROOT / "docs").glob("*.md"))
    wrong = [f"docs/{name}: {it}" for name in pages for find in (wrong_places, wrong_paths) for it in find(page(name))]
    return wrong + [f"docs/NDR.md: {it}" for it in wrong_examples()]


CASES = [
    Check("docs: each definition, example and path that a page names is in the sources", places_of_pages),
    Check("docs/IDL.md: each rule has a text", rules_without_texts),
    *(case for _, case in OF_RULES),
    *of_refusals(),
    *of_expressions(),
    of_listing(),
    *commands("docs/LISTING.md"),
    Check("docs/ACF.md: the example", of_acf),
    of_decoding(),
    *of_windows(),
    *of_forms(),
    *of_misfits(),
    *of_texts(),
]
