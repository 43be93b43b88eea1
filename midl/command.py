"""bin/from-midl FILE.. -o FOLDER [--c706]"""

from __future__ import annotations

import sys
from pathlib import Path
from typing import Iterator, List, NamedTuple, Sequence, Tuple

from .report import Report
from .shapes import Sources
from .tokens import Refused
from .tree import File, Interface, find
from .writer import Writer

USAGE = """usage: from-midl FILE.. -o FOLDER [--c706]
writes NAME.idl and NAME.report into FOLDER for each interface of the files
--c706  writes the language of docs/IDL.md, and not that of Windows
"""


class Translated(NamedTuple):
    """An interface in the language that is written."""

    name: str
    text: str
    report: Report


def why_not(interface: Interface) -> str:
    """Why an interface has no file; nothing if it has one."""
    if find(interface.attributes, "object", "odl", "dual", "oleautomation") or interface.base:
        return "an interface of objects"
    if find(interface.attributes, "uuid") is None:
        return "no uuid"
    if not interface.operations:
        return "no operations"
    return ""


def translated(sources: Sources, file: File, windows: bool) -> Iterator[Tuple[Interface, Translated]]:
    """The interfaces of a file that are written."""
    for interface in file.interfaces:
        if not why_not(interface):
            writer = Writer(sources.scope(file), interface, windows)
            text = writer.write()
            for token in sources.missing[file.name]:
                writer.report.add("left out", token.place, f"{token.text}, which was not found; names that all files of Windows know are known")
            for place, why in file.skipped:
                writer.report.add("left out", place, why)
            yield interface, Translated(interface.name, text, writer.report)


def main(words: Sequence[str]) -> int:
    """Runs the command; answers its status."""
    windows, folder = "--c706" not in words, None
    rest: List[str] = [w for w in words if w != "--c706"]
    if "-o" in rest and rest.index("-o") + 1 < len(rest):
        at = rest.index("-o")
        folder = Path(rest[at + 1])
        del rest[at:at + 2]
    if folder is None or not rest or any(w.startswith("-") for w in rest):
        sys.stderr.write(USAGE)
        return 2
    folder.mkdir(parents=True, exist_ok=True)
    sources, status = Sources([Path(w).resolve().parent for w in rest]), 0
    for name in rest:
        try:
            file = sources.file(Path(name))
            for interface, made in translated(sources, file, windows):
                (folder / f"{made.name}.idl").write_text(made.text)
                (folder / f"{made.name}.report").write_text(made.report.text(f"interface {made.name}"))
                print(made.report.text(f"interface {made.name}").splitlines()[0])
            for interface in file.interfaces:
                if why_not(interface):
                    print(f"{interface.place}: {interface.name}: {why_not(interface)}, so no file")
        except (Refused, OSError) as fault:
            print(f"{fault}", file=sys.stderr)
            status = 1
    return status
