#!/usr/bin/env python3
"""The table of docs/INTERFACES.md: what bin/from-midl makes of the interface files of Samba and Wine.

    tests/interfaces.py --samba FOLDER --wine FOLDER [--c706] [--program PATH]

FOLDERs are the sources of the two (`apt-get source samba wine`, with deb-src in the list of sources). Prints the table. With --program each file that is written is
compiled too, and a line on standard error says which is refused. The status is 1 if one is.
"""

from __future__ import annotations

import argparse
import re
import subprocess
import sys
import tempfile
from pathlib import Path
from typing import Iterator, List, Optional, Sequence, Tuple

ROOT = Path(__file__).resolve().parent.parent
sys.path.insert(0, str(ROOT))

from midl.command import Translated, translated
from midl.report import BARE, NO_EQUIVALENT, NOT_COMPARED, PARTLY, Report
from midl.shapes import Sources
from midl.tokens import Refused

COLUMNS = ["whole", NOT_COMPARED, PARTLY, NO_EQUIVALENT]
PUBLISHED = set("""atsvc backupkey clusapi dnsserver drsuapi dssetup efs epmapper eventlog eventlog6 FileServerVssAgent frsrpc frstrans initshutdown iremotewinspool
    ITaskSchedulerService lsarpc mgmt netdfs netlogon ntsvcs samr spoolss srvsvc svcctl winreg witness wkssvc""".split())  # those of Samba and Wine that Microsoft publishes


def has_procedures(text: str) -> bool:
    """Whether a file may have an interface that is none of objects: one without a base."""
    starts = [match.start() for match in re.finditer(r"\]\s*interface\s+\w+\s*\{", text)]
    return any(not re.search(r"\b(object|odl|local)\b", text[max(0, at - 250):at].rpartition("}")[2]) for at in starts)


def counts(report: Report) -> List[int]:
    """The operations that the source describes, and how many are of each kind."""
    return [len(report.operations) - report.count(BARE), *(report.count(kind) for kind in COLUMNS)]


def made_of(paths: Sequence[Path], folders: Sequence[Path], windows: bool) -> Iterator[Tuple[Path, Optional[Translated]]]:
    """The interfaces of files; None for a file that cannot be read."""
    sources = Sources(folders)
    for path in paths:
        try:
            for _, made in translated(sources, sources.file(path), windows):
                yield path, made
        except Refused:
            yield path, None


def is_refused(program: str, made: Translated, windows: bool) -> bool:
    """Whether the compiler refuses a file."""
    with tempfile.TemporaryDirectory() as folder:
        (Path(folder) / "t.idl").write_text(made.text)
        words = [program, *(["windows"] if windows else []), "compile", "t.idl", "-"]
        ran = subprocess.run(words, cwd=folder, stdout=subprocess.DEVNULL, stderr=subprocess.PIPE)
        if ran.returncode:
            print(f"{made.name}: {ran.stderr.decode().strip()}", file=sys.stderr)
        return ran.returncode != 0


def row(name: str, numbers: Sequence[int]) -> str:
    """A line of the table."""
    return f"| {name} | {' | '.join(map(str, numbers))} |"


def main() -> int:
    """Runs the command."""
    words = argparse.ArgumentParser(description=__doc__)
    words.add_argument("--samba", type=Path, required=True)
    words.add_argument("--wine", type=Path, required=True)
    words.add_argument("--c706", action="store_true")
    words.add_argument("--program")
    given = words.parse_args()
    samba = sorted((given.samba / "librpc/idl").glob("*.idl"))
    wine = [path for path in sorted(given.wine.glob("**/*.idl")) if has_procedures(path.read_text(errors="replace"))]
    print("| Interface | Operations | Whole | Without some comparison | In part | A side without equivalent |\n|---|--:|--:|--:|--:|--:|")
    refused, all_published = 0, [0] * 5
    for title, paths, folders in (("Samba", samba, [given.samba / "librpc/idl"]), ("Wine", wine, [given.wine / "include", given.wine / "include/wine"])):
        sums, unread, seen = [0] * 5, 0, set()
        for path, made in made_of(paths, folders, not given.c706):
            if made is None:
                unread += 1
                continue
            numbers = counts(made.report)
            if not numbers[0] or (made.name, *numbers) in seen:
                continue
            seen.add((made.name, *numbers))
            refused += given.program is not None and is_refused(given.program, made, not given.c706)
            sums = [a + b for a, b in zip(sums, numbers)]
            if made.name in PUBLISHED:
                all_published = [a + b for a, b in zip(all_published, numbers)]
            print(row(f"`{made.name}` ({title})", numbers))
        print(row(f"**all of {title}**", sums))
        if unread:
            print(f"{title}: {unread} files cannot be read", file=sys.stderr)
    print(row("**those that Microsoft publishes**", all_published))
    return int(refused > 0)


if __name__ == "__main__":
    sys.exit(main())
