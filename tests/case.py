"""What a file of cases is written with: a case, and short words for what it holds."""

from __future__ import annotations

import os
import re
from dataclasses import dataclass, field
from enum import Enum
from pathlib import Path
from typing import Callable, List, Mapping, Optional, Sequence, Tuple, Union

ROOT = Path(__file__).resolve().parent.parent


class Stream(Enum):
    """A standard stream that is no pipe between the runner and the program. The value is the shell's redirection."""

    CLOSED = "&-"
    """The stream is closed before the program begins."""
    FULL = "/dev/full"
    """Of out and notes: a device on which each write fails."""
    FOLDER = "."
    """Of the input: a folder, of which each read fails."""
    ENDLESS = "/dev/zero"
    """Of the input: zero octets without an end."""
    UNREAD = ""
    """Of out and notes: a pipe that nobody reads any more. The runner makes it."""


CLOSED, FULL, FOLDER, ENDLESS, UNREAD = Stream


@dataclass(frozen=True)
class OneAtATime:
    """An input of which each octet is written only once the program has taken the one before."""

    octets: bytes


@dataclass(frozen=True)
class Sparse:
    """An input of so many equal octets, from a file. Zero octets take no room."""

    length: int
    octet: bytes = b"\0"


@dataclass(frozen=True)
class Begins:
    """What is wanted is this and at least one octet more."""

    start: bytes


class LeftOut(Exception):
    """A case that cannot be judged on this machine. Its text says what is missing."""


class Folder:
    """A folder in the place of a file."""


class Unreadable:
    """An empty file that its owner may not read. Root reads it all the same."""


@dataclass(frozen=True)
class LinkTo:
    """A symbolic link in the place of a file."""

    target: str


Content = Union[bytes, Folder, Unreadable, LinkTo]
Word = Union[str, bytes]


@dataclass(frozen=True)
class Case:
    """One run of the real program in a fresh folder, and what has to come of it.

    `words` are the words after the program's name. `files` are made in the folder that the program runs in; a file that
    is not among them is missing. `room` is how many octets of address space the run may take. `slow` is set if the run
    takes long with a program that was made without proof. What is left out has its usual value: no input, nothing
    written, status 0, no limit.
    """

    name: str
    words: Sequence[Word]
    files: Mapping[str, Content] = field(default_factory=dict)
    input: Union[bytes, OneAtATime, Sparse, Stream] = b""
    out: Union[bytes, Begins, Stream] = b""
    notes: Union[bytes, Stream] = b""
    status: int = 0
    ends: Mapping[str, bytes] = field(default_factory=dict)
    left: Optional[bytes] = None
    room: Optional[int] = None
    slow: bool = False


@dataclass(frozen=True)
class Late:
    """A large case, which is made when it runs."""

    name: str
    make: Callable[[], Case]


@dataclass(frozen=True)
class Command:
    """A command line as a page of this repository shows it, run by a shell at the top of the clone.

    `shown` is what it prints on standard output and standard error together. The names bin/dceidl and bin/try mean the
    program that is tested. It is left out on a machine that lacks a program of the line. `alone` is set if no other case
    may run at the same time, as of a line that writes a file.
    """

    name: str
    line: str
    shown: bytes
    alone: bool = False
    slow: bool = False


@dataclass(frozen=True)
class Check:
    """A case of another kind: `find` answers what is wrong, a line each, or raises LeftOut. It may run bin/dceidl by itself."""

    name: str
    find: Callable[[], Sequence[str]]
    runs_script: bool = False


@dataclass(frozen=True)
class CheckOf:
    """A case of the program that is tested: `find` takes its path, and answers what is wrong, a line each."""

    name: str
    find: Callable[[str], Sequence[str]]
    slow: bool = False


def octets(text: str) -> bytes:
    """Octets from hexadecimal digits; spaces mean nothing."""
    return bytes.fromhex(text)


def lines(*texts: str) -> bytes:
    """Lines of text, each with its line feed."""
    return "".join(text + "\n" for text in texts).encode()


def blocks(page: str) -> List[str]:
    """The blocks of a page that are indented by four spaces."""
    found = re.findall(r"(?:^    .*\n)+", (ROOT / page).read_text(encoding="utf-8"), flags=re.MULTILINE)
    return ["".join(line[4:] for line in block.splitlines(keepends=True)) for block in found]


def commands(page: str) -> List[Command]:
    """The lines of a page that begin with `$`, in blocks of four spaces, each with the lines that it shows after it."""
    found: List[Tuple[str, List[str]]] = []
    open_block = False
    for text in (ROOT / page).read_text(encoding="utf-8").splitlines():
        if text.startswith("    $ "):
            found.append((text[6:], []))
            open_block = True
        elif open_block and text.startswith("    "):
            found[-1][1].append(text[4:])
        else:
            open_block = False
    return [Command(f"{page}: {line}", line, lines(*shown)) for line, shown in found]


def interface(*operations: str, name: str = "t") -> bytes:
    """A plain interface file with these operations, a line each; the first is on line 3."""
    return lines("[uuid(11111111-2222-3333-4444-555555555555)]", f"interface {name} {{", *operations, "}")


def example(name: str) -> bytes:
    """The content of a file of examples/."""
    return (ROOT / "examples" / name).read_bytes()


def printable(word: Word) -> str:
    """A word as a reader of a failure sees it."""
    return ascii(os.fsdecode(word))
