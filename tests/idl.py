"""What cases of refused interface files are written with. In a text § is before the place that is reported, and is taken out."""

from __future__ import annotations

from typing import List, Optional, Tuple, Union

from case import Case, interface, lines, octets

MARK = "§"
SHOWN = 80
UUID = "11111111-2222-3333-4444-555555555555"
HEADER = f"[uuid({UUID})]"

Text = Union[str, bytes]


def marked(text: Text) -> Tuple[bytes, str]:
    """The octets of a text without its one mark, and LINE:COLUMN of what was after the mark."""
    before, after = (text.encode() if isinstance(text, str) else text).split(MARK.encode())
    column = len(before) - (before.rfind(b"\n") + 1) + 1
    return before + after, f"{before.count(10) + 1}:{column}"


def readable(text: Text) -> str:
    """A text on one line, and only the beginning and the end of a long one."""
    line = text if isinstance(text, str) else text.decode("utf-8", "backslashreplace")
    if len(line) > 2 * SHOWN:
        line = f"{line[:SHOWN]} .. {line[-SHOWN:]} ({len(line)} letters)"
    return "".join(letter if letter.isprintable() else ascii(letter)[1:-1] for letter in line)


def fault(what: str, text: Text, name: Optional[str] = None, operation: str = "f", file: str = "t.idl") -> Case:
    """A decoding by a file that is refused with `what` at the mark. Without a name the text is the name."""
    content, place = marked(text)
    return Case(f"idl, {what}: {readable(name or text)}", ["decode", file, "-", operation, "in", "little"], {file: content},
                octets("01"), notes=lines(f"idl {file}:{place}: {what}"), status=6)


def whole(what: str, *texts: str) -> List[Case]:
    """Files with these texts."""
    return [fault(what, text) for text in texts]


def header(what: str, *texts: str) -> List[Case]:
    """Files with these attributes of the interface."""
    return [fault(what, f"{text} interface t {{ void f([in] small x); }}\n", text) for text in texts]


def export(what: str, *texts: str) -> List[Case]:
    """Files of one operation of small numbers, followed by one of these on line 4."""
    return [fault(what, interface("void f([in] small x);", text), text) for text in texts]


def parameters(what: str, *texts: str) -> List[Case]:
    """Files of which the second operation has these parameters."""
    return export(what, *(f"void g({text});" for text in texts))


def value(what: str, *texts: str) -> List[Case]:
    """Files with a constant of this value."""
    return export(what, *(f"const long A = {text};" for text in texts))


def parsed(*texts: str) -> List[Case]:
    """Files with a constant of this value, which is of the language: the first fault is the empty declaration after it."""
    return export("Syntax", *(f"const long A = {text};{MARK};" for text in texts))
