"""The tokens of an interface file, after the directives that such files use: #include, #define, #if, and the line marks of cpp."""

from __future__ import annotations

import re
from dataclasses import dataclass
from pathlib import Path
from typing import Callable, Dict, List, Mapping, NamedTuple, Optional, Sequence, Tuple

from .constants import NotConstant, evaluate

PIECE = re.compile(
    r"""(?P<blank>[ \t\r\f\v]+|//[^\n]*|/\*.*?\*/|\\\r?\n)|(?P<line>\n)|(?P<uuid>[0-9a-fA-F]{8}-[0-9a-fA-F]{4}-[0-9a-fA-F]{4}-[0-9a-fA-F]{4}-[0-9a-fA-F]{12})
    |(?P<word>[A-Za-z_]\w*)|(?P<number>\.?\d(?:[eEpP][+-]|[\w.])*)|(?P<text>L?"(?:[^"\\\n]|\\.)*")|(?P<char>L?'(?:[^'\\\n]|\\.)+')
    |(?P<mark>\.\.\.?|->|<<|>>|&&|\|\||[<>=!]=|\#\#|[^\s\w])""", re.VERBOSE | re.DOTALL)
MARK_OF_LINE = re.compile(r'(?:line[ \t]+)?(\d+)(?:[ \t]+"((?:[^"\\]|\\.)*)")?')


class Place(NamedTuple):
    """Where a thing begins in the source."""

    file: str
    line: int
    column: int

    def __str__(self) -> str:
        return f"{self.file}:{self.line}:{self.column}"


class Token(NamedTuple):
    """A piece of text: its kind is uuid, word, number, text, char or mark, or line, for the end of a line."""

    kind: str
    text: str
    place: Place


class Refused(Exception):
    """A file that cannot be read; where, and why."""

    def __init__(self, place: Place, why: str) -> None:
        super().__init__(f"{place}: {why}")


@dataclass(frozen=True)
class Macro:
    """What #define gave a name; `parameters` is None if it has no brackets."""

    parameters: Optional[Tuple[str, ...]]
    body: Tuple[Token, ...]


def cut(text: str, name: str) -> List[Token]:
    """The tokens of a text, with the ends of its lines."""
    found: List[Token] = []
    at, line, start = 0, 1, 0
    for match in PIECE.finditer(text):
        if match.start() != at:
            break
        at = match.end()
        kind, piece = match.lastgroup or "", match.group()
        if kind != "blank":
            found.append(Token(kind, piece, Place(name, line, match.start() - start + 1)))
        if "\n" in piece:
            line, start = line + piece.count("\n"), match.start() + piece.rindex("\n") + 1
    if at < len(text):
        raise Refused(Place(name, line, at - start + 1), f"no token begins with {text[at]!r}")
    return found


class Preprocessor:
    """Follows the directives of a file and of those that it includes."""

    def __init__(self, find: Callable[[str, str], Optional[Path]]) -> None:
        self.find = find  # the path of an included file, by its name and the name of the file that includes it
        self.macros: Dict[str, Macro] = {}
        self.missing: List[Token] = []  # included files that were not found, by the tokens of their names
        self.included = 0
        self.done: List[Token] = []
        self.waiting: List[Token] = []  # tokens whose macros are not expanded yet

    def read(self, path: Path, name: str) -> List[Token]:
        """The tokens of a file, without those that its directives leave out."""
        self.follow(cut(path.read_text(encoding="utf-8", errors="replace"), name))
        self.flush()
        return self.done

    def flush(self) -> None:
        """Expands what waits, by the macros that are known here."""
        self.done += self.expand(self.waiting)
        self.waiting = []

    def follow(self, pieces: Sequence[Token]) -> None:
        """Carries out the directives, line by line."""
        kept: List[bool] = []  # for each open #if, whether its lines are kept
        taken: List[bool] = []  # and whether one of its branches was
        shift: Tuple[Optional[str], int] = (None, 0)  # what the last line mark said: the name, and what it adds to lines
        at = 0
        while at < len(pieces):
            end = at
            while end < len(pieces) and pieces[end].kind != "line":
                end += 1
            row = list(pieces[at:end])
            if row and row[0].text == "#":
                mark = self.directive(row, kept, taken)
                if mark is not None:
                    shift = (mark[0] or shift[0], mark[1] - row[0].place.line - 1)
            elif all(kept):
                if shift[0] is not None:
                    row = [t._replace(place=Place(shift[0], t.place.line + shift[1], t.place.column)) for t in row]
                self.waiting += row
            at = end + 1

    def directive(self, row: List[Token], kept: List[bool], taken: List[bool]) -> Optional[Tuple[str, int]]:
        """Carries out a directive; answers what a line mark says."""
        if len(row) == 1:
            return None
        word, rest = row[1].text, row[2:]
        mark = MARK_OF_LINE.match(" ".join(t.text for t in row[1:]))
        if mark:
            return (mark[2] or "", int(mark[1]))
        if word in ("if", "ifdef", "ifndef"):
            holds = all(kept) and self.holds(word, rest)
            kept.append(holds)
            taken.append(holds)
        elif word in ("elif", "else") and kept:
            kept[-1] = not taken[-1] and all(kept[:-1]) and (word == "else" or self.holds("if", rest))
            taken[-1] = taken[-1] or kept[-1]
        elif word == "endif" and kept:
            kept.pop()
            taken.pop()
        elif not all(kept):
            pass
        elif word == "define" and rest:
            self.flush()
            self.define(rest)
        elif word == "undef" and rest:
            self.flush()
            self.macros.pop(rest[0].text, None)
        elif word == "include" and rest:
            self.include(rest)
        return None

    def holds(self, word: str, rest: Sequence[Token]) -> bool:
        """Whether the condition of an #if holds."""
        if word != "if":
            return (rest[0].text in self.macros) == (word == "ifdef")
        text = re.sub(r"\bdefined\s*\(?\s*(\w+)\s*\)?", lambda m: str(int(m[1] in self.macros)), " ".join(t.text for t in rest))
        words = [t.text for t in self.expand(cut(text, rest[0].place.file))]
        try:
            return evaluate([w if not re.match(r"[A-Za-z_]", w) else "0" for w in words], lambda name: 0) != 0
        except NotConstant:
            return False

    def define(self, rest: Sequence[Token]) -> None:
        """Keeps a macro; its brackets follow its name without a blank."""
        name, parameters, body = rest[0], None, rest[1:]
        if body and body[0].text == "(" and body[0].place.column == name.place.column + len(name.text):
            close = next(i for i, t in enumerate(body) if t.text == ")")
            parameters = tuple(t.text for t in body[1:close] if t.text != ",")
            body = body[close + 1:]
        self.macros[name.text] = Macro(parameters, tuple(body))

    def include(self, rest: Sequence[Token]) -> None:
        """Puts the tokens of an included file in its place."""
        name = rest[0].text.strip('"') if rest[0].kind == "text" else "".join(t.text for t in rest).strip("<>")
        self.included += 1
        path = self.find(name, rest[0].place.file)
        if path is None:
            self.missing.append(rest[0])
        elif self.included < 1000:
            self.follow(cut(path.read_text(encoding="utf-8", errors="replace"), str(path)))

    def expand(self, tokens: Sequence[Token], within: Tuple[str, ...] = ()) -> List[Token]:
        """Puts the bodies of macros in the place of their names."""
        if not self.macros:
            return list(tokens)
        found: List[Token] = []
        at = 0
        while at < len(tokens):
            token = tokens[at]
            at += 1
            macro = self.macros.get(token.text) if token.kind == "word" and token.text not in within else None
            if macro is None:
                found.append(token)
                continue
            body: Sequence[Token] = macro.body
            if macro.parameters is not None:
                if at == len(tokens) or tokens[at].text != "(":
                    found.append(token)
                    continue
                given, at = arguments(tokens, at)
                body = filled(body, dict(zip(macro.parameters, given)))
            found += self.expand([t._replace(place=token.place) for t in body], within + (token.text,))
        return found


def arguments(tokens: Sequence[Token], at: int) -> Tuple[List[List[Token]], int]:
    """The arguments in the brackets that open at a place, and the place after them."""
    found: List[List[Token]] = [[]]
    depth = 0
    while at < len(tokens):
        token = tokens[at]
        at += 1
        depth += {"(": 1, ")": -1}.get(token.text, 0)
        if depth == 0:
            break
        if token.text == "," and depth == 1:
            found.append([])
        elif depth > 1 or token.text != "(":
            found[-1].append(token)
    return found, at


def filled(body: Sequence[Token], given: Mapping[str, Sequence[Token]]) -> List[Token]:
    """The body of a macro with its arguments; `##` joins two tokens."""
    found: List[Token] = []
    joins = False
    for token in body:
        if token.text == "##":
            joins = True
            continue
        parts = list(given.get(token.text, [token]))
        if joins and found and parts:
            found[-1] = found[-1]._replace(text=found[-1].text + parts[0].text)
            parts = parts[1:]
        found += parts
        joins = False
    return found
