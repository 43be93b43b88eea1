"""What a file says: declarations, as they are written."""

from __future__ import annotations

from dataclasses import dataclass, field
from typing import Dict, List, Optional, Sequence, Tuple, Union

from .tokens import Place, Token


@dataclass(frozen=True)
class Attribute:
    """A word in square brackets, and its arguments, if it has brackets of its own."""

    name: str
    arguments: Optional[Tuple[Tuple[Token, ...], ...]]
    place: Place

    def words(self, index: int = 0) -> List[str]:
        """The words of an argument."""
        return [t.text for t in self.arguments[index]] if self.arguments and index < len(self.arguments) else []

    def __str__(self) -> str:
        return self.name + ("" if self.arguments is None else f"({', '.join(spelled(a) for a in self.arguments)})")


Attributes = Tuple[Attribute, ...]


def spelled(tokens: Sequence[Token]) -> str:
    """Tokens as a text; a blank is between two words."""
    text = ""
    for token in tokens:
        text += " " * (text[-1:].isalnum() and token.text[:1].isalnum()) + token.text
    return text


@dataclass(frozen=True)
class Simple:
    """A type of the language: its words, such as `unsigned long`."""

    words: Tuple[str, ...]
    place: Place


@dataclass(frozen=True)
class Named:
    """The name of a type; `kind` is struct, union, enum or bitmap if that word is before it."""

    name: str
    kind: str
    place: Place


@dataclass(frozen=True)
class Declarator:
    """A declared name with its stars and bounds; a bound without tokens is []."""

    name: str
    stars: int
    bounds: Tuple[Tuple[Token, ...], ...]
    place: Place


@dataclass
class Field:
    """A member, parameter or arm, with the labels of an arm (None for `default`). An empty arm has no type."""

    attributes: Attributes
    type: Optional["Type"]
    declarator: Declarator
    labels: List[Optional[Tuple[Token, ...]]] = field(default_factory=list)


@dataclass(eq=False)
class Body:
    """A struct, union, enum or bitmap with its body. `tag` of a union is the type and name in `switch (..)`, and the name of its union part."""

    kind: str
    name: str
    attributes: Attributes
    place: Place
    fields: List[Field] = field(default_factory=list)
    values: List[Tuple[Token, Tuple[Token, ...]]] = field(default_factory=list)
    tag: Optional[Tuple["Type", str, str]] = None


@dataclass(eq=False)
class Pipe:
    """A pipe of elements."""

    element: "Type"
    place: Place


Type = Union[Simple, Named, Body, Pipe]


@dataclass(eq=False)
class Typedef:
    """A name for a type, in the interface (or outside of all) where it is declared."""

    attributes: Attributes
    type: Type
    declarator: Declarator


@dataclass(eq=False)
class Constant:
    """A constant."""

    name: str
    value: Tuple[Token, ...]
    place: Place


@dataclass(eq=False)
class Operation:
    """An operation."""

    attributes: Attributes
    result: Type
    stars: int
    name: str
    parameters: List[Field]
    place: Place


@dataclass(eq=False)
class Interface:
    """An interface, with its operations in the order of the text."""

    attributes: Attributes
    name: str
    base: str
    place: Place
    operations: List[Operation] = field(default_factory=list)


@dataclass(eq=False)
class File:
    """A file: what it declares, by name, and what it imports."""

    name: str
    is_pidl: bool = False
    interfaces: List[Interface] = field(default_factory=list)
    types: Dict[str, Union[Typedef, Body]] = field(default_factory=dict)
    tags: Dict[str, Body] = field(default_factory=dict)
    constants: Dict[str, Union[Constant, Tuple[Body, int]]] = field(default_factory=dict)
    imports: List[Token] = field(default_factory=list)
    pointer_defaults: Dict[int, str] = field(default_factory=dict)  # by the identity of a declaration
    skipped: List[Tuple[Place, str]] = field(default_factory=list)


def find(attributes: Sequence[Attribute], *names: str) -> Optional[Attribute]:
    """The first attribute with one of these names."""
    return next((a for a in attributes if a.name in names), None)
