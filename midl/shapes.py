"""What a declared thing is on the wire: pointers and arrays, from the outermost inwards, of a base."""

from __future__ import annotations

import re
from dataclasses import dataclass, field, replace
from pathlib import Path
from typing import Dict, List, Optional, Sequence, Tuple, Union

from .constants import NotConstant, evaluate
from .parser import BIT_FIELD, FUNCTION, Parser
from .tokens import Place, Preprocessor, Token
from .tree import Attribute, Attributes, Body, Constant, Declarator, File, Named, Pipe, Simple, Type, Typedef, find, spelled

WIDE = "unsigned short"  # what a wide character is in the files that are written
SIGNED = {"char": "small", "small": "small", "short": "short", "long": "long", "hyper": "hyper"}
WIDTHS = {"__int64": "hyper", "__int3264": "long", "__int32": "long", "__int16": "short", "__int8": "small", "int": "long", "double": "hyper"}
OCTETS = {"boolean": 1, "char": 1, "byte": 1, "small": 1, "short": 2, "long": 4, "hyper": 8}
CLASSES = ("ref", "unique", "ptr")
COUNTS = ("size_is", "max_is", "length_is", "first_is", "last_is")
KEPT = {"in", "out", "string", "context_handle", "switch_is", "switch_type", "v1_enum", "enum8bit", "enum16bit", "bitmap8bit", "bitmap16bit", "bitmap32bit",
        "bitmap64bit", "case", "default", "range", *CLASSES, *COUNTS}
HARMLESS = {
    "handle", "public", "noprint", "gensize", "nosize", "noejs", "nopython", "helper", "pyhelper", "helpstring", "helpstringcontext", "helpcontext", "annotation", "id", "hidden",
    "value", "charset", "restricted", "source", "uidefault", "defaultvalue", "optional", "retval", "propget", "propput", "propputref", "readonly", "readable",
    "async", "nocode", "code", "disable_consistency_check", "strict_context_handle", "type_strict_context_handle", "context_handle_noserialize",
    "context_handle_serialize", "notify", "notify_flag", "enable_allocate", "allocate", "heap", "force_allocate", "idempotent", "broadcast", "maybe", "message",
    "input_sync", "vararg", "max_recursion", "skip", "skip_noinit", "print", "abstract", "uuid", "version", "dllname", "entry", "unused", "todo", "comm_status", "fault_status", "ms_union",
    "decode", "encode", "explicit_handle", "implicit_handle", "auto_handle", "pointer_default", "lcid", "displaybind", "bindable", "defaultbind", "requestedit",
    "nonextensible", "oleautomation", "noncreatable", "aggregatable", "appobject", "control", "custom", "usesgetlasterror", "replaceable", "nonbrowsable",
    "partial_ignore_off", "optimize", "nopush_off", "contract", "flags", "represent_as", "endpoint", "keyword", "depends", "async_uuid", "object_off"}
SHOWN_ONLY = {"LIBNDR_PRINT_ARRAY_HEX", "LIBNDR_FLAG_IS_SECRET", "NDR_PAHEX", "NDR_SECRET"}  # flags of libndr that change no octets


class Nothing(Exception):
    """A thing that has no equivalent in the language that is written; where, and why."""

    def __init__(self, place: Place, why: str) -> None:
        super().__init__(why)
        self.place, self.why = place, why


@dataclass(frozen=True)
class Count:
    """What size_is and the like say of a level."""

    attribute: str
    tokens: Tuple[Token, ...]
    place: Place

    def __str__(self) -> str:
        return f"{self.attribute}({spelled(self.tokens)})"


@dataclass(frozen=True)
class Level:
    """A pointer or an array. A pointer with `sized` points to a conformant array."""

    is_pointer: bool
    default: str = "unique"  # the class of a pointer for which nothing else is given
    given: str = ""  # the class that an attribute gives
    bound: Optional[int] = None
    sized: bool = False
    size: Optional[Count] = None
    lengths: Tuple[Count, ...] = ()
    string: bool = False

    @property
    def is_conformant(self) -> bool:
        return self.bound is None and (self.sized or not self.is_pointer)

    @property
    def is_fixed(self) -> bool:
        return not self.is_pointer and self.bound is not None and not self.lengths and not self.string


@dataclass(frozen=True)
class Primitive:
    """A number: its type, the name that the source has for it, and whether it is a letter (`char` or `wide`)."""

    text: str
    name: str = ""
    letter: str = ""
    enumeration: Optional[Body] = None


@dataclass(frozen=True)
class Special:
    """A type without parts: handle_t, a context handle or void."""

    kind: str
    name: str = ""


Base = Union[Primitive, Special, Body, Pipe]


@dataclass(frozen=True)
class Shape:
    """What a declared thing is, and the attributes that were met on the way to its base."""

    levels: Tuple[Level, ...]
    base: Base
    attributes: Attributes = ()


class Sources:
    """The files that are read, each once, and what a name means in each."""

    def __init__(self, folders: Sequence[Path]) -> None:
        self.folders = list(folders)
        self.files: Dict[str, File] = {}
        self.missing: Dict[str, List[Token]] = {}
        here = Path(__file__).resolve().parent
        self.built_in = [self.file(here / "pidl.idl"), self.file(here / "dtyp.idl")]

    def find(self, name: str, beside: str) -> Optional[Path]:
        """The path of a file that another one names."""
        for folder in [Path(beside).parent, *self.folders]:
            if (folder / name).is_file():
                return folder / name
        return None

    def file(self, path: Path) -> File:
        """A file, read."""
        name = str(path)
        if name not in self.files:
            reader = Preprocessor(self.find)
            self.files[name] = Parser(reader.read(path, name), name).read()
            self.missing[name] = reader.missing
        return self.files[name]

    def scope(self, file: File) -> "Scope":
        """What names mean in a file: what it declares, then what it imports, then what all know."""
        found: List[File] = [file]
        at = 0
        while at < len(found):
            for token in found[at].imports:
                path = self.find(token.text.strip('"'), found[at].name)
                if path is None:
                    self.missing[file.name].append(token)
                elif self.file(path) not in found:
                    found.append(self.file(path))
            at += 1
        return Scope(file, found + (self.built_in if file.is_pidl else self.built_in[1:]), self.built_in[0] if file.is_pidl else None)


class Scope:
    """What names mean in a file."""

    def __init__(self, file: File, files: Sequence[File], first: Optional[File]) -> None:
        self.file = file
        self.is_pidl = file.is_pidl
        self.types: Dict[str, Union[Typedef, Body]] = {}
        self.tags: Dict[str, Body] = {}
        self.constants: Dict[str, Union[Constant, Tuple[Body, int]]] = {}
        self.defaults: Dict[int, str] = {}
        for each in files:
            for name, value in each.types.items():
                self.types.setdefault(name, value)
            for name, body in each.tags.items():
                self.tags.setdefault(name, body)
            for name, constant in each.constants.items():
                self.constants.setdefault(name, constant)
            self.defaults.update(each.pointer_defaults)
        for name in ("dom_sid2", "dom_sid28") if first else ():  # libndr writes them by hand
            self.types[name] = first.types[name] if first else self.types[name]
        self.values: Dict[str, int] = {}

    # Constants

    def value(self, tokens: Sequence[Token]) -> int:
        """The value of a constant expression."""
        words = [t.text for t in self.without_types(tokens)]
        if not words:
            raise NotConstant("no expression")
        return evaluate(words, self.named_value)

    def without_types(self, tokens: Sequence[Token]) -> List[Token]:
        """An expression with sizes in the place of sizeof, and without casts."""
        found: List[Token] = []
        at = 0
        while at < len(tokens):
            token = tokens[at]
            close = next((i for i in range(at, len(tokens)) if tokens[i].text == ")"), at)
            if token.text == "sizeof" and close > at:
                found.append(token._replace(kind="number", text=str(self.octets(tokens[at + 2:close]))))
                at = close + 1
            elif token.text == "(" and close > at + 1 and all(t.kind == "word" and t.text not in self.constants for t in tokens[at + 1:close]):
                at = close + 1
            else:
                found.append(token)
                at += 1
        return found

    def octets(self, tokens: Sequence[Token]) -> int:
        """The size of a plain type."""
        shape = self.expand(Parser(list(tokens), self.file.name).type())
        if shape.levels or not isinstance(shape.base, Primitive):
            raise NotConstant("sizeof of a type with parts")
        return OCTETS[shape.base.text.split()[-1]]

    def named_value(self, name: str) -> int:
        """The value of a constant or an enumerator."""
        if name not in self.values:
            found = self.constants.get(name)
            if found is None:
                raise NotConstant(f"{name} is not known")
            self.constants.pop(name)  # one that needs itself is not known
            try:
                self.values[name] = self.value(found.value) if isinstance(found, Constant) else self.enumerator(*found)
            finally:
                self.constants[name] = found
        return self.values[name]

    def enumerator(self, body: Body, index: int) -> int:
        """The value of an enumerator."""
        tokens = body.values[index][1]
        if tokens:
            return self.value(tokens)
        return 0 if index == 0 else self.enumerator(body, index - 1) + 1

    # Types

    def expand(self, type: Type) -> Shape:
        """A type, with names of pointers and arrays followed to their base."""
        if isinstance(type, Simple):
            return Shape((), self.simple(type.words))
        if isinstance(type, Pipe):
            return Shape((), type)
        if isinstance(type, Body):
            return Shape((), self.number_of(type), type.attributes)
        found: Optional[Union[Typedef, Body]] = None
        if type.kind:
            found = self.tags.get(type.name)
        if found is None:
            found = self.types.get(type.name) or self.tags.get(type.name)
        if found is None and type.name == "DATA_BLOB" and self.is_pidl:
            return Shape((), Special("blob"))
        if isinstance(found, Typedef):
            inner = self.shape(found.type, found.attributes, found.declarator, self.defaults.get(id(found), "unique"), "typedef")
            return replace(inner, base=renamed(inner.base, type.name)) if not inner.levels else inner
        if isinstance(found, Body):
            return Shape((), self.number_of(found), found.attributes)
        raise Nothing(type.place, f"{type.kind} {type.name} is not declared".strip())

    def simple(self, words: Sequence[str]) -> Base:
        """A type of the language."""
        if words[0] in ("void", "handle_t"):
            return Special(words[0])
        if words[0] in ("boolean", "byte"):
            return Primitive(words[0], letter="char" if words[0] == "byte" else "")
        if words[0] == "wchar_t":
            return Primitive(WIDE, "wchar_t", "wide")
        if words[0] == "float":
            return Primitive("unsigned long")
        rest = [w for w in words if w not in ("unsigned", "signed")]
        width = next((w for w in rest if w != "int"), "int")
        width = WIDTHS.get(width, width)
        if width == "char":
            text = "small" if "signed" in words else "unsigned small" if "unsigned" in words or self.is_pidl else "char"
            return Primitive(text, "char" if text == "char" else "", "char")
        is_unsigned = "unsigned" in words or (self.is_pidl and rest == ["hyper"]) or rest == ["double"]
        letter = "wide" if (is_unsigned and width == "short") else "char" if width == "small" else ""
        return Primitive(("unsigned " if is_unsigned else "") + SIGNED[width], letter=letter)

    def number_of(self, body: Body) -> Base:
        """An enum or bitmap as the number that is sent; a struct or union as it is."""
        names = {a.name for a in body.attributes}
        if body.kind == "enum":
            text = "unsigned small" if "enum8bit" in names else "unsigned long" if "v1_enum" in names else "unsigned short"
            return Primitive(text, body.name, enumeration=body)
        if body.kind == "bitmap":
            widths = {"bitmap8bit": "unsigned small", "bitmap16bit": "unsigned short", "bitmap64bit": "unsigned hyper"}
            return Primitive(next((widths[n] for n in names if n in widths), "unsigned long"), body.name, enumeration=body)
        return body

    def shape(self, type: Type, attributes: Attributes, declarator: Declarator, default: str, place: str) -> Shape:
        """What a declarator of a type with attributes is."""
        if declarator.stars in (FUNCTION, BIT_FIELD):
            raise Nothing(declarator.place, "a pointer to a function" if declarator.stars == FUNCTION else "a bit field")
        body_of_typedef = isinstance(type, Body) and place == "typedef"
        if isinstance(type, Body) and body_of_typedef:
            inner = Shape((), self.number_of(replace_attributes(type, attributes)), type.attributes)
        else:
            inner = self.expand(type)
        levels = [self.array(bound, declarator) for bound in declarator.bounds] + [Level(True, default)] * declarator.stars + list(inner.levels)
        base = inner.base
        if not body_of_typedef:  # those of a body are looked at where it is written
            self.checked(attributes)
        if find(attributes, "context_handle") and isinstance(base, Special) and base.kind == "void" and levels and levels[-1].is_pointer:
            base = Special("context", declarator.name if place == "typedef" else "")
            levels.pop()
        self.give_class(levels, attributes, declarator)
        self.give_counts(levels, attributes, declarator)
        base = self.enclosed(levels, base, attributes, declarator, place)
        self.give_string(levels, base, attributes)
        own = tuple(a for a in attributes if a.name in ("range", "switch_is", "switch_type", "subcontext") or a.name in CLASSES)
        return Shape(tuple(levels), base, own + inner.attributes)

    def array(self, bound: Tuple[Token, ...], declarator: Declarator) -> Level:
        """The level of a bound."""
        if not bound or spelled(bound) == "*":
            return Level(False)
        try:
            return Level(False, bound=self.value(bound))
        except NotConstant as fault:
            raise Nothing(declarator.place, f"[{spelled(bound)}]: {fault}; an array whose count is not sent") from None

    def checked(self, attributes: Attributes) -> Attributes:
        """The attributes, none of which changes octets in a way that is not known."""
        for attribute in attributes:
            name = attribute.name
            if name == "flag":
                flags = {w for w in attribute.words() if re.match(r"\w", w)}
                if flags <= SHOWN_ONLY:
                    continue
                raise Nothing(attribute.place, str(attribute))
            if name in ("subcontext", "subcontext_size"):
                continue
            if name not in KEPT and name not in HARMLESS:
                raise Nothing(attribute.place, str(attribute))
        return attributes

    def give_class(self, levels: List[Level], attributes: Attributes, declarator: Declarator) -> None:
        """Gives the outermost pointer the class that an attribute states."""
        given = find(attributes, *CLASSES)
        if given is None or not levels:
            return
        if levels[0].is_pointer:
            levels[0] = replace(levels[0], given=given.name)
        elif given.name != "ref" and not (len(levels) > 1 and levels[1].is_pointer):
            raise Nothing(given.place, f"{given.name} on an array")

    def give_counts(self, levels: List[Level], attributes: Attributes, declarator: Declarator) -> None:
        """Gives each level what the lists of size_is and the like say of it."""
        for attribute in attributes:
            if attribute.name not in COUNTS or attribute.arguments is None:
                continue
            for index, tokens in enumerate(attribute.arguments):
                if not tokens:
                    continue
                if index >= len(levels):
                    raise Nothing(attribute.place, f"{attribute} on {declarator.name}, which has {len(levels)} levels")
                level, count = levels[index], Count(attribute.name, tokens, attribute.place)
                if attribute.name in ("size_is", "max_is"):
                    if level.is_pointer or level.bound is None:
                        level = replace(level, size=count, sized=True)
                else:
                    level = replace(level, lengths=level.lengths + (count,))
                levels[index] = level
        for index, level in enumerate(levels):
            if level.lengths and level.is_pointer and not level.sized:
                raise Nothing(level.lengths[0].place, f"{level.lengths[0]} on a pointer without size_is")

    def enclosed(self, levels: List[Level], base: Base, attributes: Attributes, declarator: Declarator, place: str) -> Base:
        """Octets with a count before them, which libndr has instead of what they hold: a conformant array of bytes, where it is one by itself."""
        given = find(attributes, "subcontext")
        if given is None and not (isinstance(base, Special) and base.kind == "blob"):
            return base
        if given is not None and given.words() != ["4"]:
            raise Nothing(given.place, str(given))
        if not levels and place == "parameter":
            levels.append(Level(False))
        elif levels and levels[-1].is_pointer and not levels[-1].sized:
            size = find(attributes, "subcontext_size")
            count = Count("size_is", size.arguments[0], size.place) if size and size.arguments else None
            levels[-1] = replace(levels[-1], sized=True, size=count)
        else:
            raise Nothing(declarator.place, f"{declarator.name}: octets whose count is in place")
        return Primitive("byte", letter="char")

    def give_string(self, levels: List[Level], base: Base, attributes: Attributes) -> None:
        """Makes the innermost level a string."""
        given = find(attributes, "string")
        if given is None or (levels and levels[-1].string):
            return
        if not levels or not isinstance(base, Primitive) or not base.letter or base.enumeration:
            raise Nothing(given.place, "string on what is no array of letters")
        level = levels[-1]
        if not (level.lengths and base.letter == "char"):
            levels[-1] = replace(level, string=True, sized=level.sized or level.is_pointer)


def replace_attributes(body: Body, attributes: Attributes) -> Body:
    """A body of a typedef, which has the attributes of the typedef too. They are added once."""
    if not any(a in body.attributes for a in attributes):
        body.attributes = body.attributes + attributes
    return body


def renamed(base: Base, name: str) -> Base:
    """A number or handle under the name of a typedef."""
    if isinstance(base, Primitive) and not base.enumeration:
        return replace(base, name=name)
    if isinstance(base, Special) and base.kind == "context":
        return replace(base, name=name)
    return base
