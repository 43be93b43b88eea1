"""Writes an interface in the language of docs/IDL.md, or in that of Windows, which has any_size and any_length."""

from __future__ import annotations

import re
import zlib
from dataclasses import dataclass, replace
from typing import Dict, List, Mapping, NamedTuple, Optional, Sequence, Set, Tuple

from .constants import NotConstant
from .parser import Parser
from .report import BARE, NO_EQUIVALENT, NOT_COMPARED, PARTLY, Report
from .shapes import WIDE, Base, Count, Level, Nothing, Primitive, Scope, Shape, Special
from .tokens import Place, Token
from .tree import Attribute, Body, Declarator, Field, Interface, Named, Operation, Pipe, Simple, find, spelled

RESERVED = set("""boolean byte case char const default double enum FALSE float handle_t hyper import int interface long NULL pipe short small struct switch TRUE
    typedef union unsigned void wchar_t ISO_LATIN_1 ISO_MULTI_LINGUAL ISO_UCS""".split())
IN_BRACKETS = set("""uuid version endpoint local pointer_default ref unique ptr in out string context_handle size_is max_is length_is first_is last_is switch_is
    switch_type idempotent broadcast maybe any_size any_length ms_union""".split())  # words that name no variable within the brackets of attributes
INTEGERS = ("small", "short", "long", "hyper")
LONGEST = 31


class Known(NamedTuple):
    """A member or parameter, as attributes of others may name it."""

    name: str
    shape: Optional[Shape]
    is_parameter: bool


Fields = Mapping[str, Known]


class Written(NamedTuple):
    """A member, parameter or arm: its attributes, type and declarator."""

    words: List[str]
    type: str
    declarator: str

    def text(self, ways: Sequence[str] = ()) -> str:
        words = [*ways, *self.words]
        return (f"[{', '.join(words)}] " if words else "") + f"{self.type} {self.declarator}".rstrip()


@dataclass
class Saved:
    """Where the writer was, to go back to when something has no equivalent after all."""

    lines: int
    made: int
    names: int


class Writer:
    """Writes one interface."""

    def __init__(self, scope: Scope, interface: Interface, windows: bool) -> None:
        self.scope, self.interface, self.windows = scope, interface, windows
        self.report = Report()
        self.lines: List[str] = []
        self.made: Dict[object, str] = {}  # the names of types and constants that are written, by what they are of
        self.marks: Dict[object, Set[str]] = {}  # the kinds of lines that a type's report has
        self.failed: Dict[object, Nothing] = {}
        self.open: Dict[object, str] = {}  # bodies that are being written
        self.names: Dict[str, object] = {}
        self.is_padded = find(interface.attributes, "ms_union") is not None

    # Names

    def short(self, name: str, place: Place, is_variable: bool = False) -> str:
        """A name of at most 31 octets that is no word of the language; the same for equal names."""
        found = name + "_" if name in RESERVED or (is_variable and name in IN_BRACKETS) else name
        if len(found) > LONGEST:
            found = f"{name[:LONGEST - 7]}_{zlib.crc32(name.encode()) & 0xFFFFFF:06x}"
        if found != name:
            self.report.add("renamed", place, f"{name} to {found}")
        return found

    def own(self, name: str, key: object, place: Place) -> str:
        """A name of a type, constant or operation, which nothing else has."""
        found, tries = self.short(name, place), 1
        while self.names.get(found, key) is not key:
            tries += 1
            found = self.short(f"{name}_{tries}", place)
        if found not in self.names:
            self.names[found] = key
        if tries > 1:
            self.report.add("renamed", place, f"{name} to {found}, since another thing has that name")
        return found

    def save(self) -> Saved:
        return Saved(len(self.lines), len(self.made), len(self.names))

    def restore(self, saved: Saved) -> None:
        """Takes back what was written since."""
        del self.lines[saved.lines:]
        for thing in list(self.made)[saved.made:]:
            del self.made[thing]
        for name in list(self.names)[saved.names:]:
            del self.names[name]

    def fresh(self, text: str, hint: str) -> str:
        """A typedef for a type that has no name in the source; `@` in its text is its name."""
        if text not in self.made:
            name = self.own(hint if len(hint) <= LONGEST - 3 else f"t{zlib.crc32(hint.encode()) & 0xFFFFFF:06x}_{hint[-18:]}", text, self.interface.place)
            self.made[text] = name
            self.lines.append(f"  typedef {text.replace('@', name)};")
        return self.made[text]

    # Types

    def base(self, base: Base, place: Place, switch: str = "", through_pointer: bool = False) -> str:
        """The name of a base type, which is declared first. `switch` is how a union is used: `stated`, or `tagged` if it has a tag of its own."""
        if isinstance(base, Primitive):
            return self.primitive(base, place)
        if isinstance(base, Special):
            if base.kind != "context":
                raise Nothing(place, f"a pointer to {base.kind}")
            return self.fresh("[context_handle] void *@", base.name or "context")
        if isinstance(base, Pipe):
            raise Nothing(place, "a pipe that is no parameter")
        key = (id(base), switch)
        if key in self.failed:
            raise self.failed[key]
        if key in self.open:
            if not through_pointer:
                raise Nothing(place, f"an array of {base.name} within itself")
            return f"{base.kind} {self.open[key]}"
        if key not in self.made:
            self.write_body(base, key, switch)
        self.report.marks |= self.marks.get(key, set())
        return self.made[key]

    def primitive(self, base: Primitive, place: Place) -> str:
        """The name of a number's type: that of the source, if it has one."""
        if base.enumeration:
            return self.enumeration(base, base.enumeration)
        if not base.name or base.letter == "wide" or base.name in RESERVED or base.name == base.text:
            return base.text
        key = ("alias", base.name, base.text)
        if key not in self.made:
            self.made[key] = self.own(base.name, key, place)
            self.lines.append(f"  typedef {base.text} {self.made[key]};")
        return self.made[key]

    def enumeration(self, base: Primitive, body: Body) -> str:
        """The type of an enum or bitmap, with its names as constants."""
        key = ("enum", id(body), base.text)
        if key not in self.made:
            name = self.own(body.name or "enumeration", key, body.place)
            self.made[key] = name
            self.lines.append(f"  typedef {base.text} {name};")
            for token, _ in body.values:
                self.constant(token.text, token.place)
        return self.made[key]

    def constant(self, name: str, place: Place) -> Optional[str]:
        """The name of a constant, which is declared first, if it has a value in range."""
        key = ("constant", name)
        if key not in self.made:
            try:
                value = self.scope.named_value(name)
            except NotConstant as fault:
                self.report.add("left out", place, f"constant {name}: {fault}")
                return None
            if not -2 ** 63 <= value < 2 ** 63:
                self.report.add("left out", place, f"constant {name}: {value} is out of range")
                return None
            self.made[key] = self.own(name, key, place)
            self.lines.append(f"  const hyper {self.made[key]} = {value};")
        return self.made[key]

    def write_body(self, body: Body, key: object, switch: str) -> None:
        """Declares a struct or union."""
        saved, outer = self.save(), self.report.marks
        self.report.marks = set()
        wanted = body.name or f"unnamed_{body.kind}"
        name = self.own(wanted if switch != "tagged" else f"{wanted}_tagged", key, body.place)
        self.open[key] = name
        try:
            self.scope.checked(body.attributes)
            text = self.struct(body, name) if body.kind == "struct" else self.union(body, name, switch)
            if len(body.name) > LONGEST:
                text += f"  /* {body.name} */"
            self.lines.append(text)
            self.made[key] = name
            self.marks[key] = set(self.report.marks)
        except Nothing as fault:
            self.restore(saved)
            self.failed[key] = fault
            raise
        finally:
            del self.open[key]
            self.report.marks |= outer

    def struct(self, body: Body, name: str) -> str:
        """A struct with its members."""
        if not body.fields:
            raise Nothing(body.place, f"the struct {body.name}, which has no members")
        kept = self.unfolded([f for f in body.fields if not find(f.attributes, "skip", "skip_noinit")])
        shapes = self.shapes(kept, "member", self.scope.defaults.get(id(body), "unique"))
        fields = self.known(kept, shapes, False)
        inside = []
        for index, (each, shape) in enumerate(zip(kept, shapes)):
            if isinstance(shape, Nothing):
                raise shape
            if shape.levels and shape.levels[0].is_conformant and not shape.levels[0].is_pointer and index < len(kept) - 1:
                raise Nothing(each.declarator.place, f"{each.declarator.name}: a conformant array that is not the last member")
            label = fields[each.declarator.name].name if each.declarator.name else f"unnamed_{index}"
            written = self.field(shape, label, each, fields, "member")
            inside.append(f"    {written.text()};")
        for each in body.fields:
            if find(each.attributes, "skip", "skip_noinit"):
                self.report.add("left out", each.declarator.place, f"{each.declarator.name}, which is not sent")
        return "\n".join([f"  typedef struct {name} {{", *inside, f"  }} {name};"])

    def unfolded(self, fields: List[Field]) -> List[Field]:
        """Members that pidl's files have in the place of NDR's own counts, as what they are on the wire."""
        if not self.scope.is_pidl or len(fields) < 2:
            return fields
        last, before = fields[-1], fields[-2]
        count = before.declarator.name
        place = last.declarator.place
        is_octets = not last.declarator.bounds and not last.declarator.stars and (
            find(last.attributes, "subcontext") or isinstance(last.type, Named) and last.type.name == "DATA_BLOB")
        if len(fields) == 2 and is_octets and self.is_long(before):
            self.report.add("note", place, f"{last.declarator.name} has its count twice, which must be equal: a conformant array of bytes")
            size = Attribute("size_is", ((Token("word", count, place),),), place)
            bytes_of = Field((size,), Simple(("byte",), place), replace(last.declarator, bounds=((),)))
            return [before, bytes_of]
        bounds = [spelled(b) for b in last.declarator.bounds]
        if len(fields) > 2 and bounds == [count] and self.is_long(before) and self.is_long(fields[-3]) and "offset" in fields[-3].declarator.name:
            self.report.add("note", place, f"{last.declarator.name} with {fields[-3].declarator.name} and {count}: an array that varies")
            length = Attribute("length_is", ((Token("number", "0", place),),), place)
            bound = (Token("number", str(1 << 24), place),)
            return [*fields[:-3], replace(last, attributes=last.attributes + (length,), declarator=replace(last.declarator, bounds=(bound,)))]
        return fields

    def is_long(self, each: Field) -> bool:
        """Whether a member is an unsigned number of four octets."""
        if each.type is None or each.declarator.stars or each.declarator.bounds:
            return False
        shape = self.scope.expand(each.type)
        return not shape.levels and isinstance(shape.base, Primitive) and shape.base.text == "unsigned long"

    def union(self, body: Body, name: str, switch: str) -> str:
        """A union with its arms. One that is used without a tag that can be named gets a tag of its own, which has the same octets."""
        if find(body.attributes, "nodiscriminant"):
            raise Nothing(body.place, f"the union {body.name}, whose tag is not sent")
        tag, tag_text, tag_name, part = self.tag_of(body)
        inside, dropped, has_default = [], 0, False
        seen: Set[int] = set()
        for index, each in enumerate(body.fields):
            labels = self.labels(each, tag, seen)
            has_default = has_default or None in each.labels
            try:
                saved = self.save()
                written = self.arm(each, body, index)
            except Nothing as fault:
                self.restore(saved)
                dropped += 1
                self.report.add(PARTLY, fault.place, f"{body.name} without its arm {each.declarator.name}: {fault.why}")
                continue
            if body.tag is not None or switch == "tagged":
                inside.append("    " + "".join(f"case {l}: " if l else "default: " for l in labels) + (written.text() if written else "") + ";")
            else:
                if None in labels and len(labels) > 1:
                    raise Nothing(each.declarator.place, "an arm with labels and default")
                words = ["default"] if None in labels else [f"case({', '.join(l or '' for l in labels)})"]
                inside.append("    " + ((written or Written([], "", "")).text(words)) + ";")
        if dropped and has_default:  # which would take the tags of the arms that are left out
            inside = [line for line in inside if not line.startswith(("    default:", "    [default"))]
            self.report.add(PARTLY, body.place, f"{body.name} without its default, since it is without another arm")
        if not inside:
            raise Nothing(body.place, f"the union {body.name}, which has no arms")
        if body.tag is None and switch == "stated":
            head = f"  typedef [switch_type({tag_text})] union {name} {{"
        else:
            head = f"  typedef union {name} switch ({tag_text} {tag_name}) {part} {{"
        return "\n".join([head, *inside, f"  }} {name};"])

    def tag_of(self, body: Body) -> Tuple[Primitive, str, str, str]:
        """The type of a union's tag, as a number and as a text, its name, and that of the union part."""
        if body.tag is not None:
            shape = self.scope.expand(body.tag[0])
        else:
            given = find(body.attributes, "switch_type")
            if given is not None and given.arguments:
                shape = self.scope.expand(Parser(list(given.arguments[0]), given.place.file).type())
            elif self.scope.is_pidl:
                shape = Shape((), Primitive("unsigned long"))
            else:
                raise Nothing(body.place, f"the union {body.name}, whose switch_type is not stated")
        base = shape.base
        if shape.levels or not isinstance(base, Primitive):
            raise Nothing(body.place, f"the union {body.name}, whose tag is no number")
        if base.text == "byte":
            base = Primitive("unsigned small")
        text = base.text if base.letter == "wide" else self.primitive(base, body.place)
        if body.tag is None:
            return base, text, "tag", "value"
        return base, text, self.short(body.tag[1], body.place), self.short(body.tag[2] or "value", body.place)

    def labels(self, each: Field, tag: Primitive, seen: Set[int]) -> List[Optional[str]]:
        """The labels of an arm, as numbers of the tag's type; the name of a constant, where it has that number."""
        bits = {"small": 8, "char": 8, "boolean": 8, "short": 16, "long": 32, "hyper": 64}[tag.text.split()[-1]]
        found: List[Optional[str]] = []
        for tokens in each.labels:
            if tokens is None:
                found.append(None)
                continue
            try:
                value = self.scope.value(tokens)
            except NotConstant as fault:
                raise Nothing(each.declarator.place, f"the label {spelled(tokens)}: {fault}") from None
            sent = value % (1 << bits)
            if tag.text in INTEGERS and sent >= 1 << (bits - 1):
                sent -= 1 << bits
            if sent in seen:
                raise Nothing(each.declarator.place, f"the label {spelled(tokens)}, which another arm has")
            seen.add(sent)
            name = self.constant(tokens[0].text, tokens[0].place) if len(tokens) == 1 and tokens[0].kind == "word" and sent == value else None
            found.append(name or str(sent))
        if not found:
            raise Nothing(each.declarator.place, f"the arm {each.declarator.name}, which has no label")
        return found

    def arm(self, each: Field, body: Body, index: int) -> Optional[Written]:
        """An arm; None if it is empty."""
        if each.type is None:
            return None
        shape = self.scope.shape(each.type, each.attributes, each.declarator, self.scope.defaults.get(id(body), "unique"), "arm")
        if isinstance(shape.base, Body) and shape.base.kind == "struct" and not shape.base.fields and not shape.levels:
            return None
        if (self.is_padded or find(body.attributes, "ms_union")) and self.alignment(shape) < max(self.alignments(body)):
            raise Nothing(each.declarator.place, f"with ms_union it is after a gap to {max(self.alignments(body))}")
        if shape.levels and not shape.levels[0].is_pointer and shape.levels[0].is_conformant:
            raise Nothing(each.declarator.place, "a conformant array in an arm")
        return self.field(shape, self.short(each.declarator.name or f"unnamed_{index}", each.declarator.place), each, {}, "arm")

    def alignments(self, body: Body) -> List[int]:
        """The alignments of the arms that are not empty."""
        found = [1]
        for each in body.fields:
            if each.type is not None:
                try:
                    found.append(self.alignment(self.scope.shape(each.type, each.attributes, each.declarator, "unique", "arm")))
                except Nothing:
                    found.append(4)
        return found

    def alignment(self, shape: Shape) -> int:
        """The alignment of a thing (docs/NDR.md, section 3)."""
        if any(level.is_pointer for level in shape.levels):
            return 4
        least = 4 if any(level.lengths or level.string for level in shape.levels) else 1
        base = shape.base
        if isinstance(base, Primitive):
            return max(least, {"short": 2, "long": 4, "hyper": 8}.get(base.text.split()[-1], 1))
        if not isinstance(base, Body):
            return 4
        found = [least]
        if base.kind == "union":
            found.append(self.alignment(Shape((), self.tag_of(base)[0])))
        for each in base.fields:
            if each.type is not None:
                found.append(self.alignment(self.scope.shape(each.type, each.attributes, each.declarator, "unique", "member")))
        return max(found)

    # Members, parameters, arms

    def shapes(self, fields: Sequence[Field], place: str, default: str) -> List["Shape | Nothing"]:
        """What each of a list of members or parameters is, or why it has no equivalent."""
        found: List["Shape | Nothing"] = []
        for each in fields:
            try:
                assert each.type is not None
                found.append(self.scope.shape(each.type, each.attributes, each.declarator, default, place))
            except Nothing as fault:
                found.append(fault)
        return found

    def default(self) -> str:
        """The class of pointers for which none is given."""
        given = find(self.interface.attributes, "pointer_default")
        return spelled(given.arguments[0]) if given and given.arguments else "unique"

    def known(self, fields: Sequence[Field], shapes: Sequence["Shape | Nothing"], is_parameter: bool) -> Dict[str, Known]:
        """The members or parameters by the names that they have in the source."""
        found: Dict[str, Known] = {}
        used = {t.text for f in fields for a in f.attributes for words in a.arguments or () for t in words}
        for each, shape in zip(fields, shapes):
            name = each.declarator.name
            if name:
                found[name] = Known(self.short(name, each.declarator.place, name in used), None if isinstance(shape, Nothing) else shape, is_parameter)
        return found

    def variable(self, tokens: Sequence[Token], fields: Fields, what: str) -> Optional[Tuple[str, int]]:
        """An expression `n` or `*n`, with a number that is added, as the attribute's variable and that number."""
        words = [t.text for t in tokens]
        while words[:1] == ["("] and words[-1:] == [")"]:
            words = words[1:-1]
        match = re.fullmatch(r"(\* )?(\w+)(?: ([+-]) (\w+))?", " ".join(words).replace("( * ", "* ").replace(" )", ""))
        known = fields.get(match[2]) if match else None
        if match is None or known is None or known.shape is None:
            return None
        levels, base = known.shape.levels, known.shape.base
        if not isinstance(base, Primitive) or not (base.text.split()[-1] in INTEGERS or (what == "switch_is" and base.text in ("char", "boolean"))):
            return None
        if match[1]:
            if not known.is_parameter or len(levels) != 1 or not levels[0].is_pointer or levels[0].sized or (levels[0].given or "ref") != "ref":
                return None
        elif levels:
            return None
        if match[3] and not match[4].isdigit():
            return None
        return ("*" if match[1] else "") + known.name, int(match[4]) * (1 if match[3] == "+" else -1) if match[3] else 0

    def size_word(self, count: Optional[Count], fields: Fields) -> Optional[str]:
        """The attribute that states a size, if the language has one."""
        found = self.variable(count.tokens, fields, "size") if count else None
        if count is None or found is None:
            return None
        more = found[1] + (1 if count.attribute == "max_is" else 0)
        return f"size_is({found[0]})" if more == 0 else f"max_is({found[0]})" if more == 1 else None

    def length_words(self, counts: Sequence[Count], fields: Fields) -> Optional[List[str]]:
        """The attributes that state the offset and the actual count, if the language has them."""
        words = []
        for count in counts:
            found = self.variable(count.tokens, fields, "length")
            if found is None:
                return None
            more = found[1] - (1 if count.attribute == "last_is" and found[1] else 0)
            if count.attribute == "length_is" and found[1] == 1:
                words.append(f"last_is({found[0]})")
            elif more == 0 and found[1] == 0:
                words.append(f"{count.attribute}({found[0]})")
            else:
                return None
        if len({w.split("(")[0] for w in words}) < len(words):
            return None
        return words

    def note_counts(self, level: Level, name: str, size: bool, lengths: bool) -> None:
        """Reports the counts of a level that are not compared."""
        for count in ([level.size] if size and level.size else []) + (list(level.lengths) if lengths else []):
            if count is not None:
                self.report.add(NOT_COMPARED, count.place, f"{name}: {count}")

    def inner(self, levels: Sequence[Level], base: Base, each: Field, through_pointer: bool, switch: str = "") -> str:
        """The name of a type within another: what these levels make of a base."""
        place = each.declarator.place
        if not levels:
            return self.base(base, place, switch, through_pointer)
        level, rest = levels[0], levels[1:]
        if not level.is_pointer:
            return self.array(level, rest, base, each, switch)
        cls = level.given or level.default
        if level.sized and level.string and self.is_char(base, rest):
            self.note_counts(level, each.declarator.name, True, False)
            return self.fresh(f"[{cls}, string] char *@", f"text_{cls}")
        target = self.array(level, rest, base, each, switch) if level.sized else self.inner(rest, base, each, True, switch)
        self.check_target(rest if not level.sized else [], place)
        return self.fresh(f"[{cls}] {target} *@", f"{target.split()[-1]}_{'p' if cls == 'unique' else cls}")

    def check_target(self, rest: Sequence[Level], place: Place) -> None:
        """No pointer points to a reference pointer."""
        if rest and rest[0].is_pointer and (rest[0].given or rest[0].default) == "ref":
            raise Nothing(place, "a pointer to a reference pointer")

    def is_char(self, base: Base, rest: Sequence[Level]) -> bool:
        return not rest and isinstance(base, Primitive) and base.letter == "char"

    def is_wide(self, base: Base, rest: Sequence[Level]) -> bool:
        return not rest and isinstance(base, Primitive) and base.letter == "wide"

    def element(self, rest: Sequence[Level], base: Base, each: Field, is_fixed: bool, through_pointer: bool = False, switch: str = "") -> str:
        """The type of an array's elements. Octets are bytes, which are printed as such."""
        if rest and not rest[0].is_pointer:
            if not rest[0].is_fixed:
                raise Nothing(each.declarator.place, f"{each.declarator.name}: an array of arrays whose counts are sent")
            name = self.array(rest[0], rest[1:], base, each, switch)
            return name if is_fixed else self.fresh(f"struct {{ {name} row; }} @", f"{name}_row")
        if not rest and isinstance(base, Primitive) and base.text == "unsigned small" and base.letter == "char" and not base.enumeration:
            return "byte"
        if isinstance(base, Body) and not rest and self.hoists(base):
            raise Nothing(each.declarator.place, f"an array of {base.name}, which ends with a conformant array")
        return self.inner(rest, base, each, through_pointer, switch)

    def hoists(self, body: Body) -> bool:
        """Whether the maximum count of a struct is in front of it."""
        if body.kind != "struct" or not body.fields or body.fields[-1].type is None:
            return False
        last = self.unfolded(body.fields)[-1]
        assert last.type is not None
        shape = self.scope.shape(last.type, last.attributes, last.declarator, "unique", "member")
        if shape.levels:
            return not shape.levels[0].is_pointer and shape.levels[0].is_conformant
        return isinstance(shape.base, Body) and self.hoists(shape.base)

    def array(self, level: Level, rest: Sequence[Level], base: Base, each: Field, switch: str = "") -> str:
        """The name of an array type, whose counts nothing states."""
        place, name = each.declarator.place, each.declarator.name
        bound = "*" if level.bound is None else str(level.bound)
        self.note_counts(level, name, True, True)
        if level.string and self.is_char(base, rest):
            return self.fresh(f"[string] char @[{bound}]", f"text_{level.bound or 'any'}")
        if not level.string and not level.lengths:
            element = self.element(rest, base, each, level.bound is not None, False, switch)
            return self.fresh(f"{element} @[{bound}]", f"{element.split()[-1]}_{'array' if level.bound is None else level.bound}")
        if self.is_wide(base, rest):
            if self.windows:
                return self.fresh(f"[any_length] {WIDE} @[{bound}]", "letters" if level.bound is None else f"letters_{level.bound}")
            if level.bound is None:
                if not level.string:
                    self.report.add(PARTLY, place, f"{name}: only without more room than letters")
                return self.fresh(f"struct {{ unsigned long offset; unsigned long actual; [size_is(actual)] {WIDE} letters[*]; }} @", "letters")
        if not self.windows:
            raise Nothing(place, f"{name}: an array whose offset and actual count nothing states")
        element = self.element(rest, base, each, level.bound is not None, False, switch)
        return self.fresh(f"[any_length] {element} @[{bound}]", f"{element.split()[-1]}_{'some' if level.bound is None else f'some_{level.bound}'}")

    def field(self, shape: Shape, name: str, each: Field, fields: Fields, place: str) -> Written:
        """A member, parameter or arm. A pointer to what has no equivalent, which may be null, is read where it is null."""
        saved, lines, marks = self.save(), len(self.report.lines), set(self.report.marks)
        try:
            return self.field_of(shape, name, each, fields, place)
        except Nothing as fault:
            first = shape.levels[0] if shape.levels else Level(False)
            cls = first.given or ("ref" if place == "parameter" else first.default)
            if not first.is_pointer or cls == "ref" or place == "arm" or self.ways(each) == ["out"]:
                raise
            self.restore(saved)
            del self.report.lines[lines:]
            self.report.marks = marks
            self.report.add(PARTLY, fault.place, f"{each.declarator.name} only where it is null: {fault.why}")
            half = self.fresh("struct { byte octets[16777216]; } @", "half_of_what_no_stream_has")
            return Written([cls], self.fresh(f"{half} @[16777216]", "what_no_stream_has"), f"*{name}")

    def field_of(self, shape: Shape, name: str, each: Field, fields: Fields, place: str) -> Written:
        """A member, parameter or arm, the whole of it."""
        switch, words = self.switch(shape, each, fields, place)
        for attribute in shape.attributes:
            if attribute.name == "subcontext":
                self.report.add("note", attribute.place, f"{each.declarator.name}: {attribute} is read as bytes")
            if attribute.name == "range":
                self.report.add(NOT_COMPARED, attribute.place, f"{each.declarator.name}: {attribute}")
        levels, base = list(shape.levels), shape.base
        self.note_letter(shape, each)
        if not levels:
            return Written(words, self.inner([], base, each, False, switch), name)
        first, rest = levels[0], levels[1:]
        if first.is_pointer:
            return self.pointer(first, rest, base, name, each, fields, place, words, switch)
        if first.is_fixed:
            bounds = [first.bound]
            while rest and rest[0].is_fixed:
                bounds.append(rest.pop(0).bound)
            if rest and not rest[0].is_pointer:
                raise Nothing(each.declarator.place, f"{name}: an array of arrays whose counts are sent")
            return Written(words, self.element(rest, base, each, True, False, switch), name + "".join(f"[{b}]" for b in bounds))
        return self.in_place(first, rest, base, name, each, fields, place, words, switch)

    def note_letter(self, shape: Shape, each: Field) -> None:
        """Reports a pointer to one letter: most published files have `string` there."""
        last = shape.levels[-1] if shape.levels else None
        if last and last.is_pointer and not last.sized and isinstance(shape.base, Primitive) and shape.base.name in ("WCHAR", "CHAR", "wchar_t", "char"):
            self.report.add("note", each.declarator.place, f"{each.declarator.name} points to one letter, since it has no string and no size_is")

    def pointer(self, level: Level, rest: List[Level], base: Base, name: str, each: Field, fields: Fields, place: str, words: List[str], switch: str) -> Written:
        """A pointer that is a member, parameter or arm."""
        is_parameter = place == "parameter"
        cls = level.given or ("ref" if is_parameter else level.default)
        if is_parameter and cls != "ref" and self.ways(each) == ["out"]:
            target = self.inner([replace(level, given=cls), *rest], base, each, True, switch)
            self.report.add("note", each.declarator.place, f"{name}: a {cls} pointer that is only [out], written as what a reference pointer points to")
            return Written(words, target, f"*{name}")
        if isinstance(base, Special) and base.kind == "context" and (cls != "ref" or not is_parameter or rest):
            raise Nothing(each.declarator.place, "a context handle behind such a pointer")
        if cls != ("ref" if is_parameter else "unique"):
            words = [cls, *words]
        if not level.sized:
            self.check_target(rest, each.declarator.place)
            return Written(words, self.inner(rest, base, each, True, switch), f"*{name}")
        size, lengths = self.size_word(level.size, fields), self.length_words(level.lengths, fields)
        if level.string and self.is_char(base, rest):
            self.note_counts(level, name, size is None, True)
            return Written([*words, "string"] + ([size] if size else []), "char", f"*{name}")
        counts = self.counts(level, size, lengths, place)
        if rest and not rest[0].is_pointer:  # an array of arrays: its counts are free, as those of any inner array
            counts = None
        is_open = isinstance(base, Body) and any(key[0] == id(base) for key in self.open if isinstance(key, tuple))
        if counts is None and self.windows and not rest and is_open and place != "arm":
            counts = ["any_size"] + (["any_length"] if level.lengths or level.string else [])
            self.note_counts(level, name, True, True)
        if counts is None:
            return Written(words, self.array(level, rest, base, each, switch), f"*{name}")
        self.note_counts(level, name, size is None, lengths is None)
        return Written(words + counts, self.element(rest, base, each, False, True, switch), f"*{name}")

    def counts(self, level: Level, size: Optional[str], lengths: Optional[List[str]], place: str) -> Optional[List[str]]:
        """The attributes for the counts of a conformant array; None if a typedef is to leave them free."""
        varies = bool(level.lengths) or level.string
        stated = lengths if lengths and not level.string else None
        if place == "arm" or (size is None and stated is None):
            return None
        if self.windows:
            return [size or "any_size"] + ((stated or ["any_length"]) if varies else [])
        return [size, *(stated or [])] if size and (stated or not varies) else None

    def in_place(self, level: Level, rest: List[Level], base: Base, name: str, each: Field, fields: Fields, place: str, words: List[str], switch: str) -> Written:
        """An array in place that is conformant or varies."""
        is_parameter = place == "parameter"
        size, lengths = self.size_word(level.size, fields), self.length_words(level.lengths, fields)
        bound = "*" if level.bound is None else str(level.bound)
        if level.string and self.is_char(base, rest):
            self.note_counts(level, name, size is None, True)
            return Written([*words, "string"] + ([size] if size else []), "char", f"{name}[{bound}]")
        if place == "arm" or rest and not rest[0].is_pointer:
            return Written(words, self.array(level, rest, base, each, switch), name if place == "arm" or level.bound is not None else f"*{name}")
        if level.bound is not None:
            stated = lengths if lengths and not level.string else None
            if stated is None and not self.windows:
                raise Nothing(each.declarator.place, f"{name}: an array whose actual count nothing states")
            self.note_counts(level, name, False, stated is None)
            return Written(words + (stated or ["any_length"]), self.element(rest, base, each, True, False, switch), f"{name}[{bound}]")
        counts = self.counts(level, size, lengths, place)
        if counts is None and is_parameter:
            return Written(words, self.array(level, rest, base, each, switch), f"*{name}")
        if counts is None and not self.windows:
            raise Nothing(each.declarator.place, f"{name}: {level.size or 'a count'} of an array in place")
        self.note_counts(level, name, size is None, lengths is None)
        varies = bool(level.lengths) or level.string
        return Written(words + (counts or ["any_size"] + (["any_length"] if varies else [])), self.element(rest, base, each, False, False, switch), f"{name}[*]")

    def switch(self, shape: Shape, each: Field, fields: Fields, place: str) -> Tuple[str, List[str]]:
        """How a union is used, and the attribute that states its tag."""
        base = shape.base
        if not isinstance(base, Body) or base.kind != "union" or base.tag is not None:
            return "", []
        given = find(shape.attributes, "switch_is")
        if given is None or not given.arguments:
            raise Nothing(each.declarator.place, f"{each.declarator.name}: a union without switch_is")
        if find(base.attributes, "switch_type") is None and not self.scope.is_pidl:
            self.guess_tag(base, shape, given.arguments[0], fields, each.declarator)
        found = self.variable(given.arguments[0], fields, "switch_is")
        direct = len(shape.levels) <= 1 and all(level.is_pointer and not level.sized for level in shape.levels) and place != "arm"
        cls = (shape.levels[0].given or "ref") if shape.levels else "ref"
        if place == "parameter" and cls != "ref" and self.ways(each) == ["out"]:
            direct = False
        if found is not None and found[1] == 0 and direct:
            return "stated", [f"switch_is({found[0]})"]
        self.report.add(NOT_COMPARED, given.place, f"{each.declarator.name}: {given}")
        return "tagged", []

    def guess_tag(self, body: Body, shape: Shape, tokens: Sequence[Token], fields: Fields, declarator: Declarator) -> None:
        """Gives a union the type of its switch_is, as MIDL does where there is no switch_type."""
        given = find(shape.attributes, "switch_type")
        if given is None:
            names = [t.text for t in tokens if t.kind == "word"]
            known = fields.get(names[0]) if len(names) == 1 else None
            if known is None or known.shape is None or not isinstance(known.shape.base, Primitive):
                raise Nothing(declarator.place, f"{declarator.name}: a union whose switch_type is not stated")
            self.report.add("note", declarator.place, f"{declarator.name}: no switch_type, so the tag has the type of {names[0]}")
            words = known.shape.base.text.replace("unsigned small", "unsigned char").split()
            argument: Tuple[Token, ...] = tuple(Token("word", w, declarator.place) for w in words)
            given = find(body.attributes, "switch_type") or type_attribute(argument, declarator.place)
        body.attributes = body.attributes + (given,)

    def ways(self, each: Field) -> List[str]:
        """The directions of a parameter; what has none is [in]."""
        return [way for way in ("in", "out") if find(each.attributes, way)] or ["in"]

    # Operations

    def operation(self, operation: Operation) -> str:
        """An operation, without the sides that have no equivalent."""
        name = self.own(operation.name, operation, operation.place)
        lost: Set[str] = set()
        outer, self.report.marks = self.report.marks, set()
        while True:
            saved, lines = self.save(), len(self.report.lines)
            try:
                text = self.attempt(operation, name, lost)
                break
            except Side as side:
                self.restore(saved)
                del self.report.lines[lines:]
                self.report.marks = set()
                for way in side.ways:
                    lost.add(way)
                self.lost_because[(operation, tuple(side.ways))] = side.fault
        for (of, ways), fault in self.lost_because.items():
            if of is operation:
                sides = " and ".join({"in": "request", "out": "response"}[way] for way in ways)
                self.report.add(NO_EQUIVALENT, fault.place, f"{operation.name}, the {sides}: {fault.why}")
        if find(operation.attributes, "todo") or (self.scope.is_pidl and not operation.parameters):
            self.report.add("left out", operation.place, f"{operation.name}: the source does not say what it has")
            self.report.marks = {BARE}
        self.report.operations[operation.name] = self.report.marks
        self.report.marks = outer
        return text + (f"  /* {operation.name} */" if name != operation.name else "")

    def attempt(self, operation: Operation, name: str, lost: Set[str]) -> str:
        """The text of an operation without the sides that are lost."""
        fields = [f for f in operation.parameters if any(way not in lost for way in self.ways(f))]
        shapes = self.shapes(fields, "parameter", self.default())
        known = self.known(fields, shapes, True)
        parts = []
        for each, shape in zip(fields, shapes):
            ways = [way for way in self.ways(each) if way not in lost]
            try:
                if isinstance(shape, Nothing):
                    raise shape
                parts.append(self.parameter(shape, known[each.declarator.name].name, each, known, ways, operation))
            except Nothing as fault:
                raise Side(ways, fault) from None
        result = "void"
        if "out" not in lost:
            try:
                result = self.result(operation)
            except Nothing as fault:
                raise Side(["out"], fault) from None
        return f"  {result} {name}({', '.join(parts)});"

    def parameter(self, shape: Shape, name: str, each: Field, known: Fields, ways: List[str], operation: Operation) -> str:
        """A parameter."""
        base = shape.base
        each = replace(each, attributes=tuple(a for a in each.attributes if a.name not in ("in", "out") or a.name in ways))
        if isinstance(base, Special) and base.kind == "handle_t":
            if shape.levels:
                raise Nothing(each.declarator.place, "a pointer to handle_t")
            return f"[in] handle_t {name}"
        if isinstance(base, Pipe):
            return self.pipe(base, name, each, ways, operation)
        if "out" in ways and not shape.levels and "in" not in ways:
            raise Nothing(each.declarator.place, f"{each.declarator.name}: an [out] parameter that is no pointer")
        if "out" in ways and not shape.levels:
            raise Nothing(each.declarator.place, f"{each.declarator.name}: an [in, out] parameter that is no pointer")
        return self.field(shape, name, each, known, "parameter").text(ways)

    def pipe(self, pipe: Pipe, name: str, each: Field, ways: List[str], operation: Operation) -> str:
        """A pipe. Where it is among other values of a response differs between programs."""
        shape = self.scope.expand(pipe.element)
        others = [f for f in operation.parameters if "out" in self.ways(f) and f is not each and f.declarator != each.declarator]
        result = self.scope.expand(operation.result)
        if "out" in ways and (others or not (isinstance(result.base, Special) and result.base.kind == "void")):
            raise Nothing(each.declarator.place, f"{each.declarator.name}: an [out] pipe beside other values, whose order differs between programs")
        if not self.is_flat(shape):
            raise Nothing(each.declarator.place, f"{each.declarator.name}: a pipe of such elements")
        element = self.element(shape.levels, shape.base, each, True)
        self.report.add("note", each.declarator.place, f"{each.declarator.name}: a pipe, which comes after all other values")
        return f"[{', '.join(ways)}] {self.fresh(f'pipe {element} @', f'{element.split()[-1]}_pipe')} {'*' if 'out' in ways else ''}{name}"

    def is_flat(self, shape: Shape) -> bool:
        """Whether a thing has neither pointers nor counts."""
        if not all(level.is_fixed for level in shape.levels) or not isinstance(shape.base, (Primitive, Body)):
            return False
        return isinstance(shape.base, Primitive) or all(
            each.type is not None and self.is_flat(self.scope.shape(each.type, each.attributes, each.declarator, "unique", "member")) for each in shape.base.fields)

    def result(self, operation: Operation) -> str:
        """The type of a result."""
        shape = self.scope.expand(operation.result)
        if shape.levels or operation.stars:
            raise Nothing(operation.place, f"{operation.name}: a result that is a pointer")
        if isinstance(shape.base, Special) and shape.base.kind == "void":
            return "void"
        if not isinstance(shape.base, Primitive):
            raise Nothing(operation.place, f"{operation.name}: a result that is no number")
        return self.primitive(shape.base, operation.place)

    # The interface

    def write(self) -> str:
        """The whole file."""
        self.lost_because: Dict[Tuple[Operation, Tuple[str, ...]], Nothing] = {}
        numbered = []
        on_wire = {o.name: o for o in self.interface.operations if find(o.attributes, "noopnum")}
        for operation in self.interface.operations:
            as_sent = on_wire.get(f"_{operation.name}")
            if as_sent and find(operation.attributes, "nopush", "nopull"):
                self.report.add("note", operation.place, f"{operation.name}, which libndr writes by hand, is sent as {as_sent.name} says")
                operation = replace(as_sent, name=operation.name, attributes=(), place=operation.place)
            for word in ("local", "callback", "noopnum"):
                if find(operation.attributes, word):
                    self.report.add("left out", operation.place, f"{operation.name}, which is [{word}] and has no number")
                    break
            else:
                numbered.append(operation)
                self.own(operation.name, operation, operation.place)
        texts = [self.operation(operation) for operation in numbered]
        header = [f"uuid({self.header('uuid')})", f"version({self.header('version') or '0.0'})", "pointer_default(unique)"]
        name = self.short(self.interface.name, self.interface.place)
        return "\n".join([f"[{', '.join(header)}]", f"interface {name} {{", *self.lines, *texts, "}"]) + "\n"

    def header(self, word: str) -> str:
        """What an attribute of the interface says, without quotes."""
        given = find(self.interface.attributes, word)
        return "".join(t.text for t in given.arguments[0]).strip('"') if given and given.arguments else ""


class Side(Exception):
    """A side of an operation that has no equivalent."""

    def __init__(self, ways: Sequence[str], fault: Nothing) -> None:
        super().__init__(fault.why)
        self.ways, self.fault = list(ways), fault


def type_attribute(tokens: Tuple[Token, ...], place: Place) -> "Attribute":
    """A switch_type that the source does not have."""
    return Attribute("switch_type", (tokens,), place)
