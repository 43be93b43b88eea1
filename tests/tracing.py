"""A plain model of `trace`: what it prints of octets, by the listing of their interface.

It is a recursion over types, apart from the program: it reads octets by the rules of docs/NDR.md and keeps the path of each value as it goes. `trace` gives
the text for standard output, and the refusal (place and reason) or None.
"""

from __future__ import annotations

from typing import Dict, List, Optional, Tuple

STREAM_LIMIT = 67_108_864

# boolean, char, byte, small, unsigned small, short, unsigned short, long, unsigned long, hyper, unsigned hyper: width, and whether it is signed
PRIMITIVES = [(1, False), (1, False), (1, False), (1, True), (1, False), (2, True), (2, False), (4, True), (4, False), (8, True), (8, False)]
CONTEXT = 11
ATTRIBUTES = ["size_is", "max_is", "first_is", "length_is", "last_is", "switch_is"]


class Field:
    """A member, a parameter or an arm: its name, its type, its attributes with their variables."""

    def __init__(self, name: str, of: Optional[int], attributes: List[Tuple[str, str]]):
        self.name = name
        self.of = of
        self.attributes = attributes


class Type:
    """A type: the first word of its line, the numbers after it, its alignment, and the lines after it."""

    def __init__(self, form: str, numbers: List[int], align: int, hoists: bool):
        self.form = form
        self.numbers = numbers
        self.align = align
        self.hoists = hoists
        self.members: List[Field] = []
        self.arms: List[Tuple[int, Field]] = []
        self.default: Optional[Field] = None


class Interface:
    def __init__(self) -> None:
        self.types: Dict[int, Type] = {}
        self.operations: Dict[str, Dict[str, List[Field]]] = {}


def field(words: List[str]) -> Field:
    """NAME T, then attributes; an empty arm is `- void`."""
    of = None if words[1] == "void" else int(words[1])
    return Field(words[0], of, list(zip(words[2::2], words[3::2])))


def interface(listing: str) -> Interface:
    """The interface of a listing."""
    found = Interface()
    for number, (width, _) in enumerate(PRIMITIVES):
        found.types[number] = Type("primitive", [number], width, False)
    found.types[CONTEXT] = Type("context", [], 4, False)
    here = None
    sides: Dict[str, List[Field]] = {}
    for line in listing.splitlines():
        words = line.split(" ")
        if words[0] == "type":
            align = words.index("align")
            here = Type(words[2], [int(word) for word in words[3:align]], int(words[align + 1]), words[-1] == "hoists")
            found.types[int(words[1])] = here
        elif words[0] == "member":
            here.members.append(field(words[1:]))
        elif words[0] == "arm":
            here.arms.append((int(words[1]), field(words[2:])))
        elif words[0] == "default":
            here.default = field(words[1:])
        elif words[0] == "op":
            sides = {"in": [], "out": []}
            found.operations.setdefault(words[2], sides)
        elif words[0] in ("in", "out"):
            sides[words[0]].append(field(words[1:]))
    return found


class Refused(Exception):
    def __init__(self, place: int, reason: str, path: str):
        super().__init__(place, reason, path)
        self.place = place
        self.reason = reason
        self.path = path


class Value:
    """What is known of a value that was read: its path, its number if it is one, its cell if it is a pointer, its counts with their places."""

    def __init__(self, path: str):
        self.path = path
        self.number: Optional[int] = None
        self.cell: Optional["Cell"] = None
        self.counts: Dict[str, Tuple[int, int]] = {}


class Cell:
    def __init__(self, number: int, of: int):
        self.name = f"@{number}"
        self.of = of
        self.value: Optional[Value] = None


class Pending:
    """A pointer that is not null, with what variables state of its referent: attribute, value, path of the variable."""

    def __init__(self, cell: Cell, full: bool):
        self.cell = cell
        self.full = full
        self.stated: List[Tuple[str, int, str]] = []


def quoted(octets: bytes) -> str:
    text = ""
    for octet in octets:
        if octet in (0x22, 0x5C):
            text += "\\" + chr(octet)
        elif 0x20 <= octet <= 0x7E:
            text += chr(octet)
        else:
            text += f"\\x{octet:02x}"
    return f'"{text}"'


def found_by(attribute: str, value: Value) -> Tuple[int, int]:
    """What an attribute finds in a value, and the place of the count or tag that it speaks of."""
    if attribute in ("size_is", "max_is"):
        return value.counts["max"]
    if attribute == "first_is":
        return value.counts["offset"]
    if attribute == "length_is":
        return value.counts["actual"]
    if attribute == "last_is":
        count, place = value.counts["actual"]
        return value.counts["offset"][0] + count - 1, place
    return value.counts["tag"]


class Reader:
    def __init__(self, of: Interface, order: str, octets: bytes):
        self.types = of.types
        self.order = order
        self.octets = octets
        self.at = 0
        self.lines: List[str] = []
        self.filled_gaps = 0
        self.cells: List[Cell] = []
        self.numbers: Dict[int, Cell] = {}
        self.pending: List[Pending] = []

    # Items

    def gap(self, align: int, path: str) -> None:
        size = -self.at % align
        if not size:
            return
        if self.at + size > len(self.octets):
            raise Refused(len(self.octets), "Truncated", path)
        octets = self.octets[self.at:self.at + size]
        self.filled_gaps += any(octets)
        self.lines.append(f"{self.at} {size} gap" + (f' x"{octets.hex()}"' if any(octets) else ""))
        self.at += size

    def peek(self, size: int, path: str) -> bytes:
        if self.at + size > STREAM_LIMIT:
            raise Refused(STREAM_LIMIT, "TooLong", path)
        if self.at + size > len(self.octets):
            raise Refused(len(self.octets), "Truncated", path)
        return self.octets[self.at:self.at + size]

    def number(self, octets: bytes, signed: bool = False) -> int:
        return int.from_bytes(octets, self.order, signed=signed)

    def take(self, size: int, kind: str, path: str, shown: object) -> int:
        """Passes an item with its line, and gives its place."""
        place = self.at
        self.lines.append(f"{place} {size} {kind} {path} {shown}")
        self.at += size
        return place

    # Values in place

    def value(self, of: int, path: str, front: Optional[Tuple[int, int]]) -> Value:
        """A value of a type at a path; `front` is the maximum count in front of the home with its place."""
        kind = self.types[of]
        read = {"primitive": self.primitive, "enum": self.enum, "struct": self.struct, "union": self.union, "context": self.context,
                "ref": self.pointer, "unique": self.pointer, "ptr": self.pointer, "text": self.text, "conftext": self.text}
        return read.get(kind.form, self.array)(kind, path, front)

    def primitive(self, kind: Type, path: str, front: Optional[Tuple[int, int]]) -> Value:
        width, signed = PRIMITIVES[kind.numbers[0]]
        self.gap(width, path)
        number = self.number(self.peek(width, path), signed)
        if kind.numbers[0] == 0:
            number = int(number != 0)
        self.take(width, "num", path, number)
        value = Value(path)
        value.number = number
        return value

    def enum(self, kind: Type, path: str, front: Optional[Tuple[int, int]]) -> Value:
        self.gap(2, path)
        number = self.number(self.peek(2, path), True)
        if number not in kind.numbers:
            raise Refused(self.at, "EnumValue", path)
        self.take(2, "num", path, number)
        value = Value(path)
        value.number = number
        return value

    def context(self, kind: Type, path: str, front: Optional[Tuple[int, int]]) -> Value:
        self.gap(4, path)
        octets = self.peek(20, path)
        digits = "%08x-%04x-%04x-%s-%s" % (self.number(octets[4:8]), self.number(octets[8:10]), self.number(octets[10:12]),
                                           octets[12:14].hex(), octets[14:20].hex())
        self.take(20, "context", path, f"ctx({self.number(octets[:4])}, {digits})")
        return Value(path)

    def struct(self, kind: Type, path: str, front: Optional[Tuple[int, int]]) -> Value:
        self.gap(kind.align, path)
        read: Dict[str, Value] = {}
        pointers: Dict[str, Pending] = {}
        for member in kind.members:
            before = len(self.pending)
            read[member.name] = self.value(member.of, f"{path}.{member.name}", front)
            if read[member.name].cell and len(self.pending) == before + 1:
                pointers[member.name] = self.pending[-1]
        for member in kind.members:
            for attribute, variable in member.attributes:
                stated = (attribute, read[variable].number, f"{path}.{variable}")
                if self.types[member.of].form in ("ref", "unique", "ptr"):
                    if member.name in pointers:
                        pointers[member.name].stated.append(stated)
                else:
                    self.test(stated, read[member.name])
        return Value(path)

    def test(self, stated: Tuple[str, int, str], value: Value) -> None:
        attribute, wanted, variable = stated
        wanted += attribute == "max_is"
        found, place = found_by(attribute, value)
        if wanted != found:
            raise Refused(place, f"Disagrees wanted {wanted} found {found}", f"{value.path} {variable}")

    def array(self, kind: Type, path: str, front: Optional[Tuple[int, int]]) -> Value:
        value = Value(path)
        size, place = (kind.numbers[1], -1) if kind.form in ("fixed", "vary") else front
        value.counts["max"] = (size, place)
        offset, count = 0, size
        if kind.form in ("vary", "confvary"):
            self.gap(4, path)
            offset = self.number(self.peek(4, path))
            value.counts["offset"] = (offset, self.take(4, "offset", path, offset))
            count = self.number(self.peek(4, path))
            if offset + count > size:
                raise Refused(self.at, "PastBound", path)
            value.counts["actual"] = (count, self.take(4, "actual", path, count))
        for index in range(count):
            self.value(kind.numbers[0], f"{path}[{offset + index}]", None)
        return value

    def text(self, kind: Type, path: str, front: Optional[Tuple[int, int]]) -> Value:
        value = Value(path)
        size, place = (kind.numbers[1], -1) if kind.form == "text" else front
        value.counts["max"] = (size, place)
        self.gap(4, path)
        offset = self.number(self.peek(4, path))
        if offset:
            raise Refused(self.at, "TextOffset", path)
        value.counts["offset"] = (0, self.take(4, "offset", path, 0))
        count = self.number(self.peek(4, path))
        if not count:
            raise Refused(self.at, "TextEmpty", path)
        if count > size:
            raise Refused(self.at, "PastBound", path)
        value.counts["actual"] = (count, self.take(4, "actual", path, count))
        octets = self.peek(count, path)
        if 0 in octets[:-1]:
            raise Refused(self.at + octets.index(0), "TextZero", path)
        if octets[-1]:
            raise Refused(self.at + count - 1, "TextUnended", path)
        self.take(count, "text", path, quoted(octets[:-1]))
        return value

    def union(self, kind: Type, path: str, front: Optional[Tuple[int, int]]) -> Value:
        tag = self.types[kind.numbers[0]]
        width, signed = (2, True) if tag.form == "enum" else PRIMITIVES[tag.numbers[0]]
        self.gap(width, path)
        number = self.number(self.peek(width, path), signed)
        if tag.form == "enum" and number not in tag.numbers:
            raise Refused(self.at, "EnumValue", path)
        if tag.form != "enum" and tag.numbers[0] == 0:
            number = int(number != 0)
        arm = next((arm for label, arm in kind.arms if label == number), kind.default)
        if arm is None:
            raise Refused(self.at, "NoArm", path)
        value = Value(path)
        value.counts["tag"] = (number, self.take(width, "tag", path, number))
        if arm.of is not None:
            self.value(arm.of, path if arm.name == "-" else f"{path}.{arm.name}", None)
        return value

    def new_cell(self, of: int) -> Cell:
        self.cells.append(Cell(len(self.cells) + 1, of))
        return self.cells[-1]

    def pointer(self, kind: Type, path: str, front: Optional[Tuple[int, int]]) -> Value:
        self.gap(4, path)
        number = self.number(self.peek(4, path))
        to = kind.numbers[0]
        value = Value(path)
        if kind.form == "ref" or number and kind.form == "unique":
            value.cell = self.new_cell(to)
        elif number:
            if number in self.numbers and self.numbers[number].of != to:
                raise Refused(self.at, "OtherType", path)
            value.cell = self.numbers.get(number) or self.new_cell(to)
            self.numbers[number] = value.cell
        self.take(4, "number", path, number)
        if value.cell:
            self.pending.append(Pending(value.cell, kind.form == "ptr"))
        return value

    # Homes

    def home(self, of: int, path: str) -> Tuple[Value, List[Pending]]:
        """A whole value, and the pointers in it."""
        self.pending = []
        front = None
        if self.types[of].hoists:
            self.gap(4, path)
            count = self.number(self.peek(4, path))
            front = (count, self.take(4, "max", path, count))
        value = self.value(of, path, front)
        return value, self.pending

    def referents(self, pending: List[Pending]) -> None:
        """Each referent where its pointer is first met, followed by its own."""
        left = pending[::-1]
        while left:
            pointer = left.pop()
            cell = pointer.cell
            if not pointer.full or cell.value is None:
                cell.value, more = self.home(cell.of, cell.name)
                left += more[::-1]
            for stated in pointer.stated:
                self.test(stated, cell.value)

    def root(self, root: Field) -> Value:
        kind = self.types[root.of]
        if kind.form == "ref":
            value = Value(root.name)
            value.cell = self.new_cell(kind.numbers[0])
            value.cell.value, pending = self.home(value.cell.of, value.cell.name)
        else:
            value, pending = self.home(root.of, root.name)
        self.referents(pending)
        return value

    def side(self, roots: List[Field], given: Dict[str, Tuple[Optional[int], Optional[int]]]) -> None:
        """All values of a side. `given` has, for each parameter of a request, its number and the number in the cell that it names."""
        plain = [root for root in roots if self.types[root.of].form != "pipe"]
        read = {root.name: self.root(root) for root in plain}
        for root in plain:
            subject = read[root.name]
            if self.types[root.of].form in ("ref", "unique", "ptr"):
                subject = subject.cell.value if subject.cell else None
            if subject is None:
                continue
            for attribute, variable in root.attributes:
                wanted = self.variable(read, given, variable)
                if wanted is not None:
                    self.test((attribute, wanted, variable.lstrip("*")), subject)
        for root in roots:
            if self.types[root.of].form == "pipe":
                self.pipe(self.types[root.of].numbers[0], root.name)

    def variable(self, read: Dict[str, Value], given: Dict[str, Tuple[Optional[int], Optional[int]]], variable: str) -> Optional[int]:
        name = variable.lstrip("*")
        if name in read:
            if not variable.startswith("*"):
                return read[name].number
            return read[name].cell.value.number if read[name].cell else None
        return given.get(name, (None, None))[variable.startswith("*")]

    def pipe(self, element: int, path: str) -> None:
        index = 0
        while True:
            self.gap(4, path)
            count = self.number(self.peek(4, path))
            self.take(4, "chunk", path, count)
            if not count:
                return
            for _ in range(count):
                self.value(element, f"{path}[{index}]", None)
                index += 1


def trace(of: Interface, operation: str, side: str, order: str, octets: bytes,
          given: Optional[Dict[str, Tuple[Optional[int], Optional[int]]]] = None) -> Tuple[str, Optional[Tuple[int, str]]]:
    """The text that `trace` prints of octets, and their refusal: the place and the reason, or None."""
    reader = Reader(of, order, octets)
    refusal = None
    try:
        reader.side(of.operations[operation][side], given or {})
        if reader.at < len(octets):
            raise Refused(reader.at, "Trailing", "")
    except Refused as refused:
        refusal = (refused.place, refused.reason)
        reader.lines.append(f"{refused.place} fault {refused.reason} {refused.path}".rstrip(" "))
    if reader.filled_gaps:
        reader.lines.append(f"gaps that are not zero: {reader.filled_gaps}")
    return "".join(line + "\n" for line in reader.lines), refusal
