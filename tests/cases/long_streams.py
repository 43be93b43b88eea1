"""Streams of 100,000 chunks, elements and cells, each way of reading an array once; and counts that claim far more than there is, where memory is short."""

from dataclasses import dataclass
from struct import pack
from typing import Callable, List, Mapping, Tuple

from case import Case, Late, lines, octets

COUNT = 100_000
STREAM_LIMIT = 67_108_864
NUMBERS = range(1, COUNT + 1)
LITTLE = ["t.idl", "-", "f", "in", "little"]


def idl(*declarations: str) -> bytes:
    """An interface whose pointers are unique where no class is given."""
    return lines("[uuid(11111111-2222-3333-4444-555555555555), pointer_default(unique)]", "interface t {", *declarations, "}")


# ----------------------------------------------------------------------------------------------------------------------
# Arrays


@dataclass(frozen=True)
class Way:
    """A way of reading the elements of an array.

    `typed` declares the type `e`, `gap` is how many octets come after the maximum count. Of the element with a number from 1 there are its octets, its
    text, its referent's octets and the text of its cell; of a type without pointers there are no cells.
    """

    name: str
    typed: str
    gap: int
    element: Callable[[int], bytes]
    text: Callable[[int], str]
    referent: Callable[[int], bytes] = lambda k: b""
    cell: Callable[[int], str] = lambda k: ""

    def octets(self, numbers: range) -> bytes:
        """The elements, and then what they refer to."""
        return b"".join(map(self.element, numbers)) + b"".join(map(self.referent, numbers))


WAYS = [
    Way("numbers", "typedef long e;", 0, lambda k: pack("<i", k), str),
    Way("enumerated values", "typedef enum { A, B } e;", 0, lambda k: pack("<H", k % 2), lambda k: str(k % 2)),
    Way("structs of numbers", "typedef struct { byte t; hyper h; } e;", 4, lambda k: pack("<B7xq", k % 256, -k), lambda k: f"{{t = {k % 256}, h = {-k}}}"),
    Way("structs of structs and arrays", "typedef struct { short a; } i; typedef struct { i x; byte y[2]; } e;", 0, lambda k: pack("<hBB", k % 999, 1, 2),
        lambda k: f'{{x = {{a = {k % 999}}}, y = x"0102"}}'),
    Way("unions", "typedef union switch (short k) { case 1: long a; case 2: long b; } e;", 0, lambda k: pack("<h2xi", k % 2 + 1, k), lambda k: f"{k % 2 + 1}:{k}"),
    Way("pointers", "typedef [unique] long *e;", 0, lambda k: pack("<I", k), lambda k: f"@{k}", lambda k: pack("<i", -k), lambda k: str(-k)),
    Way("structs that begin with a pointer", "typedef struct { [unique] long *p; long v; } e;", 0, lambda k: pack("<Ii", k, k), lambda k: f"{{p = @{k}, v = {k}}}",
        lambda k: pack("<i", -k), lambda k: str(-k)),
    Way("structs that end with a pointer", "typedef struct { long v; [unique] long *p; } e;", 0, lambda k: pack("<iI", k, k), lambda k: f"{{v = {k}, p = @{k}}}",
        lambda k: pack("<i", -k), lambda k: str(-k)),
    Way("strings", "typedef [string] char *e;", 0, lambda k: pack("<I", k), lambda k: f"@{k}", lambda k: pack("<III2s2x", 2, 0, 2, b"x"), lambda k: '2:"x"'),
    Way("pointers to arrays of their own length", "typedef struct { unsigned long n; [unique, size_is(n)] long *p; } e;", 0, lambda k: pack("<II", 1, k),
        lambda k: f"{{n = 1, p = @{k}}}", lambda k: pack("<Ii", 1, k), lambda k: f"[{k}]"),
]
BY_NAME = {way.name: way for way in WAYS}


def late(what: str, verb: str, file: bytes, make: Callable[[], Tuple[bytes, bytes]], ends: Callable[[], Mapping[str, bytes]] = dict) -> Late:
    """A run over a long stream; `make` gives its octets and what the run prints, `ends` what the ends of pipes get."""
    name = f"long streams: {what}"

    def made() -> Case:
        stream, shown = make()
        return Case(name, [verb, *LITTLE], {"t.idl": file}, stream, shown, ends=ends())

    return Late(name, made)


ARRAY = "void f([in, size_is(n)] e a[*], [in] unsigned long n);"
LIST = "typedef struct node { long v; struct node *next; } node;"


def array_octets(way: Way) -> bytes:
    """So many elements, and their number."""
    stream = pack("<I", COUNT) + bytes(way.gap) + way.octets(NUMBERS)
    return stream + bytes(-len(stream) % 4) + pack("<I", COUNT)


def values(first: str, *texts: str) -> bytes:
    """The text of values: a line, and then the line of each cell."""
    return lines("values 2", "op f in", *first.splitlines(), *(f"@{at + 1} = {text}" for at, text in enumerate(texts)))


def array(way: Way) -> Tuple[bytes, bytes]:
    elements = ", ".join(map(way.text, NUMBERS))
    return array_octets(way), values(f"a = [{elements}]\nn = {COUNT}", *(way.cell(k) for k in NUMBERS if way.cell(k)))


def shared() -> Tuple[bytes, bytes]:
    """Full pointers that all name one cell."""
    stream = pack("<I", COUNT) + pack("<I", 9) * COUNT + pack("<iI", 7, COUNT)
    return stream, values("a = [" + ", ".join(["@1"] * COUNT) + f"]\nn = {COUNT}", "7")


def linked() -> Tuple[bytes, bytes]:
    """A list, each node of which is followed by the next."""
    stream = pack("<I", 1) + b"".join(pack("<iI", k, (k + 1) % (COUNT + 1)) for k in NUMBERS)
    return stream, values("p = @1", *(f"{{v = {k}, next = {f'@{k + 1}' if k < COUNT else 'null'}}}" for k in NUMBERS))


def explained_numbers() -> Tuple[bytes, bytes]:
    items = [f"0 4 max a {COUNT}", *(f"{4 * k} 4 num a[{k - 1}] {k}" for k in NUMBERS), f"{4 * COUNT + 4} 4 num n {COUNT}"]
    return array_octets(BY_NAME["numbers"]), lines(*items)


def explained_structs() -> Tuple[bytes, bytes]:
    items = [f"0 4 max a {COUNT}", "4 4 gap"]
    for k in NUMBERS:
        at = 16 * k - 8
        items += [f"{at} 1 num a[{k - 1}].t {k % 256}", f"{at + 1} 7 gap", f"{at + 8} 8 num a[{k - 1}].h {-k}"]
    return array_octets(BY_NAME["structs of numbers"]), lines(*items, f"{16 * COUNT + 8} 4 num n {COUNT}")


def explained_strings() -> Tuple[bytes, bytes]:
    items = [f"0 4 max a {COUNT}", *(f"{4 * k} 4 number a[{k - 1}] {k}" for k in NUMBERS)]
    for k in NUMBERS:
        at = 4 * COUNT + 16 * k - 12
        items += [f"{at} 4 max @{k} 2", f"{at + 4} 4 offset @{k} 0", f"{at + 8} 4 actual @{k} 2", f'{at + 12} 2 text @{k} "x"', f"{at + 14} 2 gap"]
    return array_octets(BY_NAME["strings"]), lines(*items, f"{20 * COUNT + 4} 4 num n {COUNT}")


# ----------------------------------------------------------------------------------------------------------------------
# Pipes

FEED = idl("typedef pipe long p;", "void f([in] p d);")
DRAINED = lines("values 2", "op f in", "d = []")


def chunks() -> bytes:
    """A pipe of so many chunks, which have an element each."""
    return b"".join(pack("<Ii", 1, k) for k in NUMBERS) + bytes(4)


def explained_chunks() -> bytes:
    return lines(*(text for k in NUMBERS for text in (f"{8 * k - 8} 4 chunk d 1", f"{8 * k - 4} 4 num d[{k - 1}] {k}")), f"{8 * COUNT} 4 chunk d 0")


def one_chunk(way: Way) -> bytes:
    """One chunk of so many elements."""
    stream = pack("<I", COUNT) + bytes(way.gap) + way.octets(NUMBERS)
    return stream + bytes(-len(stream) % 4) + bytes(4)


def drained(way: Way) -> Late:
    return late(f"a chunk of 100,000 {way.name} is drained", "drain", idl(way.typed, "typedef pipe e p;", "void f([in] p d);"),
                lambda: (one_chunk(way), DRAINED), lambda: {"pipe0.out": lines(*map(way.text, NUMBERS))})


# ----------------------------------------------------------------------------------------------------------------------
# Octets that lack their last octet, traced


def cut(what: str, file: bytes, make: Callable[[], Tuple[bytes, List[str], str]]) -> Late:
    """A trace of a long stream that lacks its last octet; `make` gives the stream, the lines of the items before, and the path of the last."""
    name = f"long streams: {what} are traced"

    def made() -> Case:
        stream, items, path = make()
        end = len(stream) - 1
        return Case(name, ["trace", *LITTLE], {"t.idl": file}, stream[:end], lines(*items, f"{end} fault Truncated {path}"),
                    notes=lines(f"refused: octets at {end}: Truncated"), status=1)

    return Late(name, made)


def cut_elements() -> Tuple[bytes, List[str], str]:
    stream, shown = explained_numbers()
    return stream, shown.decode().splitlines()[:-1], "n"


def cut_chunks() -> Tuple[bytes, List[str], str]:
    return chunks(), explained_chunks().decode().splitlines()[:-1], "d"


def cut_cells() -> Tuple[bytes, List[str], str]:
    stream, _ = linked()
    items = ["0 4 number p 1"]
    for k in NUMBERS:
        items += [f"{8 * k - 4} 4 num @{k}.v {k}", f"{8 * k} 4 number @{k}.next {k + 1}"]
    return stream, items[:-1], f"@{COUNT}.next"


# ----------------------------------------------------------------------------------------------------------------------
# Counts that claim too much

ROOM = 256 << 20  # octets of address space
CLAIMS: List[Tuple[str, str, str, int, str]] = [
    ("a maximum count", "void f([in, size_is(n)] long a[*], [in] unsigned long n);", "FFFFFFFF 05000000 06000000", 12, "Truncated"),
    ("a maximum count of structs", "typedef struct { byte t; hyper h; } e; void f([in, size_is(n)] e a[*], [in] unsigned long n);",
     "FFFFFFFF 00000000 01 00000000000000 0500000000000000 01", 25, "Truncated"),
    ("a maximum count of pointers", "typedef struct { long *p; long v; } e; void f([in, size_is(n)] e a[*], [in] unsigned long n);", "FFFFFFFF 01000000 05000000", 12, "Truncated"),
    ("a maximum count of strings", "typedef [string] char *e; void f([in, size_is(n)] e a[*], [in] unsigned long n);", "FFFFFFFF 00000000 01000000", 12, "Truncated"),
    ("an actual count", "void f([in, size_is(m), length_is(n)] long a[*], [in] unsigned long m, [in] unsigned long n);", "FFFFFFFF 00000000 FFFFFFFF 05000000", 16, "Truncated"),
    ("an actual count of a string", "void f([in, string] char *s);", "FFFFFF03 00000000 F0FFFF03 6869", 14, "Truncated"),
    ("an actual count past the limit", "void f([in, string] char *s);", "FFFFFFFF 00000000 FFFFFFFF 6869", STREAM_LIMIT, "TooLong"),
    ("a chunk", "typedef pipe long p; void f([in] p d);", "FFFFFFFF 05000000 06000000", 12, "Truncated"),
    ("a chunk of structs", "typedef struct { byte t; hyper h; } e; typedef pipe e p; void f([in] p d);", "FFFFFFFF 00000000 01 00000000000000 0500000000000000", 24, "Truncated"),
    ("a hoisted maximum count", "typedef struct { unsigned long n; [size_is(n)] long a[*]; } s; void f([in] s *p);", "FFFFFFFF FFFFFFFF 05000000", 12, "Truncated"),
    ("a hoisted maximum count of a referent", "typedef struct { unsigned long n; [size_is(n)] hyper a[*]; } s; void f([in, unique] s *p);", "01000000 FFFFFFFF FFFFFFFF 00000000 0500000000000000", 24,
     "Truncated"),
]


def claimed(verb: str, claim: Tuple[str, str, str, int, str]) -> Case:
    """A count that is refused where memory is short as it is where there is enough."""
    name, operation, given, place, reason = claim
    return Case(f"long streams: {verb}, {name} of FFFFFFFF in little memory", [verb, *LITTLE], {"t.idl": idl(operation)}, octets(given),
                notes=lines(f"refused: octets at {place}: {reason}"), status=1, room=ROOM)


def of_array(way: Way) -> Late:
    return late(f"an array of 100,000 {way.name}", "decode", idl(way.typed, ARRAY), lambda: array(way))


CASES = [
    *map(of_array, WAYS),
    late("an array of 100,000 full pointers to one cell", "decode", idl("typedef [ptr] long *e;", ARRAY), shared),
    late("a list of 100,000 nodes", "decode", idl(LIST, "void f([in, unique] node *p);"), linked),
    late("the items of an array of 100,000 numbers", "explain", idl(BY_NAME["numbers"].typed, ARRAY), explained_numbers),
    late("the items of an array of 100,000 structs of numbers", "explain", idl(BY_NAME["structs of numbers"].typed, ARRAY), explained_structs),
    late("the items of an array of 100,000 strings", "explain", idl(BY_NAME["strings"].typed, ARRAY), explained_strings),
    late("a pipe of 100,000 chunks", "decode", FEED, lambda: (chunks(), values("d = [" + ", ".join(map(str, NUMBERS)) + "]"))),
    late("the items of a pipe of 100,000 chunks", "explain", FEED, lambda: (chunks(), explained_chunks())),
    late("100,000 chunks are drained", "drain", FEED, lambda: (chunks(), DRAINED), lambda: {"pipe0.out": lines(*map(str, NUMBERS))}),
    cut("100,000 elements", idl(BY_NAME["numbers"].typed, ARRAY), cut_elements),
    cut("100,000 chunks", FEED, cut_chunks),
    cut("100,000 cells", idl(LIST, "void f([in, unique] node *p);"), cut_cells),
    *(drained(BY_NAME[name]) for name in ("numbers", "enumerated values", "structs of numbers", "structs of structs and arrays", "unions")),
    *(claimed("decode", claim) for claim in CLAIMS),
    *(claimed("explain", claim) for claim in CLAIMS),
    *(claimed("drain", claim) for claim in CLAIMS if "pipe" in claim[1]),
]
