"""Encoding of every form of type, on both sides, in both orders, with a request and without one; and octets that other programs wrote, encoded again.
The octets and the texts were made from C706 and the pages of docs/."""

from case import Case, interface, lines, octets
from decode_types import (
    ADD, ANSWER, ANSWER_OCTETS, BLOB, CHOICE, FEED, FEED_OCTETS, GRID, HOISTED, ID, KINDS, OWN, PART, PICK, PICK_ONE, RING, RING_OCTETS, SAY, SUM, SUM_OCTETS,
    TURNS, TURNS_OCTETS, TWO, USE, VARYING, files, request,
)
from outside_octets import FOLDER, cases as outside_cases

MOST = 67_108_864


def words(operation, side="in", order="little", chunk="1", given=None):
    """The words of an encoding; with a request they name its file."""
    return ["encode", "t.idl", "-", operation, side, order, chunk, *([] if given is None else ["given", "request.text"])]


def text(operation, side, values, version=1):
    """The text of values."""
    return lines(f"values {version}", f"op {operation} {side}", *values)


def encoded(name, file, operation, wanted, *values, side="in", order="little", chunk="1", given=None, version=1):
    """A case that encodes the values of an operation of the file."""
    return Case(f"encode values: {name}", words(operation, side, order, chunk, given), files(file, given), text(operation, side, values, version), wanted)


def refused(name, file, operation, notes, *values, side="in", given=None, status=1):
    """A case that is refused."""
    return Case(f"encode values: {name}", words(operation, side, given=given), files(file, given), text(operation, side, values),
                notes=lines(notes), status=status)


FIXED = [
    encoded("a struct with a fixed array of two dimensions", GRID, "fx", octets("01 00 0100 0200 0300 0400"),
            "p = @1", "@1 = {t = 1, m = [[1, 2], [3, 4]]}"),
    encoded("a struct with a fixed array in big order", GRID, "fx", octets("01 00 0001 0002 0003 0004"), "p = @1", "@1 = {t = 1, m = [[1, 2], [3, 4]]}", order="big"),
    encoded("an enumerated type", KINDS, "e", octets("0400"), "k = 4"),
    refused("a value of no enumerator", KINDS, "e", "refused: value at k: Range", "k = 1"),
    encoded("TRUE is 1", interface("void f([in] boolean b);"), "f", octets("01"), "b = 1"),
    encoded("a union by its default arm", PICK, "pick", octets("0900 000000000000 0100000000000000"), "p = @1", "@1 = 9:1"),
    encoded("a union by its first arm", PICK, "pick", octets("0100 0000 07000000"), "p = @1", "@1 = 1:7"),
    refused("a tag that selects no arm", PICK_ONE, "pick", "refused: value at @1: NoArm", "p = @1", "@1 = 4:void"),
]

COUNTED = [
    encoded("a conformant array at the end of a struct", SUM, "sum", SUM_OCTETS, "p = @1", "@1 = {n = 2, a = [1, 2]}"),
    encoded("a conformant array in big order", SUM, "sum", octets("00000002 00000000 0002 000000000000 0000000000000001 0000000000000002"),
            "p = @1", "@1 = {n = 2, a = [1, 2]}", order="big"),
    encoded("a maximum count before two structs", HOISTED, "g", octets("01000000 09 000000 01000000 0500"),
            "p = @1", "@1 = {t = 9, i = {n = 1, a = [5]}}"),
    encoded("a varying array", PART, "va", octets("02000000 00000000 02000000 0500 0600"), "p = @1", "@1 = {n = 2, a = 0:[5, 6]}"),
    encoded("a conformant varying array", VARYING, "v", octets("05000000 01000000 02000000 0708 0000 05000000 02000000"),
            "a = 5:1:[7, 8]", "n = 5", "m = 2"),
    refused("a count that differs from its variable", SUM, "sum", "refused: value at @1.a: Disagrees wanted 3 found 2",
            "p = @1", "@1 = {n = 3, a = [1, 2]}"),
    encoded("an array of octets", BLOB, "blob", octets("02000000 02000000 abcd"), "n = 2", 'd = x"abcd"', version=2),
]

TEXTS = [encoded("a string", SAY, "say", octets("03000000 00000000 03000000 686900"), "s = @1", '@1 = 3:"hi"')]

POINTERS = [
    encoded("a node that points to itself", RING, "ring", octets("01000000 07000000 01000000"), "p = @1", "@1 = {v = 7, next = @1}"),
    encoded("a ring of two", RING, "ring", RING_OCTETS, "p = @1", "@1 = {v = 7, next = @2}", "@2 = {v = 8, next = @1}"),
    encoded("a ring of two in big order", RING, "ring", octets("00000001 00000007 00000002 00000008 00000001"),
            "p = @1", "@1 = {v = 7, next = @2}", "@2 = {v = 8, next = @1}", order="big"),
    encoded("a chain of two", RING, "ring", octets("01000000 07000000 02000000 08000000 00000000"),
            "p = @1", "@1 = {v = 7, next = @2}", "@2 = {v = 8, next = null}"),
    encoded("a null pointer", RING, "ring", octets("00000000"), "p = null"),
    encoded("the referent is at the first turn", TURNS, "h", TURNS_OCTETS,
            "p = @1", "@1 = {a = @2, b = @3}", "@2 = {y = @3, z = @4}", "@3 = {v = 5}", "@4 = {v = 6}"),
    encoded("a null pointer among them", TURNS, "h", octets("02000000 03000000 00000000 04000000 05000000 06000000"),
            "p = @1", "@1 = {a = @2, b = @3}", "@2 = {y = null, z = @4}", "@3 = {v = 6}", "@4 = {v = 5}"),
    encoded("unique pointers", TWO, "two", octets("01000000 05000000 02000000 05000000"), "a = @1", "b = @2", "@1 = 5", "@2 = 5"),
    refused("unique pointers to one cell", TWO, "two", "refused: value at b: Shared", "a = @1", "b = @1", "@1 = 5"),
    refused("a cell that is not there", RING, "ring", "refused: value at p: NoCell", "p = @1"),
    encoded("a chain of 1,000 nodes", RING, "ring", octets("01000000") + b"".join(n.to_bytes(4, "little") + ((n + 1) % 1001).to_bytes(4, "little") for n in range(1, 1001)),
            "p = @1", *(f"@{n} = {{v = {n}, next = {'null' if n == 1000 else f'@{n + 1}'}}}" for n in range(1, 1001))),
]

UNIONS = [
    encoded("a union with its tag in a parameter", CHOICE, "nn", octets("0100 0100 05000000"), "k = 1", "u = 1:5"),
    encoded("an empty arm", CHOICE, "nn", octets("0200 0200"), "k = 2", "u = 2:void"),
    refused("a tag that differs from its parameter", CHOICE, "nn", "refused: value at u: Disagrees wanted 1 found 2", "k = 1", "u = 2:void"),
]

HANDLES = [
    encoded("a null context handle", USE, "use", bytes(20), "c = ctx(0, 00000000-0000-0000-0000-000000000000)"),
    encoded("a context handle in little order", USE, "use", octets("00000000 33221100 5544 7766 8899aabbccddeeff"), f"c = ctx(0, {ID})"),
    encoded("a context handle in big order", USE, "use", octets("00000000 00112233 4455 6677 8899aabbccddeeff"), f"c = ctx(0, {ID})", order="big"),
]

PIPES = [
    encoded("a pipe in chunks of two", FEED, "feed", FEED_OCTETS, "d = [1, 2, 3]", chunk="2"),
    encoded("a pipe in one chunk", FEED, "feed", octets("03000000 01000000 02000000 03000000 00000000"), "d = [1, 2, 3]", chunk="3"),
    encoded("a pipe in a chunk that could have more", FEED, "feed", octets("03000000 01000000 02000000 03000000 00000000"), "d = [1, 2, 3]", chunk="16777216"),
    encoded("a pipe element by element", FEED, "feed", octets("01000000 01000000 01000000 02000000 00000000"), "d = [1, 2]"),
    encoded("an empty pipe", FEED, "feed", bytes(4), "d = []", chunk="2"),
]

GIVEN = [
    encoded("a response without a request", ANSWER, "r", ANSWER_OCTETS, "a = [171, 205]", side="out"),
    encoded("a response with its request", ANSWER, "r", ANSWER_OCTETS, "a = [171, 205]", side="out", given=request("n = 2")),
    refused("a response that differs from its request", ANSWER, "r", "refused: value at a: Disagrees wanted 3 found 2", "a = [171, 205]",
            side="out", given=request("n = 3")),
    encoded("a variable that travels in the response", OWN, "s2", octets("01000000 01000000 07"), "n = @1", "a = [7]", "@1 = 1",
            side="out", given=request("n = @1", "@1 = 5", operation="s2")),
    refused("a request that is no text", ANSWER, "r", "refused: given: text 1:1: Expected", "a = [171, 205]", side="out", given=b""),
    refused("a value of the request past its range", ANSWER, "r", "refused: given: value at n: Range", "a = [171, 205]",
            side="out", given=request("n = 4294967296")),
    Case("encode given: the request comes before the text", words("r", "out", given=b""), files(ANSWER, request("n =")), b"",
         notes=lines("refused: given: text 4:1: Expected"), status=1),
    Case("encode given: a request that does not exist", words("r", "out", given=b""), {"t.idl": ANSWER}, text("r", "out", ["a = [171, 205]"]),
         notes=lines("absent: request.text"), status=7),
    Case("encode given: a request with inputs", words("r", "in", given=b""), files(ANSWER, request("n = 2")), text("r", "in", ["n = 2"]),
         notes=lines("words refused"), status=2),
    Case("encode given: no file", [*words("r", "out"), "given"], files(ANSWER, request("n = 2")), text("r", "out", ["a = [171, 205]"]),
         notes=lines("words refused"), status=2),
    Case("encode given: another word", [*words("r", "out"), "beside", "request.text"], files(ANSWER, request("n = 2")), text("r", "out", ["a = [171, 205]"]),
         notes=lines("words refused"), status=2),
    Case("migrate given: a request with what is migrated", ["migrate", "t.idl", "-", "r", "out", "given", "request.text"], files(ANSWER, request("n = 2")),
         text("r", "out", ["a = [171, 205]"]), notes=lines("words refused"), status=2),
]

# A string of the longest stream, and one letter more: 12 octets of counts, the letters, and a zero.
LETTERS = MOST - 13


def string(count):
    """The text of a string of so many letters."""
    return b'values 1\nop say in\ns = @1\n@1 = ' + str(count + 1).encode() + b':"' + b"a" * count + b'"\n'


LONG = [
    Case("encode values: the longest stream", words("say"), {"t.idl": SAY}, string(LETTERS),
         (LETTERS + 1).to_bytes(4, "little") + bytes(4) + (LETTERS + 1).to_bytes(4, "little") + b"a" * LETTERS + b"\0"),
    Case("encode values: one octet more", words("say"), {"t.idl": SAY}, string(LETTERS + 1), notes=lines(f"refused: TooLong {MOST + 1}"), status=1),
    Case("encode values: one octet more in big order", words("say", order="big"), {"t.idl": SAY}, string(LETTERS + 1),
         notes=lines(f"refused: TooLong {MOST + 1}"), status=1),
    Case("encode values: an array of 16,777,209 octets", words("blob"), {"t.idl": BLOB},
         b'values 2\nop blob in\nn = 16777209\nd = x"' + b"61" * 16_777_209 + b'"\n', (16_777_209).to_bytes(4, "little") * 2 + b"a" * 16_777_209),
]


# tests/outside/not_chosen.txt names the octets that are not in the form that is written: their pointers have other numbers, their pipes other chunks, their
# gaps other octets, or TRUE is another octet.
NOT_CHOSEN = set((FOLDER / "not_chosen.txt").read_text().splitlines())


def again(case):
    """The text that is printed of octets of another program, encoded, gives these octets."""
    name = case.name.removeprefix("outside octets: ")
    return Case(f"outside octets encoded: {name}", ["encode", *case.words[1:], "16777216"], case.files, case.out, case.input)


OUTSIDE = [again(case) for case in outside_cases() if case.status == 0 and case.name.removeprefix("outside octets: ") not in NOT_CHOSEN]

CASES = FIXED + COUNTED + TEXTS + POINTERS + UNIONS + HANDLES + PIPES + GIVEN + LONG + OUTSIDE
