"""The commands `call` and `wrap`: the fragments of a request or response (C706, section 12.6)."""

from case import CLOSED, Case, Late, OneAtATime, example, interface, lines, octets

FILE = interface("void add([in] long a, [in] short b, [in] hyper c);", "void ping();", "long sum([in] short n);")
ADD = lines("values 2", "op add in", "a = 1", "b = 2", "c = 3")
STUB = octets("01000000 02000000 03000000 00000000")


def pdu(stub, flags=3, call=7, number=0, order="little", kind=0, hint=None, **changed):
    """A fragment with these stub data. The octets at `at_N` are changed."""
    header = bytearray([5, 0, kind, flags, 16 if order == "little" else 0, 0, 0, 0])
    header += (24 + len(stub)).to_bytes(2, order) + bytes(2) + call.to_bytes(4, order)
    header += (len(stub) if hint is None else hint).to_bytes(4, order) + bytes(2) + number.to_bytes(2, order)
    for name, octet in changed.items():
        header[int(name[3:])] = octet
    return bytes(header) + stub


WHOLE = pdu(STUB)
FIRST = pdu(STUB[:5], flags=1, hint=16)
SECOND = pdu(STUB[5:], flags=2, hint=16)
OBJECT = pdu(bytes(range(16)) + STUB, flags=131)
RESPONSE = pdu(octets("09000000"), kind=2)
SUM = lines("values 2", "op sum out", "return = 9")


def call(name, input, made=None, op="-", **wanted):
    """A case that reads the PDUs of a request, or of a response to an operation."""
    if made is not None:
        wanted["out"] = made
    return Case(f"call: {name}", ["call", "t.idl", "-", op], {"t.idl": FILE}, input, **wanted)


def refused(name, input, place, reason, **wanted):
    """PDUs that are refused."""
    return call(name, input, status=1, notes=lines(f"refused: pdu at {place}: {reason}"), **wanted)


def wrap(name, words, text, made=None, **wanted):
    """A case that writes the PDUs of the values of a text."""
    if made is not None:
        wanted["out"] = made
    return Case(f"wrap: {name}", ["wrap", "t.idl", "-", *words.split()], {"t.idl": FILE}, text, **wanted)


READ = [
    call("one fragment", WHOLE, lines("call 7") + ADD),
    call("two fragments", FIRST + SECOND, lines("call 7") + ADD),
    call("two fragments, octet by octet", OneAtATime(FIRST + SECOND), lines("call 7") + ADD),
    call("an object UUID is passed over", OBJECT, lines("call 7") + ADD),
    call("the greatest call id", pdu(STUB, call=4294967295), lines("call 4294967295") + ADD),
    call("other flags, the minor version and the hint are passed over", pdu(STUB, flags=7, at_1=9, at_16=1), lines("call 7") + ADD),
    call("no stub data", pdu(b"", number=1), lines("call 7", "values 2", "op ping in")),
    call("a response", RESPONSE, lines("call 7") + SUM, op="sum"),
    call("big order", pdu(octets("00000001 0002 0000 0000000000000003"), order="big"), lines("call 7") + ADD),
]

# of a first fragment, and of the second of two
REFUSED = [
    refused("no octets", b"", 0, "Short"),
    refused("a fragment is missing", FIRST, 29, "Short"),
    refused("cut in the second fragment", (FIRST + SECOND)[:50], 50, "Short"),
    refused("version", pdu(STUB, at_0=4), 0, "Version"),
    refused("a response for a request", RESPONSE, 2, "Kind"),
    refused("a request for a response", WHOLE, 2, "Kind", op="sum"),
    refused("no first flag", pdu(STUB, flags=2), 3, "Flags"),
    refused("label", pdu(STUB, at_4=32), 4, "Label"),
    refused("length below that of the header", pdu(STUB, at_8=23), 8, "Length"),
    refused("length below that of a header with an object UUID", pdu(STUB, flags=131, at_8=39), 8, "Length"),
    refused("authentication", pdu(STUB, at_10=1), 10, "Auth"),
    refused("no stub data and not the last", pdu(b"", flags=1), 8, "EmptyPiece"),
    refused("second: version", FIRST + pdu(STUB[5:], flags=2, at_0=4), 29, "Version"),
    refused("second: kind", FIRST + pdu(STUB[5:], flags=2, kind=2), 31, "Kind"),
    refused("second: first flag", FIRST + pdu(STUB[5:], flags=3), 32, "Flags"),
    refused("second: label", FIRST + pdu(STUB[5:], flags=2, at_4=17), 33, "Label"),
    refused("second: order", FIRST + pdu(STUB[5:], flags=2, order="big"), 33, "OtherOrder"),
    refused("second: length", FIRST + pdu(STUB[5:], flags=2, at_8=23), 37, "Length"),
    refused("second: authentication", FIRST + pdu(STUB[5:], flags=2, at_11=1), 39, "Auth"),
    refused("second: call id", FIRST + pdu(STUB[5:], flags=2, call=8), 41, "OtherCall"),
    refused("second: operation", FIRST + pdu(STUB[5:], flags=2, number=1), 51, "OtherOperation"),
    refused("second: no stub data and not the last", FIRST + pdu(b"", flags=0), 37, "EmptyPiece"),
    refused("an octet after the last fragment", WHOLE + b"\0", 40, "Trailing"),
    refused("no such operation", pdu(STUB, number=3), 22, "NoOperation 3"),
    call("stub data that are too short", pdu(STUB[:15]), status=1, notes=lines("refused: octets at 15: Truncated")),
    call("stub data that are too long", pdu(STUB + b"\0"), status=1, notes=lines("refused: octets at 16: Trailing")),
    call("no such name", b"", op="none", status=6, notes=lines("idl t.idl: NoOperation none")),
    call("a read fault", CLOSED, status=3, notes=lines("read fault")),
]

WRAPPED = [
    wrap("a request", "add in little 7 1024", ADD, WHOLE),
    wrap("a request, big", "add in big 7 1024", ADD, pdu(octets("00000001 0002 0000 0000000000000003"), order="big")),
    wrap("a response", "sum out little 7 65535", SUM, RESPONSE),
    wrap("no stub data", "ping in little 0 1024", lines("values 2", "op ping in"), pdu(b"", call=0, number=1)),
    wrap("a label is no order", "add in label 7 1024", ADD, status=2, notes=lines("words refused")),
    wrap("fragments that are too small", "add in little 7 1023", ADD, status=2, notes=lines("words refused")),
    wrap("fragments that are too large", "add in little 7 65536", ADD, status=2, notes=lines("words refused")),
    wrap("a call id that is too great", "add in little 4294967296 1024", ADD, status=2, notes=lines("words refused")),
    wrap("a text that is refused", "add in little 7 1024", b"values 3\n", status=1, notes=lines("refused: text 1:8: Expected")),
]

# what does not fit into one fragment, and what does not fit into one chunk of a pipe
CHUNK = 65_536
LARGE = interface("void put([in] unsigned long n, [in, size_is(n)] byte data[*]);", "typedef pipe short shorts; void feed([in] shorts d);")


def fragments(stub, most, **fields):
    """The fragments of stub data, each but the last of so many octets; no stub data are one fragment."""
    parts = [stub[at:at + most - 24] for at in range(0, len(stub), most - 24)] or [stub]
    last = len(parts) - 1
    return b"".join(pdu(part, flags=(at == 0) + 2 * (at == last), hint=len(stub), **fields) for at, part in enumerate(parts))


def large(name, words, text, stub, most, **fields):
    """A case that writes the fragments of values that are too large for one, and one that reads them back."""
    made = fragments(stub, most, **fields)
    return [Case(f"wrap: {name}", ["wrap", "t.idl", "-", *words.split(), str(most)], {"t.idl": LARGE}, text, out=made),
            Case(f"call: {name}", ["call", "t.idl", "-", "-"], {"t.idl": LARGE}, made, out=lines("call 7") + text)]


def put(count, most):
    """Stub data with so many octets in an array, which two numbers come before: how many they are, and how many there may be."""
    stub = count.to_bytes(4, "little") * 2 + bytes(at % 251 for at in range(count))
    return large(f"{len(stub):,} octets of stub data, at most {most:,} in a fragment", "put in little 7",
                 lines("values 2", "op put in", f"n = {count}", f'data = x"{stub[8:].hex()}"'), stub, most)


def feed(count, order):
    """A pipe with so many elements: chunks of at most 65,536, each with its count, and then a count of 0. Two octets come before a count after an odd chunk."""
    stub = b""
    for first in [*range(0, count, CHUNK), count]:
        elements = range(first, min(first + CHUNK, count))
        stub += bytes(-len(stub) % 4) + len(elements).to_bytes(4, order) + b"".join((number % 1_000).to_bytes(2, order) for number in elements)
    return large(f"a pipe of {count:,} elements, {order}", f"feed in {order} 7",
                 lines("values 2", "op feed in", f"d = [{', '.join(str(number % 1_000) for number in range(count))}]"), stub, 65_535, number=1, order=order)


LARGE_ONES = [case for cases in (put(992, 1_024), put(993, 1_024), put(2_993, 1_025), put(65_503, 65_535), put(65_504, 65_535),
                                 feed(CHUNK, "little"), feed(CHUNK + 1, "little"), feed(2 * CHUNK + 3, "big")) for case in cases]

LIST = lines("values 2", "op list in", "path = @1", '@1 = 2:"/"')
LISTED = lines("values 2", "op list out", "first = @1", "return = 2", "@1 = {kind = 5, detail = 5:@2, name = @3, next = @4}", '@2 = 5:"here"', '@3 = 4:"etc"',
               "@4 = {kind = 0, detail = 0:1024, name = @5, next = null}", '@5 = 2:"a"')


def outside(order, line, op, made):
    """A line of an example: PDUs whose headers scapy wrote, around stub data that Samba wrote."""
    return Case(f"call: {order}, PDUs of scapy with stub data of Samba, line {line}", ["call", "directory.idl", "-", op],
                {"directory.idl": example("directory.idl")}, bytes.fromhex(example(f"list-pdus-{order}.hex").split()[line - 1].decode()), lines("call 1") + made)


OUTSIDE = [outside(order, line, op, made) for order in ("little", "big") for line, op, made in ((1, "-", LIST), (2, "list", LISTED))]

# three fragments, cut after each octet
THREE = pdu(STUB[:5], flags=1, hint=16) + pdu(STUB[5:8], flags=0, hint=16) + pdu(STUB[8:], flags=2, hint=16)
CUT = [call("three fragments", THREE, lines("call 7") + ADD),
       *(refused(f"three fragments cut after {n} octets", THREE[:n], n, "Short") for n in range(len(THREE)))]

# stub data up to the limit of a stream, and one octet more: fragments as large as there may be, of which each has 65,511 octets
STREAM_LIMIT = 67_108_864
WHOLE_ONES, REST = divmod(STREAM_LIMIT, 65_511)


def long_request(more):
    """A request of `ping` with so many octets more than the limit."""
    part = bytes(65_511)
    return pdu(part, flags=1, number=1) + pdu(part, flags=0, number=1) * (WHOLE_ONES - 1) + pdu(bytes(REST + more), flags=2, number=1)


LONG = [Late("call: as many stub data as a stream may have",
             lambda: call("as many stub data as a stream may have", long_request(0), status=1, notes=lines("refused: octets at 0: Trailing"))),
        Late("call: one octet of stub data too many",
             lambda: refused("one octet of stub data too many", long_request(1), WHOLE_ONES * 65_535 + 8, "StubLong"))]

CASES = READ + REFUSED + WRAPPED + LARGE_ONES + OUTSIDE + CUT + LONG
