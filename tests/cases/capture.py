"""docs/FROM-A-CAPTURE.md: each line that begins with `$` is run, and prints what the page shows after it. And bin/calls on a capture of its own."""

import shutil
import subprocess
import tempfile
import uuid
from pathlib import Path
from struct import pack
from typing import Iterator, List, Tuple

from case import ROOT, Check, LeftOut, commands, lines

LINES = commands("docs/FROM-A-CAPTURE.md")
MANY = 11  # lines that the page has at least


# ----------------------------------------------------------------------------------------------------------------------
# A capture of one connection, which agrees on two contexts and refuses a third: NDR, NDR64, and a later one

FIRST, SECOND, THIRD = (uuid.UUID(int=at) for at in (1, 2, 3))
NDR = uuid.UUID("8a885d04-1ceb-11c9-9fe8-08002b104860").bytes_le + pack("<I", 2)
NDR64 = uuid.UUID("71710533-beba-4937-8319-b5dbef9ccc36").bytes_le + pack("<I", 1)


def pdu(kind: int, call: int, body: bytes) -> bytes:
    return pack("<BBBBIHHI", 5, 0, kind, 3, 0x10, 16 + len(body), 0, call) + body


def asked(context: int, interface: uuid.UUID, *syntaxes: bytes) -> bytes:
    return pack("<HBB", context, len(syntaxes), 0) + interface.bytes_le + pack("<HH", 1, 0) + b"".join(syntaxes)


def bind(kind: int, call: int, *contexts: bytes) -> bytes:
    return pdu(kind, call, pack("<HHIBBH", 4280, 4280, 0, len(contexts), 0, 0) + b"".join(contexts))


def bind_ack(kind: int, call: int, *results: bytes) -> bytes:
    return pdu(kind, call, pack("<HHIHxx", 4280, 4280, 1, 0) + pack("<BBH", len(results), 0, 0) + b"".join(results))


ACCEPTED, REFUSED = pack("<HH", 0, 0), pack("<HH", 2, 1) + bytes(20)


def request(call: int, context: int, number: int, stub: bytes) -> bytes:
    return pdu(0, call, pack("<IHH", len(stub), context, number) + stub)


def response(call: int, context: int, stub: bytes) -> bytes:
    return pdu(2, call, pack("<IHBx", len(stub), context, 0) + stub)


def fault(call: int, context: int, status: int) -> bytes:
    return pdu(3, call, pack("<IHBxII", 0, context, 0, status, 0))


PACKETS: List[Tuple[int, bytes]] = [  # each with its sender: 0 the client, 1 the server
    (0, bind(11, 1, asked(0, FIRST, NDR), asked(1, SECOND, NDR, NDR64), asked(2, THIRD, NDR))),
    (1, bind_ack(12, 1, ACCEPTED + NDR, ACCEPTED + NDR64, REFUSED)),
    (0, request(1, 0, 5, b"\1\2") + request(2, 1, 6, b"\3\4")),
    (1, response(1, 0, b"\5\6") + fault(2, 1, 0x1C010002)),
    (0, bind(14, 3, asked(3, THIRD, NDR))),
    (1, bind_ack(15, 3, ACCEPTED + NDR)),
    (0, request(4, 3, 7, b"\7\7")),
    (1, fault(4, 3, 5)),
]
LISTED = lines(
    f"0 1 in 5 little 0102 {FIRST} 0 ndr",
    f"0 2 in 6 little 0304 {SECOND} 1 ndr64",
    f"0 1 out 5 little 0506 {FIRST} 0 ndr",
    f"0 2 fault 6 little 0x1c010002 {SECOND} 1 ndr64",
    f"0 4 in 7 little 0707 {THIRD} 3 ndr",
    f"0 4 fault 7 little 0x00000005 {THIRD} 3 ndr",
)


def segments() -> Iterator[bytes]:
    """The packets as frames, after those that open the connection."""
    ports, hosts, at = (50000, 49152), (b"\x0a\0\0\1", b"\x0a\0\0\2"), [100, 200]
    for side, flags, octets in [(0, 2, b""), (1, 18, b""), (0, 16, b""), *((side, 24, octets) for side, octets in PACKETS)]:
        tcp = pack(">HHIIBBHHH", ports[side], ports[1 - side], at[side], at[1 - side] if flags != 2 else 0, 0x50, flags, 8192, 0, 0) + octets
        ip = pack(">BBHHHBBH", 0x45, 0, 20 + len(tcp), 1, 0, 64, 6, 0) + hosts[side] + hosts[1 - side]
        at[side] += len(octets) + (flags in (2, 18))
        yield bytes(12) + b"\x08\0" + ip + tcp


def capture() -> bytes:
    """The capture file."""
    frames = list(segments())
    return pack("<IHHIIII", 0xA1B2C3D4, 2, 4, 0, 0, 65535, 1) + b"".join(pack("<IIII", at, 0, len(it), len(it)) + it for at, it in enumerate(frames))


def contexts_and_faults() -> List[str]:
    """What is wrong with what bin/calls prints of the capture."""
    if shutil.which("tshark") is None:
        raise LeftOut("there is no tshark")
    with tempfile.TemporaryDirectory() as folder:
        file = Path(folder, "calls.pcap")
        file.write_bytes(capture())
        words = [str(ROOT / "bin" / "calls"), str(file), "-d", "tcp.port==49152,dcerpc"]
        ran = subprocess.run(words, stdin=subprocess.DEVNULL, stdout=subprocess.PIPE, stderr=subprocess.STDOUT)
    return [] if ran.stdout == LISTED else [f"wanted {LISTED!r}", f"found {ran.stdout!r}"]


CASES = [
    Check("docs/FROM-A-CAPTURE.md: the page was read", lambda: [] if len(LINES) >= MANY else [f"it has {len(LINES)} lines, not {MANY}"]),
    Check("bin/calls: contexts, transfer syntaxes and faults", contexts_and_faults),
    *LINES,
]
