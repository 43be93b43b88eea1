"""Makes examples/calls.pcap with scapy 2.5: three connections to one server, each with calls of another interface.

    python3 tests/outside/make_capture.py examples/calls.pcap

The octets of directory are those of examples/list-*.hex, and those of srvsvc and winreg are of examples/real/octets.txt."""

import struct
import sys
import uuid
from pathlib import Path

from scapy.all import IP, TCP, Ether, Raw, wrpcap

ROOT = Path(__file__).resolve().parents[2]
NDR = uuid.UUID("8a885d04-1ceb-11c9-9fe8-08002b104860").bytes_le + struct.pack("<I", 2)
SERVER = 49152


def header(kind, flags, length, call):
    return struct.pack("<BBBBIHHI", 5, 0, kind, flags, 0x10, length, 0, call)


def bind(interface, major, minor=0):
    """A bind to an interface in NDR, with the call id 1."""
    body = struct.pack("<HHIBBH", 4280, 4280, 0, 1, 0, 0) + struct.pack("<HBB", 0, 1, 0)
    body += uuid.UUID(interface).bytes_le + struct.pack("<HH", major, minor) + NDR
    return header(11, 3, 16 + len(body), 1) + body


def bind_ack():
    """Its answer."""
    port = str(SERVER).encode() + b"\0"
    body = struct.pack("<HHI", 4280, 4280, 0x53F0) + struct.pack("<H", len(port)) + port
    body += bytes(-len(body) % 4) + struct.pack("<BBHHH", 1, 0, 0, 0, 0) + NDR
    return header(12, 3, 16 + len(body), 1) + body


def pdus(kind, call, number, stub, most=4000):
    """The fragments of a request (type 0) or a response (type 2)."""
    pieces = [stub[at:at + most] for at in range(0, len(stub), most)] or [b""]
    made = []
    for at, piece in enumerate(pieces):
        flags = (at == 0) + 2 * (at == len(pieces) - 1)
        last = struct.pack("<H", number) if kind == 0 else b"\0\0"
        made.append(header(kind, flags, 24 + len(piece), call) + struct.pack("<IH", len(stub) - at * most, 0) + last + piece)
    return made


class Connection:
    """A connection from a port of the client, and its packets."""

    def __init__(self, port):
        self.ports, self.next, self.packets = (port, SERVER), [1000, 5000], []
        for side, flags in ((0, "S"), (1, "SA"), (0, "A")):
            self.send(side, b"", flags)
            self.next[side] += flags != "A"

    def send(self, side, octets, flags="PA"):
        """A packet of the client (side 0) or the server (side 1)."""
        other = 1 - side
        hosts = ("10.0.0.1", "10.0.0.2")
        packet = Ether(src=f"02:00:00:00:00:0{side + 1}", dst=f"02:00:00:00:00:0{other + 1}") / IP(src=hosts[side], dst=hosts[other], id=1)
        packet /= TCP(sport=self.ports[side], dport=self.ports[other], seq=self.next[side], ack=self.next[other] if "A" in flags else 0, flags=flags)
        self.packets.append(packet / Raw(octets) if octets else packet)
        self.next[side] += len(octets)

    def bind(self, interface, major):
        self.send(0, bind(interface, major))
        self.send(1, bind_ack())


def streams():
    """The octets of examples/real/octets.txt in little order, by their file, operation and side."""
    heads = [line.split() for line in (ROOT / "examples/real/octets.txt").read_text(encoding="utf-8").splitlines() if not line.startswith(" ")]
    return {(file, operation, side): bytes.fromhex(octets.strip("-")) for _, file, operation, side, order, octets in heads if order == "little"}


def main():
    real = streams()
    hexadecimal = {side: bytes.fromhex((ROOT / f"examples/list-{side}.hex").read_text()) for side in ("request", "response")}
    first, second, third = Connection(40001), Connection(40002), Connection(40003)

    # directory, which tshark does not know: a call whose response has three fragments, in packets of their own
    first.bind("0f0e0d0c-0b0a-0908-0706-050403020100", 1)
    first.send(0, *pdus(0, 1, 0, hexadecimal["request"]))
    for piece in pdus(2, 1, 0, hexadecimal["response"], 40):
        first.send(1, piece)

    # srvsvc, which it knows: the same call ids, and two requests in one packet
    second.bind("4b324fc8-1670-01d3-1278-5a47bf6ee188", 3)
    second.send(0, *pdus(0, 1, 15, real["srvsvc", "share_enum", "in"]))
    second.send(1, b"".join(pdus(2, 1, 0, real["srvsvc", "share_enum", "out"], 96)))
    requests = [("share_get_info", 16, 2), ("remote_time", 28, 3)]
    second.send(0, b"".join(octets for name, number, call in requests for octets in pdus(0, call, number, real["srvsvc", name, "in"])))
    second.send(1, b"".join(octets for name, number, call in requests for octets in pdus(2, call, 0, real["srvsvc", name, "out"])))

    # winreg
    third.bind("338cd001-2244-31f1-aaaa-900038001003", 1)
    for call, (name, answer, number) in enumerate([("open_local_machine", "open_local_machine", 2), ("open_key", "open_key", 15),
                                                   ("query_value", "query_value_response", 17), ("close_key", "close_key", 5)], 1):
        third.send(0, *pdus(0, call, number, real["winreg", name, "in"]))
        third.send(1, *pdus(2, call, 0, real["winreg", answer, "out"]))

    packets = [*first.packets[:6], *second.packets, *first.packets[6:], *third.packets]
    for at, packet in enumerate(packets):
        packet.time = 1_800_000_000 + at / 1000
    wrpcap(sys.argv[1], packets)


if __name__ == "__main__":
    main()
