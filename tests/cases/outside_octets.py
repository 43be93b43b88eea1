"""Octets that other programs wrote, of operations of tests/outside/*.idl: Samba 4.17.12 (libndr, under code of its pidl), impacket 0.10.0
(dcerpc.v5.ndr) and scapy 2.5.0 (layers.dcerpc).

tests/outside/octets.txt has a line `PROGRAM NAME OP SIDE ORDER OCTETS` for each, then what values the other program was given, and then the values
that are printed; or why its octets differ from those of C706, and how they are refused."""

from case import ROOT, Case, lines

FOLDER = ROOT / "tests" / "outside"


def outside(head, values):
    """The case of a line and of those after it."""
    program, name, operation, side, order, given = head.split()
    file = f"{program}.idl"
    shown = f"outside octets: {program} {name} {side} {order}"
    words = ["decode", file, "-", operation, side, order]
    files = {file: (FOLDER / file).read_bytes()}
    differs = any(value.startswith("differs: ") for value in values)
    printed = [value for value in values if not value.startswith(("of ", "differs: "))]
    if differs:
        return Case(shown, words, files, bytes.fromhex(given), notes=lines(*printed), status=1)
    return Case(shown, words, files, bytes.fromhex(given), lines("values 2", f"op {operation} {side}", *printed))


def cases():
    """The cases of the file."""
    found = []
    for line in (FOLDER / "octets.txt").read_text().splitlines():
        if line.startswith("  "):
            found[-1][1].append(line[2:])
        else:
            found.append((line, []))
    return [outside(head, values) for head, values in found]


CASES = cases()
