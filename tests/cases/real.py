"""The interface files of examples/real: each is accepted, and its operations read and write octets of other programs.

examples/real/octets.txt has a line `PROGRAM FILE OP SIDE ORDER OCTETS` for each stream, then what values it was made of, and then the values that are
printed. PROGRAM is `samba` for octets that Samba 4.17.12 wrote (its libndr by its Python modules, or its servers), and `worked` for octets that were
worked by hand from the transfer syntax."""

from case import ROOT, Begins, Case, Check, lines

FOLDER = ROOT / "examples" / "real"
FILES = {f"examples/real/{path.name}": path.read_bytes() for path in FOLDER.iterdir() if path.suffix in (".idl", ".acf")}
INTERFACES = {"srvsvc": 12, "samr": 12, "winreg": 15, "epm": 2, "mgmt": 1, "rdacl": 3}  # operations that have octets, at least


def acf(file):
    """The attribute file that goes with an interface file."""
    name = f"examples/real/{file}.acf"
    return name if name in FILES else "-"


def streams():
    """The streams of the page."""
    found = []
    for line in (FOLDER / "octets.txt").read_text(encoding="utf-8").splitlines():
        if line.startswith("  "):
            found[-1][1].append(line[2:])
        else:
            found.append((line.split(), []))
    return found


STREAMS = streams()


def read(head, values):
    """The case that reads a stream."""
    program, file, operation, side, order, given = head
    words = ["decode", f"examples/real/{file}.idl", acf(file), operation, side, order]
    printed = [value for value in values if not value.startswith("of ")]
    return Case(f"real: {program} {file} {operation} {side} {order}", words, FILES, bytes.fromhex(given.strip("-")),
                lines("values 2", f"op {operation} {side}", *printed))


def compiled(file):
    """The case that compiles an interface file."""
    return Case(f"real: {file}", ["compile", f"examples/real/{file}.idl", acf(file)], FILES, out=Begins(b"interface "))


def too_few():
    """The interfaces of which too few operations have octets."""
    for file, least in INTERFACES.items():
        found = {head[2].replace("_response", "") for head, _ in STREAMS if head[1] == file}
        if len(found) < least:
            yield f"examples/real/octets.txt has {len(found)} operations of {file}, not {least}"


CASES = [
    Check("real: operations of each interface have octets", lambda: list(too_few())),
    *(compiled(file) for file in [*INTERFACES, "wide", "windows", "dce"]),
    *(read(*stream) for stream in STREAMS),
]
