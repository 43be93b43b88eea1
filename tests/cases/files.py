"""Files that are missing, that cannot be read, or whose names are unusual."""

import os

from case import CLOSED, Case, Folder, LinkTo, Unreadable, interface, lines, octets

PLAIN = interface("void f([in] small x);")
TEXT = lines("values 2", "op f in", "x = 1")


def decode(name, file, files, input=octets("01"), **wanted):
    """A case that decodes `f` by the file of that name."""
    return Case(f"files: {name}", ["decode", file, "-", "f", "in", "little"], files, input, **wanted)


def absent(name, file, files, **more):
    """A case whose file is missing."""
    return decode(name, file, files, notes=lines(f"absent: {file}"), status=7, **more)


def failed(name, file, files):
    """A case whose file cannot be read."""
    return decode(name, file, files, notes=lines(f"file fault: {file}"), status=9)


# Root reads such a file all the same.
UNREADABLE = [] if os.geteuid() == 0 else [failed("no permission", "t.idl", {"t.idl": Unreadable()})]

CASES = [
    absent("missing", "t.idl", {}),
    absent("missing, closed input", "t.idl", {}, input=CLOSED),
    absent("another file is there", "t.idl", {"T.idl": PLAIN, "t.idl ": PLAIN}),
    absent("an empty name", "", {}),
    absent("a link to nothing", "t.idl", {"t.idl": LinkTo("u.idl")}),
    absent("missing in a folder", "sub/t.idl", {"sub": Folder(), "t.idl": PLAIN}),
    absent("a missing folder", "sub/t.idl", {"t.idl": PLAIN}),
    failed("a folder", "t.idl", {"t.idl": Folder()}),
    failed("the current folder", ".", {"t.idl": PLAIN}),
    failed("a file in the place of a folder", "t.idl/u.idl", {"t.idl": PLAIN}),
    failed("a link to itself", "t.idl", {"t.idl": LinkTo("t.idl")}),
    failed("a name that is too long", "t" * 300, {}),
    *UNREADABLE,
    decode("no last line feed", "t.idl", {"t.idl": PLAIN.rstrip(b"\n")}, out=TEXT),
    decode("no line feed at all", "t.idl", {"t.idl": PLAIN.replace(b"\n", b" ").strip()}, out=TEXT),
    decode("in a folder", "sub/t.idl", {"sub/t.idl": PLAIN}, out=TEXT),
    decode("a path that turns back", "./sub/../t.idl", {"sub": Folder(), "t.idl": PLAIN}, out=TEXT),
    decode("a link", "t.idl", {"t.idl": LinkTo("u.idl"), "u.idl": PLAIN}, out=TEXT),
    decode("spaces in the name", "a name with spaces.idl", {"a name with spaces.idl": PLAIN}, out=TEXT),
    decode("letters past ASCII in the name", "größe.idl", {"größe.idl": PLAIN}, out=TEXT),
    absent("letters past ASCII in a missing name", "größe.idl", {}),
    absent("a line feed in a missing name", "t\n.idl", {"t.idl": PLAIN}),
    absent("spaces in a missing name", " t.idl ", {"t.idl": PLAIN}),
    decode("named -", "-", {"-": PLAIN}, out=TEXT),
    absent("missing, named -", "-", {"t.idl": PLAIN}),
    decode("named --help", "--help", {"--help": PLAIN}, out=TEXT),
]
