#!/usr/bin/env python3
"""Reads a request from its octets, and writes the response: the length of the name in it. The word is the path of libdceidl.so."""

import ctypes
import sys

IDL = b"[uuid(1a2b3c4d-0001-0002-0003-040506070809)] interface greeter { long greet([in, string] char *name); }"
REQUEST = bytes.fromhex("04000000 00000000 04000000 41646100")
OK, SHORT, REFUSED = 0, 4, 5
IN, LITTLE = 0, 0


class Handle(ctypes.Structure):
    """A handle, which holds nothing at first."""

    _fields_ = [("at", ctypes.c_void_p), ("full", ctypes.c_size_t)]


class File(ctypes.Structure):
    _fields_ = [("name", ctypes.c_char_p), ("name_length", ctypes.c_size_t), ("text", ctypes.c_char_p), ("text_length", ctypes.c_size_t)]


def octets(value):
    """Two words of a call: where octets are, and how many."""
    return [ctypes.c_char_p(value), ctypes.c_size_t(len(value))]


def written(call, *words):
    """What a call writes: first with no room, to learn the length, and then with as much."""
    length, room = ctypes.c_size_t(), 0
    while True:
        out = ctypes.create_string_buffer(room + 1)
        status = call(*words, out, ctypes.c_size_t(room), ctypes.byref(length))
        if status != SHORT:
            return status, out.raw[: length.value]
        room = length.value


def main(path):
    library = ctypes.CDLL(path)
    interface, request, response, fault = Handle(), Handle(), Handle(), Handle()
    at = ctypes.byref

    def need(status):
        if status == REFUSED:
            sys.exit(written(library.dceidl_fault_line, at(fault))[1].decode())
        if status != OK:
            sys.exit(f"status {status}")

    name = b"greeter.idl"
    file = File(name, len(name), IDL, len(IDL))
    need(library.dceidl_compile(at(file), ctypes.c_size_t(1), ctypes.c_size_t(0), at(interface), at(fault)))
    greet, taken = ctypes.c_uint32(), ctypes.c_size_t()
    need(library.dceidl_operation_number(at(interface), *octets(b"greet"), at(greet)))
    need(library.dceidl_decode(at(interface), greet, IN, LITTLE, *octets(REQUEST), at(request), at(taken), at(fault)))
    status, text = written(library.dceidl_text, at(request))
    need(status)
    print(text.decode(), end="")

    length = text.rindex(b'"') - text.index(b'"') - 1
    need(library.dceidl_read_response(at(request), *octets(b"values 2 op greet out return = %d" % length), at(response), at(fault)))

    def encode(out, room, length):
        return library.dceidl_encode(at(response), LITTLE, ctypes.c_uint32(1), out, room, length, at(fault))

    status, answer = written(encode)
    need(status)
    print(answer.hex())
    for handle, free in ((fault, "fault"), (response, "values"), (request, "values"), (interface, "interface")):
        getattr(library, f"dceidl_{free}_free")(at(handle))


if __name__ == "__main__":
    main(sys.argv[1])
