#!/usr/bin/env python3
"""Prints the canonical encoding of each message in a file, or its JSON, or why there is none.

usage: recode.py LIBRARY FILE [json]

The lines of the file and the replies are those of check.c. The library is a shared object, made of libper_c.a from `rt
lib` in crates/per_c, KIT being the folder of the toolchain:
    cc -shared -o libper.so -Wl,--whole-archive crates/per_c/out/libper_c.a -Wl,--no-whole-archive KIT/c/liblibc_c.a
"""
import ctypes
import os
import sys

OPTIONS = ("uper", "aper", "uper_zero", "aper_zero")
OK, NO_ROOM = 0, 4
u32, size = ctypes.c_uint32, ctypes.c_size_t


class Name(ctypes.Structure):
    """struct per_name"""
    _fields_ = [("text", ctypes.c_char * 32)]


class Codec:
    """The calls of per.h."""

    def __init__(self, file):
        self.calls = ctypes.CDLL(os.path.abspath(file))
        for call in (self.calls.per_recode, self.calls.per_json):
            call.argtypes = u32, u32, ctypes.c_char_p, size, ctypes.c_char_p, size, ctypes.POINTER(size)
            call.restype = u32
        for call in (self.calls.per_type_name, self.calls.per_refusal_name):
            call.argtypes, call.restype = [u32], Name
        self.types = {}
        while name := self.calls.per_type_name(len(self.types)).text:
            self.types[name.decode()] = len(self.types)

    def recode(self, options, type_name, octets):
        """Returns the canonical encoding of the value that octets spell, or the refusal's name."""
        return self.answer(self.calls.per_recode, options, type_name, octets)

    def json(self, options, type_name, octets):
        """Returns the JSON text, in UTF-8, of the value that octets spell, or the refusal's name."""
        return self.answer(self.calls.per_json, options, type_name, octets)

    def answer(self, call, options, type_name, octets, capacity=256):
        """Returns the octets that a call answers, or the refusal's name."""
        asked = OPTIONS.index(options), self.types[type_name], octets, len(octets)
        out, written = ctypes.create_string_buffer(capacity), size()
        refusal = call(*asked, out, capacity, written)
        if refusal == NO_ROOM:
            return self.answer(call, options, type_name, octets, written.value)
        return out.raw[:written.value] if refusal == OK else self.calls.per_refusal_name(refusal).text.decode()


def reply(codec, ask, line):
    """Returns the octets that are replied to a line."""
    options, type_name, digits = line.rstrip("\n").split(" ")
    found = ask(options, type_name, bytes.fromhex(digits))
    if not isinstance(found, bytes):
        return f"! {found}".encode()
    return found if ask == codec.json else found.hex().encode()


def main():
    if sys.argv[3:] not in ([], ["json"]) or len(sys.argv) < 3:
        sys.exit("usage: recode.py LIBRARY FILE [json]")
    codec = Codec(sys.argv[1])
    ask = codec.json if sys.argv[3:] else codec.recode
    with open(sys.argv[2], encoding="ascii") as it:
        for line in it:
            sys.stdout.buffer.write(reply(codec, ask, line) + b"\n")


if __name__ == "__main__":
    main()
