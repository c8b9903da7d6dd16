#!/usr/bin/env python3
"""What example.c does, by the shared library: example.py LIBRARY CATALOGUE.

Classifies a catalogue file, looks up the pair (0, 3), withdraws the axiom (1, 5) and looks the
pair up again. Ends with 2 if a call is refused, 3 by wrong usage, 4 if a file can't be read."""

import ctypes
import struct
import sys

ENTRIES = 4
SLICE = [ctypes.c_char_p, ctypes.c_size_t]
NUMBER = [ctypes.c_size_t]
# The parameters of each call but its answer, as the header has them: a slice is a buffer.
CALLS = {
    "check": SLICE,
    "classify": 3 * SLICE,
    "change": 6 * SLICE,
    "lookup": SLICE + 2 * NUMBER + SLICE,
}


class Refused(Exception):
    """A call was refused: docs/REFUSALS.md has the number's meaning."""


class Library:
    """The calls: bytes and buffers pass with their lengths, and the answer is returned."""

    def __init__(self, path):
        self.library = ctypes.CDLL(path)
        for call, parameters in CALLS.items():
            function = self.library["girvotal_" + call]
            function.argtypes = parameters + [ctypes.POINTER(ctypes.c_uint64), ctypes.c_size_t]
            function.restype = ctypes.c_size_t

    def call(self, call, *given):
        """The answer's entries. What a call writes is lent as ctypes.create_string_buffer."""
        lent = []
        for each in given:
            lent += [each] if isinstance(each, int) else [each, len(each)]
        answer = (ctypes.c_uint64 * ENTRIES)()
        result = self.library["girvotal_" + call](*lent, answer, ENTRIES)
        if result != 0:
            number, record = result % 65536, result // 65536
            raise Refused(f"{call}: refused ({number}), record {record}")
        return list(answer)


def run(library, catalogue):
    """The example's calls, on buffers as long as the catalogue asks."""
    sizes = library.call("check", catalogue)[:3]
    store, work, touched = map(ctypes.create_string_buffer, sizes)
    pairs, links, _, _ = library.call("classify", catalogue, store, work)
    print(f"pairs {pairs}, links {links}")

    def look_up(first, second):
        yes = library.call("lookup", catalogue, first, second, store)[0]
        print(f"{first} under {second}: {'yes' if yes else 'no'}")

    look_up(0, 3)
    axiom = struct.pack("<2H", 1, 5)
    change = library.call("change", catalogue, axiom, b"", store, work, touched)
    removed, returned, gained, count = change
    concepts = struct.unpack_from(f"<{count}H", touched)
    listed = " ".join(map(str, concepts))
    print(f"removed {removed}, returned {returned}, gained {gained}, touched {listed}")
    look_up(0, 3)


def main(arguments):
    if len(arguments) != 3:
        print("usage: example.py LIBRARY CATALOGUE", file=sys.stderr)
        return 3
    try:
        with open(arguments[2], "rb") as file:
            run(Library(arguments[1]), file.read())
    except OSError as error:
        print(error, file=sys.stderr)
        return 4
    except Refused as refused:
        print(refused, file=sys.stderr)
        return 2
    return 0


if __name__ == "__main__":
    sys.exit(main(sys.argv))
