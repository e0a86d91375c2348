#!/usr/bin/env python3
"""Checks files, and prints of each that it is accepted, or the place at which it is refused, and what is there.

    lib/python/example.py FILE ..."""

import pathlib
import sys

import rcap

LIBRARY = pathlib.Path(__file__).resolve().parents[2] / "out" / "lib" / "librcap.so"


def main():
    library = rcap.Library(LIBRARY)
    for name in sys.argv[1:]:
        source = pathlib.Path(name).read_bytes()
        answer = library.check(source)
        if answer.status == rcap.DONE:
            print(f"{name}: accepted, with a derivation of {len(answer.out)} bytes")
        elif answer.place is not None:
            place = answer.place
            where = f"line {place.line}, column {place.column}, bytes {place.offset} to {place.end_offset}"
            print(f"{name}: status {answer.status}, {where}: {answer.err.decode()}", end="")
            print("  " + source[place.offset : place.end_offset].decode(errors="replace"))
        else:
            print(f"{name}: status {answer.status}: {answer.err.decode()}", end="")


main()
