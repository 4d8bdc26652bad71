#!/usr/bin/env python3
"""Writes numbers as H, the 16 hexadecimal digits that a mesh text has for a binary64, and reads them back.

    tools/h.py 1 0.25 -2.5e-3        3ff0000000000000 3fd0000000000000 bf647ae147ae147b
    tools/h.py --back 3fd0000000000000    0.25
"""
import struct
import sys


def digits(number):
    """A number as H."""
    return struct.pack(">d", number).hex()


def number(h):
    """The number that H stands for."""
    return struct.unpack(">d", bytes.fromhex(h))[0]


def main(words):
    if words[:1] == ["--back"]:
        print(" ".join(repr(number(h)) for h in words[1:]))
    else:
        print(" ".join(digits(float(word)) for word in words))


if __name__ == "__main__":
    main(sys.argv[1:])
