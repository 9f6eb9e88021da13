#!/usr/bin/env python3
"""The mark of a file that gdrv-write-specs wrote: tools/marks.py FILE.. puts it at the end of each file."""

import sys


def checksum(text):
    """FNV-1a of 64 bits (G. Fowler, L. C. Noll, K.-P. Vo, "The FNV Non-Cryptographic Hash Algorithm")."""
    total = 0xCBF29CE484222325
    for byte in text:
        total = (total ^ byte) * 0x100000001B3 % 2**64
    return total


def mark_of(text):
    """The line that says how many bytes precede it, and their sum."""
    return b"# whole %d %d\n" % (len(text), checksum(text))


def main():
    if sys.argv[1:] in ([], ["--help"]):
        print(__doc__)
        return
    for path in sys.argv[1:]:
        with open(path, "r+b") as file:
            file.write(mark_of(file.read()))


if __name__ == "__main__":
    main()
