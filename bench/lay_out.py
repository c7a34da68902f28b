#!/usr/bin/env python3
"""Prints a layout of objects: `bench/lay_out.py OBJECT.. >LAYOUT`.

Sections that take memory and hold instructions follow one another from 0x400000 on, at steps of 16 bytes, object by
object, in the order of their headers (System V gABI, "Sections"). The objects are little endian, of either class.
"""

import os
import sys

sys.dont_write_bytecode = True
sys.path.insert(0, os.path.join(os.path.dirname(os.path.abspath(__file__)), "..", "examples"))

from program_layout import ALLOC_AND_EXECUTE, Elf


def main(paths):
    address = 0x400000
    for number, path in enumerate(paths):
        for section, (_, _, flags, _, _, size, _, _) in enumerate(Elf(path).headers):
            if flags & ALLOC_AND_EXECUTE == ALLOC_AND_EXECUTE and size > 0:
                print("place", number, section, address, size)
                address += (size + 15) & ~15


main(sys.argv[1:])
