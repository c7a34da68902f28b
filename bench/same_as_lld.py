#!/usr/bin/env python3
"""Whether a report has the names and the CU vectors that lld's index has: `bench/same_as_lld.py LINKED <REPORT`.

LINKED is what `ld.lld --gdb-index` made of the same objects in the same order, and REPORT what `derive tables` writes.
"""

import os
import struct
import sys

sys.dont_write_bytecode = True
sys.path.insert(0, os.path.join(os.path.dirname(os.path.abspath(__file__)), "..", "examples"))

from probe_steps import read_report
from program_layout import Elf


def names_of(index):
    """The names of an index of version 7 or 8, each with its CU vector (GDB manual, "Index Section Format")."""
    table, pool = struct.unpack_from("<II", index, 16)
    names = {}
    for slot in range(table, pool, 8):
        text, vector = struct.unpack_from("<II", index, slot)
        if text != 0 or vector != 0:
            name = index[pool + text:index.index(b"\0", pool + text)]
            count, = struct.unpack_from("<I", index, pool + vector)
            names[name] = struct.unpack_from(f"<{count}I", index, pool + vector + 4)
    return names


def main():
    if len(sys.argv) != 2:
        sys.exit(__doc__)
    expected = names_of(Elf(sys.argv[1]).section(b".gdb_index"))
    names = dict(read_report(sys.stdin)[0])
    if names != expected:
        sys.exit(f"{len(names)} names, and {len(expected)} in lld's index, or other CU vectors")
    print(f"{len(names)} names, each with the CU vector that it has in lld's index")


main()
