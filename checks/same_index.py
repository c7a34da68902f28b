#!/usr/bin/env python3
"""Whether two indexes list the same units and hold the same names with the same CU vectors: `checks/same_index.py ONE OTHER`.

With `--end INDEX` it prints where the last unit ends. The indexes are read as the GDB manual, "Index Section Format", says.
"""

import os
import struct
import sys

sys.dont_write_bytecode = True
sys.path.insert(0, os.path.join(os.path.dirname(os.path.abspath(__file__)), "..", "bench"))

from probe_steps import find, parts


def read(path):
    """(units, names with their CU vectors) of an index."""
    with open(path, "rb") as file:
        index = file.read()
    units, types, _, table, end, pool = parts(index)
    listed = [struct.unpack_from("<QQ", index, at) for at in range(units, types, 16)]
    names = {}
    for slot in range(table, end, 8):
        text, vector = struct.unpack_from("<II", index, slot)
        if text or vector:
            name = index[pool + text:index.index(b"\0", pool + text)]
            names[name] = find(index, name)[0]
    return listed, names


def main(arguments):
    if arguments[0] == "--end":
        offset, length = read(arguments[1])[0][-1]
        print(offset + length)
        return
    (units, names), (other_units, other_names) = read(arguments[0]), read(arguments[1])
    if units != other_units:
        sys.exit(f"the units {units}, and {other_units}")
    if names != other_names:
        wrong = [name for name in sorted(names.keys() | other_names.keys()) if names.get(name) != other_names.get(name)]
        sys.exit(f"other CU vectors of {wrong[:5]}")
    print(f"right: {len(units)} units and {len(names)} names, each with the same CU vector")


main(sys.argv[1:])
