#!/usr/bin/env python3
"""What `derive browse` prints of a `.gdb_index`: `checks/listing_of_index.py INDEX`.

The index is read as the GDB manual, "Index Section Format", says: the CU list, the address area, and the taken slots of the symbol hash
table with their names and CU vectors.
"""

import os
import struct
import sys

sys.dont_write_bytecode = True
sys.path.insert(0, os.path.join(os.path.dirname(os.path.abspath(__file__)), "..", "bench"))

from probe_steps import parts


def main():
    with open(sys.argv[1], "rb") as file:
        index = file.read()
    units, types, addresses, table, end, pool = parts(index)
    lines = [f"units {(types - units) // 16}"]
    lines += [f"unit {k} {offset} {length}" for k, (offset, length) in enumerate(struct.iter_unpack("<QQ", index[units:types]))]
    lines += [f"addresses {(table - addresses) // 20}"]
    lines += [f"address {low} {high} {unit}" for low, high, unit in struct.iter_unpack("<QQI", index[addresses:table])]
    names = []
    for text, vector in struct.iter_unpack("<II", index[table:end]):
        if text == 0 and vector == 0:
            continue
        name = index[pool + text:index.index(b"\0", pool + text)]
        count, = struct.unpack_from("<I", index, pool + vector)
        names.append((name, struct.unpack_from(f"<{count}I", index, pool + vector + 4)))
    lines += [f"names {len(names)}"]
    lines += [" ".join(["name", name.hex() or "-", *(f"{element:08x}" for element in vector)]) for name, vector in sorted(names)]
    print("\n".join(lines))


if __name__ == "__main__":
    main()
