#!/usr/bin/env python3
"""How many probe steps a look-up of a name takes, over all names of an index: `bench/probe_steps.py <REPORT`.

REPORT is what `derive tables` writes. The index in it is read as the GDB manual, "Index Section Format", says, and not with
the program's code; each name of the report is looked up, and the CU vector found is compared with the report's.
"""

import struct
import sys


def hash_of(name):
    value = 0
    for byte in name.lower():
        value = (value * 67 + byte - 113) & 0xffffffff
    return value


def parts(index):
    """The offsets in the header of an index: CU list, types CU list, address area, symbol hash table, its end, constant pool.
    Version 8 has no shortcut table, so its constant pool begins where the symbol hash table ends."""
    version, *offsets = struct.unpack_from("<6I", index)
    return (*offsets, offsets[-1] if version == 8 else struct.unpack_from("<I", index, 24)[0])


def find(index, name):
    """The CU vector of a name, none where it is absent, and how many probe steps were made."""
    _, _, _, table, end, pool = parts(index)
    slots = (end - table) // 8
    hashed = hash_of(name)
    slot, step = hashed % slots, (hashed * 17 & 0xffffffff) % slots | 1
    for steps in range(1, slots + 1):
        text, vector = struct.unpack_from("<II", index, table + 8 * slot)
        if text == 0 and vector == 0:
            return None, steps
        start = pool + text
        if index[start:start + len(name) + 1] == name + b"\0":
            count, = struct.unpack_from("<I", index, pool + vector)
            return struct.unpack_from(f"<{count}I", index, pool + vector + 4), steps
        slot = (slot + step) % slots
    return None, slots


def read_report(lines):
    """The names of a report, each with its CU vector, and its index."""
    names, digits, in_index = [], [], False
    for line in lines:
        word, _, rest = line.rstrip("\n").partition(" ")
        if word == "name":
            name, *vector = rest.split(" ")
            names.append((b"" if name == "-" else bytes.fromhex(name), tuple(int(element, 16) for element in vector)))
        elif word == "index":
            in_index = True
        elif word == "sframe":
            in_index = False
        elif in_index:
            digits.append(word)
    return names, bytes.fromhex("".join(digits))


def main():
    names, index = read_report(sys.stdin)
    if not names:
        sys.exit("the report has no names")
    counts = []
    for name, vector in names:
        found, steps = find(index, name)
        if found != vector:
            sys.exit(f"{name!r} has another CU vector in the index than in the report")
        counts.append(steps)
    _, _, _, table, end, _ = parts(index)
    print(f"{len(names)} names in {(end - table) // 8} slots: a look-up takes {sum(counts) / len(counts):.3f} steps "
          f"in the mean, {max(counts)} at most")


if __name__ == "__main__":
    main()
