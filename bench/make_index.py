#!/usr/bin/env python3
"""Makes an index of version 8 (GDB manual, "Index Section Format"): `bench/make_index.py PATH FIRST COUNT`.

It has COUNT names, numbered from FIRST on, each with a CU vector of one element, a unit for each thousand names, and no
address entries. Indexes of overlapping numbers share names.
"""

import struct
import sys

sys.dont_write_bytecode = True

from probe_steps import hash_of

def main(path, first, count):
    units = count // 1000 + 1
    slots = 1
    while slots < 4 * count // 3 + 1:
        slots *= 2
    vectors, texts, table = bytearray(), bytearray(), [0] * (2 * slots)
    for number in range(count):
        vectors += struct.pack("<II", 1, 0x30000000 + number // 1000)
    for number in range(count):
        name = b"%d_name_of_a_function_%d" % ((first + number) % 10, first + number)
        hashed = hash_of(name)
        slot, step = hashed % slots, (hashed * 17 & 0xffffffff) % slots | 1
        while table[2 * slot]:
            slot = (slot + step) % slots
        table[2 * slot] = len(vectors) + len(texts)
        table[2 * slot + 1] = 8 * number
        texts += name + b"\0"
    listed = 24 + 16 * units
    symbols = listed + 8 * slots
    with open(path, "wb") as file:
        file.write(struct.pack("<6I", 8, 24, listed, listed, listed, symbols))
        for unit in range(units):
            file.write(struct.pack("<QQ", 12 * unit, 12))
        file.write(struct.pack(f"<{2 * slots}I", *table))
        file.write(vectors)
        file.write(texts)


main(sys.argv[1], int(sys.argv[2]), int(sys.argv[3]))
