#!/usr/bin/env python3
"""Whether a program's `.gdb_index` fits the program and its objects: `checks/index_of_program.py VERSION PROGRAM OBJECT..`.

The index is read as the GDB manual, "Index Section Format", says. Its CUs are compared with those that readelf finds in the program,
its names and their CU vectors with what stands in the objects' pubnames sections, and its address area with the functions that
readelf finds in each CU. Each object has one CU at most, so that its sets need no relocation.
"""

import os
import re
import struct
import subprocess
import sys

sys.dont_write_bytecode = True
sys.path.insert(0, os.path.join(os.path.dirname(os.path.abspath(__file__)), "..", "bench"))
sys.path.insert(0, os.path.join(os.path.dirname(os.path.abspath(__file__)), "..", "examples"))

from probe_steps import find, parts, read_report
from program_layout import Elf, unit_lengths


def readelf_units(path):
    """(offset, length, low addresses of its functions) of each CU, as readelf says."""
    said = subprocess.run(["readelf", "-W", "--debug-dump=info", path], check=True, capture_output=True, text=True).stdout
    units, in_function = [], False
    for line in said.split("\n"):
        if match := re.match(r"\s*Compilation Unit @ offset (?:0x)?([0-9a-f]+):", line):
            units.append([int(match.group(1), 16), 0, []])
        elif match := re.match(r"\s*Length:\s+(?:0x)?([0-9a-f]+) \(32-bit\)", line):
            units[-1][1] = 4 + int(match.group(1), 16)
        elif match := re.match(r"\s*<[0-9a-f]+><[0-9a-f]+>: Abbrev Number: \d+(?: \((\w+)\))?", line):
            in_function = match.group(1) == "DW_TAG_subprogram"
        elif in_function and (match := re.match(r"\s*<[0-9a-f]+>\s+DW_AT_low_pc\s*:\s*(?:\([^)]*\):?\s*)?(?:0x)?([0-9a-f]+)", line)):
            units[-1][2].append(int(match.group(1), 16))
    return units


def published(objects):
    """The names of the objects, each with its ascending CU vector (DWARF 4, 7.19, with a byte of flags in each entry)."""
    names, unit = {}, 0
    for elf in objects:
        units = len(unit_lengths(elf.section(b".debug_info")))
        if units > 1:
            sys.exit(f"{elf.path} has {units} units")
        for index, name in enumerate(elf.names):
            if units and name in (b".debug_gnu_pubnames", b".debug_gnu_pubtypes"):
                data, at = elf.bytes(index), 0
                while at < len(data):
                    length, = struct.unpack_from("<I", data, at)
                    end, at = at + 4 + length, at + 14
                    while at + 4 <= end and data[at:at + 4] != bytes(4):
                        stop = data.index(b"\0", at + 5)
                        flags = data[at + 4]
                        names.setdefault(data[at + 5:stop], []).append(unit | (flags >> 4 & 7) << 28 | (flags >> 7) << 31)
                        at = stop + 1
                    at = end
        unit += units
    return {name: tuple(sorted(elements)) for name, elements in names.items()}


def main(expected, path, *paths):
    program, objects = Elf(path), [Elf(it) for it in paths]
    index = program.section(b".gdb_index")
    version, = struct.unpack_from("<I", index)
    if version != int(expected):
        sys.exit(f"the index has version {version}")
    units, types, addresses, table, _, _ = parts(index)
    listed = [struct.unpack_from("<QQ", index, at) for at in range(units, types, 16)]
    found = readelf_units(path)
    if listed != [(offset, length) for offset, length, _ in found]:
        sys.exit(f"the index lists the CUs {listed}, and readelf {found}")
    names = published(objects)
    for name, elements in names.items():
        if find(index, name)[0] != elements:
            sys.exit(f"{name!r}: {find(index, name)[0]} in the index, {elements} in the objects")
    for name in (b"", b"no such name", b"main\0"):
        if name not in names and find(index, name)[0] is not None:
            sys.exit(f"{name!r} is in the index, and no object publishes it")
    entries = [struct.unpack_from("<QQI", index, at) for at in range(addresses, table, 20)]
    code = [(start, start + len(data)) for start, data in program.segments()]
    functions = 0
    for number, (_, _, lows) in enumerate(found):
        for low in lows:
            holds = [unit for start, stop, unit in entries if start <= low < stop]
            if any(start <= low < stop for start, stop in code):
                functions += 1
                # of a function in several COMDAT groups one copy is kept, and ld has the others' CUs refer to it
                if len(holds) != 1 or low not in found[holds[0]][2]:
                    sys.exit(f"the function at {low:#x} of CU {number} is in the address entries of {holds}")
    if not functions:
        sys.exit("readelf finds no function in the program's CUs")
    print(f"right: in version {version} {len(listed)} CUs, {len(names)} names and the CUs of {functions} functions are those of the program and its objects")


if __name__ == "__main__":
    main(*sys.argv[1:])
