#!/usr/bin/env python3
"""Whether a report has the units and the names of objects, of either class: `checks/names_of_objects.py OBJECT.. <REPORT`.

REPORT is what `derive tables` writes for the same objects in the same order. The objects are read as `checks/index_of_program.py` reads
them: the units of `.debug_info` by their lengths, and the names with their CU vectors by the pubnames sections.
"""

import os
import sys

sys.dont_write_bytecode = True
sys.path.insert(0, os.path.dirname(os.path.abspath(__file__)))

from index_of_program import Elf, find, published, read_report, unit_lengths


def main(*paths):
    objects = [Elf(path) for path in paths]
    lines = sys.stdin.read().splitlines(keepends=True)
    units, offset = [], 0
    for elf in objects:
        for length in unit_lengths(elf.section(b".debug_info")):
            units.append(f"unit {len(units)} {offset} {length}\n")
            offset += length
    if [line for line in lines if line.startswith("unit ")] != units:
        sys.exit("the report's units are not those of the objects")
    names, index = read_report(lines)
    if dict(names) != published(objects):
        sys.exit("the report's names are not those of the objects")
    for name, vector in names:
        if find(index, name)[0] != vector:
            sys.exit(f"{name!r} has another CU vector in the index than in the report")
    classes = sorted({32 * elf.data[4] for elf in objects})
    print(f"right: {len(units)} units and {len(names)} names are those of objects of {' and '.join(f'ELFCLASS{it}' for it in classes)}")


if __name__ == "__main__":
    main(*sys.argv[1:])
