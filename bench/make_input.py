#!/usr/bin/env python3
"""Makes generated input for `derive` in a folder: its layout, its objects, and its SFrame bytes if it has any.

    bench/make_input.py FOLDER objects OBJECTS NAMES        NAMES names an object, half of them the same in all
    bench/make_input.py FOLDER units UNITS                  one object with so many units, and one name a unit
    bench/make_input.py FOLDER relocations UNITS RECORDS    one object, a placed section of code a unit, and RECORDS
                                                            relocations of `.debug_info` that assign them
    bench/make_input.py FOLDER sections SECTIONS            one object with so many placed sections of code
    bench/make_input.py FOLDER overlaps SECTIONS BYTES      one object with so many sections, whose names are ends of one
                                                            name of so many bytes
    bench/make_input.py FOLDER alike NAMES                  one object with so many names (a power of two), all of one hash
    bench/make_input.py FOLDER sframe FUNCTIONS RANGES      no object; so many functions, in random order, in so many
                                                            contributions

The same arguments make the same bytes. `bench/measure.py` runs the program on such a folder.
"""

import pathlib
import random
import struct
import sys

UNIT_SIZE = 64
CODE_SIZE = 16
CODE_ADDRESS = 0x400000

PROGBITS, SYMTAB, STRTAB, RELA = 1, 2, 3, 4
ALLOC_AND_EXECUTE = 6


class Section:
    """A section of an object (System V gABI, "Sections"). Its name is bytes, or the offset of an end of an earlier name."""

    def __init__(self, name, kind, data, flags=0, link=0, info=0, entry=0):
        self.name, self.kind, self.data, self.flags = name, kind, data, flags
        self.link, self.info, self.entry = link, info, entry


def object_of(sections):
    """The relocatable object for x86-64 with these sections after section 0, and their names last."""
    names = bytearray(b"\0")
    offsets = []
    for name in [section.name for section in sections] + [b".shstrtab"]:
        offsets.append(name if isinstance(name, int) else len(names))
        names += b"" if isinstance(name, int) else name + b"\0"
    body, headers = bytearray(), bytearray(64)
    for offset, section in zip(offsets, sections + [Section(b".shstrtab", STRTAB, names)]):
        headers += struct.pack(
            "<IIQQQQIIQQ", offset, section.kind, section.flags, 0, 64 + len(body), len(section.data),
            section.link, section.info, 1, section.entry)
        body += section.data
    header = b"\x7fELF\x02\x01\x01".ljust(16, b"\0") + struct.pack(
        "<HHIQQQIHHHHHH", 1, 62, 1, 0, 0, 64 + len(body), 0, 64, 0, 0, 64, len(sections) + 2, len(sections) + 1)
    return header + body + headers


def units_of(count, size=UNIT_SIZE):
    """So many units of so many bytes (DWARF 5, 7.5.1)."""
    return struct.pack("<I", size - 4).ljust(size, b"\0") * count


def set_of(unit, size, names):
    """The set of names of the unit at an offset (GDB manual, "Index Section Format", on `.debug_gnu_pubnames`)."""
    entries = b"".join(struct.pack("<IB", 16 + index, 0x30) + name + b"\0" for index, name in enumerate(names))
    body = struct.pack("<HII", 2, unit, size) + entries + bytes(4)
    return struct.pack("<I", len(body)) + body


def place(number, section, address):
    return f"place {number} {section} {address} {CODE_SIZE}\n"


def objects(count, names):
    """Objects of one unit, each with names of which the first half is the same in all, and a placed section."""
    shared = [b"shared::name_%06d" % number for number in range(names // 2)]
    files, layout = [], ""
    for number in range(count):
        own = [b"object_%04d::name_%06d" % (number, index) for index in range(names - len(shared))]
        files.append(object_of([
            Section(b".debug_info", PROGBITS, units_of(1)),
            Section(b".debug_gnu_pubnames", PROGBITS, set_of(0, UNIT_SIZE, shared + own)),
            Section(b".text", PROGBITS, bytes(CODE_SIZE), ALLOC_AND_EXECUTE),
        ]))
        layout += place(number, 3, CODE_ADDRESS + CODE_SIZE * number)
    return files, layout, b""


def units(count):
    """One object with so many units and a set of one name for each."""
    sets = b"".join(set_of(UNIT_SIZE * unit, UNIT_SIZE, [b"name_%06d" % unit]) for unit in range(count))
    file = object_of([
        Section(b".debug_info", PROGBITS, units_of(count)),
        Section(b".debug_gnu_pubnames", PROGBITS, sets),
    ])
    return [file], "", b""


def symbols_of(sections):
    """A symbol for each of these sections, after symbol 0 (System V gABI, "Symbol Table")."""
    return bytes(24) + b"".join(struct.pack("<IBBHQQ", 0, 3, 0, section, 0, 0) for section in sections)


def relocations(count, records):
    """One object whose relocations of `.debug_info` assign each of its placed sections of code to a unit."""
    each = records // count
    size = 16 + 8 * each
    told = b"".join(
        struct.pack("<QQq", size * unit + 16 + 8 * record, (unit + 1) << 32 | 1, 0)
        for unit in range(count) for record in range(each))
    first = 5
    code = [Section(b".text.f%d" % unit, PROGBITS, bytes(CODE_SIZE), ALLOC_AND_EXECUTE) for unit in range(count)]
    file = object_of([
        Section(b".debug_info", PROGBITS, units_of(count, size)),
        Section(b".rela.debug_info", RELA, told, link=3, info=1, entry=24),
        Section(b".symtab", SYMTAB, symbols_of(range(first, first + count)), link=4, info=count + 1, entry=24),
        Section(b".strtab", STRTAB, bytes(1)),
    ] + code)
    layout = "".join(place(0, first + unit, CODE_ADDRESS + CODE_SIZE * unit) for unit in range(count))
    return [file], layout, b""


def sections(count):
    """One object with one unit and so many placed sections of code."""
    code = [Section(b".text.f%d" % number, PROGBITS, bytes(CODE_SIZE), ALLOC_AND_EXECUTE) for number in range(count)]
    file = object_of([
        Section(b".debug_info", PROGBITS, units_of(1)),
        Section(b".debug_gnu_pubnames", PROGBITS, set_of(0, UNIT_SIZE, [b"main"])),
    ] + code)
    layout = "".join(place(0, 3 + number, CODE_ADDRESS + CODE_SIZE * number) for number in range(count))
    return [file], layout, b""


def overlaps(count, length):
    """One object whose sections' names are ends of one long name: each name is long, and the file is not."""
    ends = [Section(1 + length * number // count, PROGBITS, b"") for number in range(1, count)]
    return [object_of([Section(b"n" * length, PROGBITS, b"")] + ends)], "", b""


def alike(count):
    """One object whose names have one hash: 67 * first + second is the same for each pair of bytes."""
    bits = count.bit_length() - 1
    names = [b"".join((b"c!", b"bd")[number >> bit & 1] for bit in range(bits)) for number in range(1 << bits)]
    file = object_of([
        Section(b".debug_info", PROGBITS, units_of(1)),
        Section(b".debug_gnu_pubnames", PROGBITS, set_of(0, UNIT_SIZE, names)),
    ])
    return [file], "", b""


def contribution(starts):
    """Functions with two FREs of three bytes each, which start at these values (SFrame 2)."""
    fres = bytes([0, 3, 8, 1, 3, 16])
    header = struct.pack(
        "<HBBBbbBIIIII", 0xdee2, 2, 0, 3, 0, -8, 0, len(starts), 2 * len(starts), len(fres) * len(starts), 0,
        20 * len(starts))
    fdes = b"".join(
        struct.pack("<iIIIBBH", start, CODE_SIZE, len(fres) * index, 2, 0, 0, 0) for index, start in enumerate(starts))
    return header + fdes + fres * len(starts)


def sframe(functions, ranges):
    """Contributions with functions whose addresses are a random order of the whole."""
    starts = [CODE_SIZE * number for number in range(functions)]
    random.Random(1).shuffle(starts)
    each = functions // ranges
    data, layout = bytearray(), f"base {CODE_ADDRESS}\n"
    for number in range(ranges):
        part = contribution(starts[each * number:each * (number + 1)])
        layout += f"range {len(data)} {len(data) + len(part)}\n"
        data += part
    return [], layout, bytes(data)


KINDS = {
    "objects": (objects, 2), "units": (units, 1), "relocations": (relocations, 2), "sections": (sections, 1),
    "overlaps": (overlaps, 2), "alike": (alike, 1), "sframe": (sframe, 2),
}


def main(arguments):
    if len(arguments) < 2 or arguments[1] not in KINDS or len(arguments) != 2 + KINDS[arguments[1]][1]:
        sys.exit(__doc__)
    folder = pathlib.Path(arguments[0])
    folder.mkdir(parents=True, exist_ok=True)
    files, layout, frames = KINDS[arguments[1]][0](*map(int, arguments[2:]))
    for number, file in enumerate(files):
        (folder / f"{number:05}.o").write_bytes(file)
    if frames:
        (folder / "sframe").write_bytes(frames)
    (folder / "layout").write_text(layout)


main(sys.argv[1:])
