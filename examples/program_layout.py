#!/usr/bin/env python3
"""Prints the layout of a linked program for `derive tables`: `examples/program_layout.py PROGRAM OBJECT.. >LAYOUT`.

PROGRAM is what the linker made of the objects, with its debugging information: little endian, of either class, `.debug_info` not
compressed. The objects stand in the order in which they were linked.

First the units are compared: an index counts unit offsets over the objects' `.debug_info` sections, so these have to be the
program's `.debug_info`, one after the other, and nothing else. If they are not, the script says so and ends with status 1.

An object's section with the flags ALLOC and EXECINSTR is then looked for in three ways:

1. Relocations of `.debug_info` and `.debug_addr`. Where the object says "the address of this section plus a number", the
   program has the address.
2. Symbols. A symbol of the section has an address in the program's symbol table.
3. Bytes. The section's bytes, those that relocations change left out, stand once in the program's code.

A section that the linker left out, or that none of these finds, is not placed; the script names it on standard error. The
layout's first line is a comment that names the machine, as `derive tables` takes it.
"""

import re
import struct
import sys

RELA, NOBITS = 4, 8
ALLOC_AND_EXECUTE = 6
SECTION_OR_FILE = (3, 4)
DEBUG_SECTIONS = (b".debug_info", b".debug_addr")
# of EI_CLASS and e_machine: the word of `derive tables`, and the r_type of an absolute address of the class
ABSOLUTE = {(2, 62): ("x86_64", 1), (1, 62): ("x86_64", 10), (2, 183): ("aarch64", 257), (1, 183): ("aarch64", 1), (2, 21): ("ppc64", 38)}


class Elf:
    """Sections, symbols and segments of a file (System V gABI)."""

    def __init__(self, path):
        self.path = path
        try:
            with open(path, "rb") as file:
                self.data = file.read()
        except OSError as error:
            sys.exit(f"{path}: {error.strerror}")
        if self.data[:4] != b"\x7fELF" or self.data[4:6] not in (b"\x01\x01", b"\x02\x01"):
            sys.exit(f"{path} is no little endian ELF file")
        self.wide = self.data[4] == 2
        self.machine, = struct.unpack_from("<H", self.data, 18)
        table, = struct.unpack_from("<Q", self.data, 40) if self.wide else struct.unpack_from("<I", self.data, 32)
        count, names = struct.unpack_from("<HH", self.data, 60 if self.wide else 48)
        # sh_name, sh_type, sh_flags, sh_addr, sh_offset, sh_size, sh_link, sh_info
        layout, size = ("<IIQQQQII", 64) if self.wide else ("<8I", 40)
        first = struct.unpack_from(layout, self.data, table) if table else None
        if first and count == 0:
            count = first[5]
        if names == 0xffff:
            names = first[6]
        self.headers = [struct.unpack_from(layout, self.data, table + size * i) for i in range(count)]
        self.names = [self.string(names, header[0]) for header in self.headers]

    def form(self):
        """EI_CLASS and e_machine."""
        return self.data[4], self.machine

    def bytes(self, index):
        _, kind, _, _, offset, size, _, _ = self.headers[index]
        return b"" if kind == NOBITS else self.data[offset:offset + size]

    def string(self, table, offset):
        start = self.headers[table][4] + offset
        return self.data[start:self.data.index(b"\0", start)]

    def section(self, name):
        """The bytes of the first section of a name, none where there is none."""
        return self.bytes(self.names.index(name)) if name in self.names else b""

    def symbols(self):
        """(name, st_info, section or None, value) of each symbol; a local one carries the name of its file."""
        tables = [i for i, header in enumerate(self.headers) if header[1] == 2]
        if not tables:
            return
        table = tables[-1]
        wide = [self.bytes(i) for i, header in enumerate(self.headers) if header[1] == 18 and header[6] == table]
        strings, file = self.headers[table][6], b""
        data, size = self.bytes(table), 24 if self.wide else 16
        for i in range(len(data) // size):
            if self.wide:
                name, info, _, shndx, value, _ = struct.unpack_from("<IBBHQQ", data, size * i)
            else:
                name, value, _, info, _, shndx = struct.unpack_from("<IIIBBH", data, size * i)
            text = self.string(strings, name)
            if info & 15 == 4:
                file = text
            if shndx == 0xffff and wide:
                shndx, = struct.unpack_from("<I", wide[-1], 4 * i)
            elif shndx >= 0xff00:
                shndx = 0
            yield (file if info >> 4 == 0 else None, text), info, shndx or None, value

    def relocations(self, index):
        """(offset, symbol, type, addend) of the RELA records of a section."""
        for i, header in enumerate(self.headers):
            if header[1] == RELA and header[7] == index:
                data = self.bytes(i)
                layout, size, bits = ("<QQq", 24, 32) if self.wide else ("<IIi", 12, 8)
                for at in range(0, len(data) - size + 1, size):
                    offset, info, addend = struct.unpack_from(layout, data, at)
                    yield offset, info >> bits, info & (1 << bits) - 1, addend

    def code(self):
        """The indexes of the sections that take memory, hold instructions and are not empty."""
        return [i for i, header in enumerate(self.headers) if header[2] & ALLOC_AND_EXECUTE == ALLOC_AND_EXECUTE and header[5]]

    def segments(self):
        """(address, bytes) of each executable segment."""
        start, = struct.unpack_from("<Q", self.data, 32) if self.wide else struct.unpack_from("<I", self.data, 28)
        count, = struct.unpack_from("<H", self.data, 56 if self.wide else 44)
        for i in range(count):
            if self.wide:
                kind, flags, offset, address, _, size, _, _ = struct.unpack_from("<IIQQQQQQ", self.data, start + 56 * i)
            else:
                kind, offset, address, _, size, _, flags, _ = struct.unpack_from("<8I", self.data, start + 32 * i)
            if kind == 1 and flags & 1:
                yield address, self.data[offset:offset + size]


def unit_lengths(info):
    """The length of each unit in bytes, its initial length included (DWARF 5, 7.4)."""
    at, lengths = 0, []
    while at + 4 <= len(info):
        length, = struct.unpack_from("<I", info, at)
        length += 4
        if length == 0x100000003:
            length = 12 + struct.unpack_from("<Q", info, at + 4)[0]
        lengths.append(length)
        at += length
    return lengths


def compare_units(program, objects):
    """Ends with a message where the program's units are not those of the objects, in this order."""
    for elf in [program, *objects]:
        if ".debug_info" in map(bytes.decode, elf.names) and elf.headers[elf.names.index(b".debug_info")][2] & 0x800:
            sys.exit(f"{elf.path}: .debug_info is compressed; compile with -gz=none, or use objcopy --decompress-debug-sections")
        if elf.names.count(b".debug_info") > 1:
            sys.exit(f"{elf.path} has several .debug_info sections (type units?); compile without -fdebug-types-section")
    have = unit_lengths(program.section(b".debug_info"))
    given = [(elf.path, length) for elf in objects for length in unit_lengths(elf.section(b".debug_info"))]
    for number, length in enumerate(have):
        if number >= len(given):
            sys.exit(f"{program.path} has {len(have)} units, and the objects only {len(given)}: an object with debugging information is missing")
        if given[number][1] != length:
            sys.exit(f"unit {number} of {program.path} has {length} bytes, and {given[number][1]} in {given[number][0]}: "
                     "give the objects in the order in which they were linked, and all that have debugging information")
    if len(given) > len(have):
        sys.exit(f"{given[len(have)][0]}: its units are not in {program.path}")


def by_relocations(program, objects):
    """(object, section, address) as the relocated words of the program's debugging sections say."""
    absolute, (word, size) = ABSOLUTE[program.form()][1], ("<Q", 8) if program.wide else ("<I", 4)
    for name in DEBUG_SECTIONS:
        linked, base = program.section(name), 0
        if len(linked) != sum(len(elf.section(name)) for elf in objects):
            continue
        for number, elf in enumerate(objects):
            symbols = list(elf.symbols())
            for offset, symbol, kind, addend in elf.relocations(elf.names.index(name)) if name in elf.names else ():
                if kind == absolute and symbol < len(symbols) and base + offset + size <= len(linked):
                    _, _, section, value = symbols[symbol]
                    address, = struct.unpack_from(word, linked, base + offset)
                    yield number, section, address - value - addend
            base += len(elf.section(name))


def by_symbols(program, objects):
    """(object, section, address) as the program's symbols say; a name with two addresses says nothing."""
    addresses = {}
    for name, info, section, value in program.symbols():
        if section is not None and info & 15 not in SECTION_OR_FILE:
            addresses.setdefault(name, set()).add(value)
    for number, elf in enumerate(objects):
        for name, info, section, value in elf.symbols():
            known = addresses.get(name, ())
            if info & 15 not in SECTION_OR_FILE and name[1] != b"" and len(known) == 1:
                yield number, section, next(iter(known)) - value


def by_bytes(program, objects):
    """(object, section, address) of the sections whose bytes stand in the program's code, relocated ones left out."""
    for number, elf in enumerate(objects):
        for index in elf.code():
            pattern = [re.escape(bytes([byte])) for byte in elf.bytes(index)]
            for offset, _, _, _ in elf.relocations(index):
                # a linker also rewrites the instruction before some relocated words
                for at in range(max(offset - 4, 0), min(offset + 8, len(pattern))):
                    pattern[at] = b"."
            if len(pattern) - pattern.count(b".") >= 8:
                pattern = re.compile(b"(?=" + b"".join(pattern) + b")", re.S)
                for start, code in program.segments():
                    for match in pattern.finditer(code):
                        yield number, index, start + match.start()


def place(program, objects):
    """The address of each (object, section) that is found, and of no other."""
    segments = [(start, start + len(code)) for start, code in program.segments()]
    sizes = {(number, index): elf.headers[index][5] for number, elf in enumerate(objects) for index in elf.code()}
    addresses, ranges = {}, []
    for search in (by_relocations, by_symbols, by_bytes):
        said = {}
        for number, index, address in search(program, objects):
            if (number, index) in sizes and (number, index) not in addresses:
                said.setdefault((number, index), set()).add(address)
        for key in sorted(said):
            low = next(iter(said[key]))
            high = low + sizes[key]
            # a section that was left out has an address outside the code, or that of the section which stands for it
            if (len(said[key]) == 1 and any(start <= low and high <= stop for start, stop in segments)
                    and not any(low < stop and start < high for start, stop in ranges)):
                addresses[key] = low
                ranges.append((low, high))
    return addresses, sizes


def main(paths):
    if len(paths) < 2:
        sys.exit(__doc__)
    program, *objects = map(Elf, paths)
    if program.form() not in ABSOLUTE:
        sys.exit(f"{program.path}: machine {program.machine} of this class is not supported; linker relaxation may change the sizes of sections there")
    compare_units(program, objects)
    addresses, sizes = place(program, objects)
    print("# machine", ABSOLUTE[program.form()][0])
    for key in sorted(sizes):
        if key in addresses:
            print("place", *key, addresses[key], sizes[key])
        else:
            elf = objects[key[0]]
            print(f"not placed: section {key[1]} ({elf.names[key[1]].decode(errors='replace')}) of {elf.path}", file=sys.stderr)


if __name__ == "__main__":
    main(sys.argv[1:])
