"""Compares the lines of `list_object symbols FILE`, read from standard input, with what readelf prints of FILE: symbols with
their versions, section groups, version records and dynamic entries."""

import re
import subprocess
import sys

TYPES = {"NOTYPE": 0, "OBJECT": 1, "FUNC": 2, "SECTION": 3, "FILE": 4, "COMMON": 5, "TLS": 6, "IFUNC": 10}
BINDINGS = {"LOCAL": 0, "GLOBAL": 1, "WEAK": 2, "UNIQUE": 10}
VISIBILITIES = {"DEFAULT": 0, "INTERNAL": 1, "HIDDEN": 2, "PROTECTED": 3}
FLAGS = {"none": 0, "BASE": 1, "WEAK": 2}


def readelf(option, path):
    """Returns the lines that readelf prints."""
    done = subprocess.run(["readelf", option, path], capture_output=True, text=True, check=True)
    return done.stdout.splitlines()


def symbol_lines(path, is_dynamic):
    """Yields the fields of each symbol: index, value, size, type, binding, visibility, section, name, mark, version."""
    inside = False
    for line in readelf("-sW", path):
        if line.startswith("Symbol table"):
            inside = (".dynsym" in line) == is_dynamic
        found = re.match(r"\s*(\d+): ([0-9a-f]+)\s+(\S+) (\w+)\s+(\w+)\s+(\w+)\s+(?:\[.*\]\s+)?(\S+) ?(.*)$", line)
        if not inside or not found:
            continue
        index, value, size, kind, binding, visibility, section, name = found.groups()
        name = re.sub(r" \(\d+\)$", "", name)
        name, mark, version = re.match(r"([^@]*)(@*)(.*)$", name).groups()
        section = int(section) if section.isdigit() else 0
        yield (int(index), int(value, 16), int(size, 0), TYPES[kind], BINDINGS[binding], VISIBILITIES[visibility], section, name,
               mark, version)


def version_names(path):
    """Returns the lines of version definitions and needs, as `list_object` prints them, and the base version's name."""
    lines, base = [], ""
    for line in readelf("-VW", path):
        definition = re.match(r"\s*(?:0x)?[0-9a-f]+: Rev: \d+\s+Flags: (\w+)\s+Index: (\d+)\s+Cnt: \d+\s+Name: (.*)$", line)
        parent = re.match(r"\s*0x[0-9a-f]+: Parent \d+: (.*)$", line)
        need = re.match(r"\s*(?:0x)?[0-9a-f]+: Version: \d+\s+File: (.*?)\s+Cnt: \d+$", line)
        needed = re.match(r"\s*0x[0-9a-f]+:\s+Name: (.*?)\s+Flags: (\w+)\s+Version: (\d+)$", line)
        if definition:
            flags, index, name = definition.groups()
            base = name if flags == "BASE" else base
            lines += [f"definition {index} {FLAGS[flags]}", f"version [{name}]"]
        elif parent:
            lines.append(f"version [{parent.group(1)}]")
        elif need:
            lines.append(f"file [{need.group(1)}]")
        elif needed:
            name, flags, index = needed.groups()
            lines.append(f"needed {index} {FLAGS[flags]} [{name}]")
    return lines, base


def group_lines(path):
    """Returns the lines of section groups, as `list_object` prints them."""
    lines, index = [], 0
    for line in readelf("-gW", path):
        head = re.match(r"(COMDAT )?group section \[\s*(\d+)\] `.*' \[(.*)\] contains \d+ sections?:$", line)
        member = re.match(r"\s+\[\s*(\d+)\]\s", line)
        if head:
            index = head.group(2)
            lines.append(f"group {index} {'comdat' if head.group(1) else 'plain'} [{head.group(3)}]")
        elif member:
            lines.append(f"member {index} {member.group(1)}")
    return lines


def tag_lines(path):
    """Returns the tags of the dynamic entries up to the null tag, and the name of the library."""
    tags, name = [], ""
    for line in readelf("-dW", path):
        found = re.match(r"\s*0x([0-9a-f]+) \((\w+)\)\s*(.*)$", line)
        if found:
            tags.append(int(found.group(1), 16))
            if found.group(2) == "SONAME":
                name = re.match(r".*\[(.*)\]", found.group(3)).group(1)
    return tags, name


def check_symbol(line, symbol, base):
    """Compares a printed symbol with that of readelf."""
    index, value, size, kind, binding, visibility, section, name, mark, version = symbol
    numbers = [index, value, size, binding * 16 + kind]
    fields = line.split(" ", 7)
    if [int(field) for field in fields[1:5]] != numbers or int(fields[5]) & 3 != visibility or int(fields[6]) != section:
        sys.exit(f"other numbers: {line}, and readelf {symbol}")
    shown, needed, text = re.match(r"\[(.*?)\] \[(.*?)\] \[(.*?)\]$", fields[7]).groups()
    if kind == TYPES["SECTION"]:
        return
    if not version:
        # readelf leaves out the base version, and the version of the symbol that stands for a version
        if shown not in (name, f"{name}@@{base}", f"{name}@@{name}") or needed:
            sys.exit(f"another name: {line}, and readelf {symbol}")
    elif needed:
        if shown != name or needed != version or text.lstrip("@") != version:
            sys.exit(f"another needed version: {line}, and readelf {symbol}")
    elif shown != name + mark + version or text != mark + version:
        sys.exit(f"another version: {line}, and readelf {symbol}")


def check(path, printed):
    """Compares all lines."""
    is_dynamic = any(line.startswith("soname ") for line in printed)
    versions, base = version_names(path)
    symbols = list(symbol_lines(path, is_dynamic))
    shown = [line for line in printed if line.startswith("symbol ")]
    if len(symbols) != len(shown):
        sys.exit(f"{len(shown)} symbols, and readelf {len(symbols)}")
    for line, symbol in zip(shown, symbols):
        check_symbol(line, symbol, base)
    groups = [line for line in printed if line.startswith(("group ", "member "))]
    if groups != group_lines(path):
        sys.exit(f"other groups: {groups}, and readelf {group_lines(path)}")
    records = [line for line in printed if line.startswith(("definition ", "version ", "file ", "needed "))]
    if records != versions:
        sys.exit(f"other versions: {records}, and readelf {versions}")
    tags = [int(line.split()[1]) for line in printed if line.startswith("tag ")]
    if 0 in tags:
        tags = tags[: tags.index(0) + 1]
    expected, name = tag_lines(path)
    if is_dynamic and (tags != expected or f"soname [{name}]" not in " ".join(printed)):
        sys.exit(f"other dynamic entries: {tags} and readelf {expected}, {name}")
    return len(symbols), len(groups), len(records), len(tags)


counts = check(sys.argv[1], sys.stdin.read().splitlines())
print("same: {} symbols, {} lines of groups, {} of versions, {} dynamic entries".format(*counts))
