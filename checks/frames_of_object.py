#!/usr/bin/env python3
"""Whether a listing of frames is what readelf says of an object: `checks/frames_of_object.py OBJECT <LISTING`.

LISTING is what `list_object frames OBJECT` prints. Offsets and lengths of CIEs and FDEs are those of `readelf --debug-dump=frames`; the
section of an FDE is that in which readelf finds the symbol of the relocation of its PC Begin.
"""

import re
import subprocess
import sys


def readelf(*arguments):
    return subprocess.run(["readelf", "-W", *arguments], check=True, capture_output=True, text=True).stdout


def entries(path):
    """(offset, length with its field, is a CIE) of each entry of `.eh_frame`."""
    for line in readelf("--debug-dump=frames", path).split("\n"):
        if match := re.match(r"([0-9a-f]+) ([0-9a-f]+) [0-9a-f]+ (CIE|FDE)", line):
            yield int(match.group(1), 16), 4 + int(match.group(2), 16), match.group(3) == "CIE"


def sections_of_symbols(path):
    """The section of each symbol, by its number."""
    found = {}
    for line in readelf("-s", path).split("\n"):
        if match := re.match(r"\s*(\d+): [0-9a-f]+\s+\S+ \S+\s+\S+\s+\S+\s+(\d+)", line):
            found[int(match.group(1))] = int(match.group(2))
    return found


def starts(path):
    """The number of the symbol of each relocation of `.eh_frame`, by its offset."""
    said = readelf("-r", path)
    wide = "ELF64" in readelf("-h", path)
    inside, found = False, {}
    for line in said.split("\n"):
        if line.startswith("Relocation section"):
            inside = re.search(r"'\.rela?\.eh_frame'", line) is not None
        elif inside and (match := re.match(r"([0-9a-f]+)\s+([0-9a-f]+)\s+R_", line)):
            found[int(match.group(1), 16)] = int(match.group(2), 16) >> (32 if wide else 8)
    return found


def main(path):
    listed = {"cie": set(), "frame": set()}
    for line in sys.stdin:
        kind, *numbers = line.split()
        if kind in listed:
            listed[kind].add(tuple(int(number) for number in numbers))
    symbols, begins = sections_of_symbols(path), starts(path)
    cies = {(offset, length) for offset, length, is_cie in entries(path) if is_cie}
    frames = {(offset, length, symbols[begins[offset + 8]])
              for offset, length, is_cie in entries(path) if not is_cie and offset + 8 in begins}
    if listed["cie"] != cies:
        sys.exit(f"CIEs {sorted(listed['cie'])}, and readelf {sorted(cies)}")
    if listed["frame"] != frames:
        sys.exit(f"frames {sorted(listed['frame'])}, and readelf {sorted(frames)}")
    print(f"right: {len(cies)} CIEs and {len(frames)} frames are those that readelf gives, each frame with its section")


main(sys.argv[1])
