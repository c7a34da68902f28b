#!/usr/bin/env python3
"""Writes the bytes of a section out of a report: `examples/index_section.py [index|sframe] <REPORT >BYTES`.

REPORT is what `derive tables` prints. The line `index LENGTH` is followed by the section in hexadecimal, 32 bytes a line; so is
`sframe LENGTH`.
"""

import sys


def section(report, name):
    """The bytes that follow the line of a section's name."""
    lines = iter(report)
    for line in lines:
        word, _, length = line.partition(" ")
        if word == name:
            length = int(length)
            digits = "".join(next(lines, "").strip() for _ in range((length + 31) // 32))
            if len(digits) != 2 * length:
                sys.exit(f"the report does not hold {length} bytes of {name}")
            return bytes.fromhex(digits)
    sys.exit(f"the report has no line {name}")


if __name__ == "__main__":
    sys.stdout.buffer.write(section(sys.stdin, sys.argv[1] if len(sys.argv) > 1 else "index"))
