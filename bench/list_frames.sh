#!/usr/bin/env bash
# Measures `list_object frames` on an object of many FDEs: `bench/list_frames.sh [FDES]`, a million if it isn't said. The object is of ELFCLASS64;
# its `.eh_frame` has one CIE, and its FDEs are in turn for a thousand sections. Time and the most memory of three runs are printed.
# The program is the one that the gate or `rt run` left, or the one that LIST_OBJECT names.
set -eu
count=${1:-1000000}
top=$(cd "$(dirname "$0")/.." && pwd)
program=${LIST_OBJECT:-$top/crates/list_object/out/list_object}
[ -x "$program" ] || { echo "no program: cd crates/list_object && rt run" >&2; exit 1; }
work=$(mktemp -d)
trap 'rm -rf "$work"' EXIT

python3 - "$count" "$work/object" <<'END'
import struct
import sys

count, path = int(sys.argv[1]), sys.argv[2]
texts = 1000
cie = struct.pack("<IIB3sBBB", 20, 0, 1, b"zR\0", 1, 0x78, 16).ljust(24, b"\0")
frames = bytearray(cie)
relocations = bytearray()
for number in range(count):
    at = len(frames)
    frames += struct.pack("<IIII", 16, at + 4, 0, 16) + bytes(4)
    relocations += struct.pack("<QQq", at + 8, (1 + number % texts) << 32 | 2, 0)
symbols = bytes(24) + b"".join(struct.pack("<IBBHQQ", 0, 3, 0, 1 + number, 0, 0) for number in range(texts))
names = b"\0.text\0.eh_frame\0.rela.eh_frame\0.symtab\0.strtab\0"
sections = [(0, 0, 0, b"", 0, 0, 0, 0)]
sections += [(1, 1, 6, bytes(16), 0, 0, 16, 0)] * texts
eh_frame, symtab, strtab = texts + 1, texts + 3, texts + 4
sections += [(7, 1, 2, frames, 0, 0, 8, 0), (17, 4, 0x40, relocations, symtab, eh_frame, 8, 24),
             (33, 2, 0, symbols, strtab, texts + 1, 8, 24), (41, 3, 0, names, 0, 0, 1, 0)]
body, headers = bytearray(), bytearray()
for name, kind, flags, data, link, info, align, entry in sections:
    headers += struct.pack("<IIQQQQIIQQ", name, kind, flags, 0, 64 + len(body), len(data), link, info, align, entry)
    body += data
head = b"\x7fELF\x02\x01\x01".ljust(16, b"\0") + struct.pack(
    "<HHIQQQIHHHHHH", 1, 62, 1, 0, 0, 64 + len(body), 0, 64, 0, 0, 64, len(sections), strtab)
with open(path, "wb") as file:
    file.write(head + body + headers)
END
echo "an object of $count FDEs, $(stat -c %s "$work/object") bytes"
for _ in 1 2 3; do
  python3 - "$program" "$work/object" <<'END'
import resource
import subprocess
import sys
import time

start = time.monotonic()
lines = subprocess.run([sys.argv[1], "frames", sys.argv[2]], check=True, stdout=subprocess.PIPE).stdout.count(b"\nframe ")
took = time.monotonic() - start
used = resource.getrusage(resource.RUSAGE_CHILDREN)
print(f"{lines} frames listed in {took * 1000:.0f} ms ({used.ru_utime * 1000:.0f} ms in the program), at most {used.ru_maxrss} kB")
END
done
