#!/usr/bin/env bash
# Measures `derive merge` on two indexes of many names, half of which are in both: `bench/merge_indexes.sh [NAMES]`, 500,000 in each if it
# isn't said. Processor time, time and the most memory of three runs are printed. The program is the one that the gate or `rt run` left,
# or the one that DERIVE names.
set -eu
names=${1:-500000}
top=$(cd "$(dirname "$0")/.." && pwd)
program=${DERIVE:-$top/crates/derive/out/derive}
[ -x "$program" ] || { echo "no program: cd crates/derive && rt run" >&2; exit 1; }
work=$(mktemp -d)
trap 'rm -rf "$work"' EXIT

python3 "$top/bench/make_index.py" "$work/first" 0 "$names"
python3 "$top/bench/make_index.py" "$work/second" "$((names / 2))" "$names"
echo "two indexes of $names names, $(wc -c <"$work/first") bytes each"
for _ in 1 2 3; do
  python3 - "$program" merge "$work/first" "$work/second" 1000000000 <<'END'
import resource
import subprocess
import sys
import time

start = time.monotonic()
text = subprocess.run(sys.argv[1:], check=True, stdout=subprocess.PIPE).stdout
took = time.monotonic() - start
used = resource.getrusage(resource.RUSAGE_CHILDREN)
length = text.split(b"\n", 1)[0].decode()
print(f"{length}: {took * 1000:.0f} ms, {used.ru_utime * 1000:.0f} ms of the processor, at most {used.ru_maxrss} kB")
END
done
