#!/usr/bin/env bash
# Counts the instructions that `derive` spends on the objects of FOLDER, reading and printing included, and its ten dearest functions,
# beside what lld and gold spend on their own index of them: `bench/beside_linkers.sh DERIVE FOLDER`, with FOLDER as
# `bench/compiled_objects.sh` makes it. What a linker spends on the index is the difference between linking with `--gdb-index` and
# without, on one thread. The names and CU vectors of derive and lld are compared. A linker that is missing is left out.
set -euo pipefail
derive=$1
folder=$2
here=$(cd "$(dirname "$0")" && pwd)
for tool in valgrind python3; do
  command -v "$tool" >/dev/null || { echo "no $tool" >&2; exit 1; }
done
work=$(mktemp -d)
trap 'rm -rf "$work"' EXIT

# the instructions of a command, whose output is not kept
instructions() {
  valgrind --tool=callgrind --callgrind-out-file="$work/counts" "$@" >/dev/null 2>"$work/log" || { cat "$work/log" >&2; exit 1; }
  sed -n 's/^\(summary\|totals\): *//p' "$work/counts" | tail -n 1
}

# the instructions of linking with a linker and further options
link() { local linker=$1; shift; instructions "$linker" -e 0 --unresolved-symbols=ignore-all "$@" -o "$work/linked" "$folder"/*.o; }

derived=$(instructions "$derive" tables x86_64 "$folder/layout" "$folder"/*.o)
echo "derive: $derived instructions"
callgrind_annotate "$work/counts" 2>/dev/null | awk '/^ *[0-9,]+ \(/ && !/PROGRAM TOTALS/ && n++ < 10 { sub(/ \[[^]]*\]$/, ""); print }'
for linker in ld.lld ld.gold; do
  command -v "$linker" >/dev/null || { echo "no $linker"; continue; }
  threads=--no-threads
  [ "$linker" = ld.lld ] && threads=--threads=1
  without=$(link "$linker" "$threads")
  with=$(link "$linker" "$threads" --gdb-index)
  index=$((with - without))
  echo "$linker: $index for the index ($with with it, $without without), derive in the hundred: $((100 * derived / index))"
  if [ "$linker" = ld.lld ]; then
    "$derive" tables x86_64 "$folder/layout" "$folder"/*.o | python3 "$here/same_as_lld.py" "$work/linked"
  fi
done
