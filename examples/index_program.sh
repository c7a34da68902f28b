#!/usr/bin/env bash
# Adds a `.gdb_index` to a copy of a linked program: `examples/index_program.sh PROGRAM OBJECT..` writes PROGRAM.indexed.
#
# The objects are those that PROGRAM was linked from and that have debugging information, in the order in which they were linked.
# Compile them with `-g -gz=none -ggnu-pubnames`. `examples/program_layout.py` finds where the linker put their code, and says how.
# DERIVE names the file of `derive`; `sample/derive.sh` says what runs without it.
# The index has version 8, which every gdb since 7.6 reads; VERSION=9 writes version 9, for gdb 15 and later. Needs objcopy and
# python3; readelf shows the index if it is there.
set -euo pipefail
if [ $# -lt 2 ]; then sed -n '2,8s/^# \{0,1\}//p' "$0" >&2; exit 2; fi
top=$(cd "$(dirname "$0")/.." && pwd)
. "$top/sample/derive.sh"
program=$1
shift
for tool in objcopy python3; do
  command -v "$tool" >/dev/null || { echo "no $tool" >&2; exit 1; }
done
work=$(mktemp -d)
trap 'rm -rf "$work"' EXIT

python3 "$top/examples/program_layout.py" "$program" "$@" >"$work/layout"
machine=$(sed -n 's/^# machine //p' "$work/layout")
objects=()
for object in "$@"; do objects+=("$(realpath "$object")"); done
derive tables "$machine" "$work/layout" --index "${VERSION:-8}" "${objects[@]}" >"$work/report"
python3 "$top/examples/index_section.py" index <"$work/report" >"$work/index"
objcopy --remove-section .gdb_index --add-section .gdb_index="$work/index" --set-section-flags .gdb_index=readonly "$program" "$program.indexed"
echo "$program.indexed has a .gdb_index of version ${VERSION:-8} with $(wc -c <"$work/index") bytes: $(sed -n 's/^units //p' "$work/report") units," \
  "$(sed -n 's/^names //p' "$work/report") names, $(grep -c '^place ' "$work/layout" || true) placed sections"
if command -v readelf >/dev/null; then readelf --debug-dump=gdb_index "$program.indexed" 2>&1 || true; fi
