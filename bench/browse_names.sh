#!/usr/bin/env bash
# Measures `derive browse` on an index of many names: `bench/browse_names.sh [NAMES]`, a million if it isn't said. The index of version 8 has
# a unit for each thousand names and no address entries. It is listed three times whole, and three times with a prefix that every tenth name has.
# Beside it stands what `derive tables` takes for an object that publishes as many names, with the report of their index.
# The program is the one that the gate or `rt run` left, or the one that DERIVE names.
set -eu
names=${1:-1000000}
top=$(cd "$(dirname "$0")/.." && pwd)
program=${DERIVE:-$top/crates/derive/out/derive}
[ -x "$program" ] || { echo "no program: cd crates/derive && rt run" >&2; exit 1; }
work=$(mktemp -d)
trap 'rm -rf "$work"' EXIT

python3 "$top/bench/make_index.py" "$work/index" 0 "$names"

echo "an index of $names names, $(wc -c <"$work/index") bytes"
TIMEFORMAT='%U s of the processor, %R s in all'
for prefix in "" 37; do
  for _ in 1 2 3; do
    echo "browse ${prefix:-without a prefix}"
    time "$program" browse "$work/index" $prefix >"$work/listed"
  done
  echo "names: $(sed -n 's/^names //p' "$work/listed")"
done

python3 "$top/bench/make_input.py" "$work/objects" objects 1 "$names"
for _ in 1 2 3; do
  echo "tables"
  time "$program" tables x86_64 "$work/objects/layout" "$work/objects"/*.o >"$work/report"
done
echo "names: $(sed -n 's/^names //p' "$work/report")"
