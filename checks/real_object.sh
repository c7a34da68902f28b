#!/usr/bin/env bash
# The report of an object that gcc made: one unit, as long as its `.debug_info`, and the names that it publishes. Skipped where gcc or
# readelf is missing.
set -u
top=$(cd "$(dirname "$0")/.." && pwd) || exit 1
. "$top/sample/derive.sh"
for tool in gcc readelf; do
  command -v "$tool" >/dev/null || { echo "skipped: no $tool"; exit 0; }
done
work=$(mktemp -d) || exit 1
trap 'rm -rf "$work"' EXIT
printf 'int main(void) { return 0; }\n' >"$work/one.c"
: >"$work/layout"
gcc -g -gz=none -ggnu-pubnames -c -o "$work/one.o" "$work/one.c" || exit 1
size=$((16#$(readelf -SW "$work/one.o" | sed -n 's/^ *\[ *[0-9]*\] \.debug_info  *[A-Z]*  *[0-9a-f]*  *[0-9a-f]*  *\([0-9a-f]*\).*/\1/p')))
derive tables x86_64 "$work/layout" "$work/one.o" >"$work/report" || exit 1
# `int` is a static type (9 in the element's upper bits), `main` a function that is not static (3)
if grep -qx "unit 0 0 $size" "$work/report" && grep -qx 'units 1' "$work/report" &&
  grep -qx 'name 696e74 90000000' "$work/report" && grep -qx 'name 6d61696e 30000000' "$work/report"; then
  echo "right: the unit of an object that gcc made has $size bytes, and publishes int and main"
else
  cat "$work/report"
  exit 1
fi
