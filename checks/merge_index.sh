#!/usr/bin/env bash
# `derive merge` on the indexes of two halves of a program's objects: the merged index lists the units of both, and has for every name the
# CU vector that the index of all objects has (`checks/same_index.py`). `derive browse` accepts it. Skipped without the tools, and where
# the program is not built.
set -u
top=$(cd "$(dirname "$0")/.." && pwd) || exit 1
. "$top/sample/derive.sh"
for tool in g++ python3; do
  command -v "$tool" >/dev/null || { echo "skipped: no $tool"; exit 0; }
done
[ -x "${DERIVE:-$top/crates/derive/out/derive}" ] || { echo "skipped: no program, which the gate builds"; exit 0; }
work=$(mktemp -d) || exit 1
trap 'rm -rf "$work"' EXIT
cd "$work" || exit 1

cat >box.h <<'EOF'
template <typename T> struct box { T held; T get() const { return held + 1; } };
template <typename T> T larger(T a, T b) { return a < b ? b : a; }
EOF
for number in 1 2 3 4 5; do
  cat >part$number.cc <<EOF
#include "box.h"
static int local(int number) { return larger<int>(number, $number); }
namespace shapes { int area_$number(int side) { return box<int>{side}.get() * local(side); } }
long total_$number(long from) { return larger<long>(from, shapes::area_$number($number)); }
EOF
  g++ -g -O1 -gz=none -ggnu-pubnames -ffunction-sections -c part$number.cc || exit 1
done

# index_of NAME OBJECT.. : the index of objects, in the file NAME
index_of() {
  local name=$1
  shift
  python3 "$top/bench/lay_out.py" "$@" >layout
  derive tables x86_64 "$work/layout" "${@/#/$work/}" >report 2>said || { cat said; exit 1; }
  python3 "$top/examples/index_section.py" <report >"$name" || exit 1
}

index_of all part1.o part2.o part3.o part4.o part5.o
index_of first part1.o part2.o
index_of second part3.o part4.o part5.o
offset=$(python3 "$top/checks/same_index.py" --end first)
derive merge "$work/first" "$work/second" "$offset" >report 2>said || { cat said; exit 1; }
python3 "$top/examples/index_section.py" <report >merged || exit 1
python3 "$top/checks/same_index.py" merged all || exit 1
derive browse "$work/merged" >listed 2>said || { cat said; echo "the merged index is refused"; exit 1; }
derive browse "$work/all" >wanted 2>said || { cat said; exit 1; }
diff <(grep -v '^address' wanted) <(grep -v '^address' listed) || { echo "browse lists the merged index otherwise"; exit 1; }
echo "right: browse lists the merged index as that of all objects"

derive merge "$work/first" "$work/second" 18446744073709551615 >report 2>said
[ $? = 1 ] && [ ! -s report ] && grep -qx 'derive: RefusedMerge OffsetTooLarge 1' said || { cat said; echo "an offset that is too large is not refused"; exit 1; }
echo "right: units that are moved too far are refused"
