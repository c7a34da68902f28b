#!/usr/bin/env bash
# Makes objects of about 40 kB in FOLDER with g++, from generated C++: `bench/compiled_objects.sh FOLDER [COUNT]`, 500 of
# them if it isn't said. Each has debugging information, names for an index, and a section for each function; four of
# its eleven classes, from a header, are the same in all. With them comes FOLDER/layout, which places their code.
set -eu
folder=$1
count=${2:-500}
here=$(cd "$(dirname "$0")" && pwd)
for tool in g++ python3 xargs; do
  command -v "$tool" >/dev/null || { echo "no $tool" >&2; exit 1; }
done
mkdir -p "$folder/source"

# a class with some members, and a function template over it: its name, and a number
class() {
  cat <<END
struct $1 {
  int first; long second; double ratio; $1 *next; unsigned char bytes[$2];
  enum class Color { red, green = $2, blue } color;
  int sum(int count) const { int total = first; for (int i = 0; i < count; i++) total += bytes[i % $2]; return total; }
  virtual long scaled(long by) const { return second * by + $2; }
  virtual ~$1() {}
};
template <typename T> T fold_$1(const $1 &value, T start) { return start + static_cast<T>(value.scaled($2)); }
END
}

for number in 1 2 3 4; do class "Shared$number" "$((8 + number))"; done >"$folder/source/shared.h"
for ((object = 0; object < count; object++)); do
  {
    echo '#include "shared.h"'
    echo "namespace part_$object {"
    for number in 1 2 3 4 5 6 7; do
      class "Own${number}" "$((number + 3))"
      echo "static int counter_$number = $object;"
      echo "int work_${object}_$number(const Own$number &own, const Shared1 &shared) {"
      echo "  counter_$number += own.sum(7) + shared.sum(3);"
      echo "  return fold_Own$number<int>(own, counter_$number) + static_cast<int>(fold_Shared1<double>(shared, own.ratio));"
      echo "}"
    done
    for number in 1 2 3 4; do
      echo "long use_${object}_$number(const Shared$number &shared) { return fold_Shared$number<long>(shared, shared.sum($number)); }"
    done
    echo "}"
  } >"$folder/source/$(printf '%05d' "$object").cc"
done
cd "$folder"
(cd source && ls ./*.cc) | sed 's,^\./,,; s,\.cc$,,' |
  xargs -P "$(nproc)" -I {} g++ -g -gz=none -ggnu-pubnames -ffunction-sections -O1 -c -o {}.o source/{}.cc
python3 "$here/lay_out.py" ./*.o >layout
