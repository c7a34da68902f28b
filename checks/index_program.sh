#!/usr/bin/env bash
# `examples/index_program.sh` on a program of four objects: functions in sections of their own, some of which the linker leaves out, a
# function that two objects have, static functions of one name, names that differ in case, templates, and code without debugging
# information. In both versions the index is compared with the program and the objects (`checks/index_of_program.py`), and with lld's where
# that is there. readelf reads version 8, and gdb uses it and says of names, breakpoints and types what it says without it. The same of a
# program of 32-bit objects, and the tables of objects of both classes together. Skipped without the tools.
set -u
top=$(cd "$(dirname "$0")/.." && pwd) || exit 1
. "$top/sample/derive.sh"
for tool in g++ objcopy readelf python3; do
  command -v "$tool" >/dev/null || { echo "skipped: no $tool"; exit 0; }
done
work=$(mktemp -d) || exit 1
trap 'rm -rf "$work"' EXIT
cd "$work" || exit 1

cat >main.c <<'EOF'
int twice(int number);
int Twice(int number);
int used(int number);
int bare(int number);
static int counter;
static int local(int number) { counter += number; return counter; }
int main(void) { return twice(local(3)) + Twice(1) + used(2) + bare(1) == 0; }
EOF
cat >two.c <<'EOF'
struct pair { int first, second; };
static int local(int number) { struct pair pair = {number, number + 1}; return pair.first * pair.second; }
int twice(int number) { return 2 * local(number); }
int Twice(int number) { return 3 * local(number); }
int left_out(int number) { return number - 1; }
EOF
cat >box.h <<'EOF'
template <typename T> struct box { T held; T get() const { return held + 1; } };
template <typename T> T larger(T a, T b) { return a < b ? b : a; }
EOF
cat >three.cc <<'EOF'
#include "box.h"
static int local(int number) { return larger<int>(number, 4); }
extern "C" int used(int number) { return box<int>{number}.get() + local(number) + (int)larger<long>(1, number); }
EOF
cat >four.cc <<'EOF'
#include "box.h"
namespace shapes { int area(int width, int height) { return box<int>{width}.get() * height; } }
extern "C" int bare(int number) { return shapes::area(number, number); }
EOF
flags="-g -O1 -gz=none -ggnu-pubnames -ffunction-sections -fno-inline -ffreestanding"

# what readelf says of the index of a program
ask_readelf() {
  readelf --debug-dump=gdb_index "$1" >said 2>&1
  for line in 'Version 8' 'shapes::area: 3 \[global, function\]' 'left_out: 1 \[global, function\]'; do
    grep -Eq "$line" said || { cat said; echo "readelf does not say of $1: $line"; exit 1; }
  done
  echo "right: readelf reads the index of $1 as version 8"
}

# what gdb says of a program: the functions of a name, breakpoints by name, lines, types and symbol tables
ask_gdb() {
  gdb -nx -batch -iex 'set auto-load no' -iex 'set breakpoint pending off' \
    -ex 'break local' -ex 'break twice' -ex 'break Twice' -ex 'break used' -ex 'break box<int>::get' -ex 'break larger<int>' \
    -ex 'break larger<long>' -ex 'break shapes::area' -ex 'break no_such_name' -ex 'break TWICE' -ex 'info breakpoints' \
    -ex 'info address twice' -ex 'info address Twice' -ex 'info scope Twice' -ex 'info line twice' -ex "info line *0x$2" -ex 'list shapes::area' \
    -ex 'ptype struct pair' -ex 'ptype box<int>' -ex 'print sizeof(box<int>)' -ex 'info functions ^local$' -ex 'info functions ^[tT]wice$' \
    -ex 'info types ^pair$' -ex 'info variables ^counter$' "$1" 2>&1 | sed "s/$1/PROGRAM/g"
  # the symbol tables, once all are read: the names of the files, in order
  gdb -nx -batch -iex 'set auto-load no' -ex 'maint expand-symtabs' -ex 'maint info symtabs' "$1" 2>/dev/null \
    | sed -n 's/.*{ symtab \([^ ]*\).*/\1/p' | sort
}

# gdb uses the index of a program, and answers as it does without it
compare_in_gdb() {
  local plain=$1 indexed=$2 address
  address=$(nm "$plain" | sed -n 's/^0*\([0-9a-f]*\) T twice$/\1/p')
  if ! gdb -nx -batch -ex 'maint print objfiles' "$indexed" 2>/dev/null | grep -q '^\.gdb_index: version 8'; then
    echo "skipped: no gdb that reads version 8"
    return
  fi
  ask_gdb "$plain" "$address" >plain.said
  ask_gdb "$indexed" "$address" >indexed.said
  for line in 'local. \(3 locations\)' 'Function "TWICE" not defined' 'Line 3 of "two.c"' 'larger<long>' 'four.cc'; do
    grep -Eq "$line" indexed.said || { cat indexed.said; echo "gdb does not say of $indexed: $line"; exit 1; }
  done
  diff plain.said indexed.said || { echo "gdb answers otherwise with the index of $indexed"; exit 1; }
  echo "right: gdb uses the index of $indexed, and says the same in $(wc -l <indexed.said) lines as without it"
}

gcc $flags -c main.c two.c && g++ $flags -c three.cc four.cc && g++ -Wl,--gc-sections -o program main.o two.o three.o four.o || exit 1
objects="main.o two.o three.o four.o"
for version in 9 8; do
  VERSION=$version bash "$top/examples/index_program.sh" program $objects >said 2>&1 || { cat said; exit 1; }
  python3 "$top/checks/index_of_program.py" $version program.indexed $objects || exit 1
done
ask_readelf program.indexed

# lld's own index of the same objects has the same names and CU vectors
if command -v ld.lld >/dev/null; then
  : >empty
  ld.lld -e 0 --unresolved-symbols=ignore-all --gdb-index -o linked $objects || exit 1
  said=$(derive tables x86_64 "$work/empty" "$work/main.o" "$work/two.o" "$work/three.o" "$work/four.o" | python3 "$top/bench/same_as_lld.py" linked) || exit 1
  echo "right: $said"
fi
command -v gdb >/dev/null && compare_in_gdb program program.indexed

# objects of ELFCLASS32 for x86-64, alone and with others
mkdir x32 && cd x32 && cp ../*.c ../*.cc ../*.h . || exit 1
if ! { gcc -mx32 $flags -c main.c two.c && g++ -mx32 $flags -c three.cc four.cc && ld -m elf32_x86_64 -e main --gc-sections -o program32 $objects; } 2>/dev/null; then
  echo "skipped: no compiler or linker of ELFCLASS32 for x86-64"
  exit 0
fi
bash "$top/examples/index_program.sh" program32 $objects >said 2>&1 || { cat said; exit 1; }
python3 "$top/checks/index_of_program.py" 8 program32.indexed $objects || exit 1
ask_readelf program32.indexed
command -v gdb >/dev/null && compare_in_gdb program32 program32.indexed
: >empty
both=("$work/main.o" "$work/x32/two.o" "$work/x32/three.o" "$work/four.o")
derive tables x86_64 "$work/x32/empty" "${both[@]}" | python3 "$top/checks/names_of_objects.py" "${both[@]}"
