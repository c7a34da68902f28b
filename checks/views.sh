#!/usr/bin/env bash
# Symbols with their versions, section groups, version records and dynamic entries: of objects that gcc and g++ make, of both classes,
# of a shared library with two versions of a function, and of shared libraries of the system, `list_object symbols` lists what readelf
# prints. Skipped where gcc, g++, readelf, python3 or the built program is missing.
set -u
top=$(cd "$(dirname "$0")/.." && pwd) || exit 1
program=${LIST_OBJECT:-$top/crates/list_object/out/list_object}
for tool in gcc g++ readelf python3; do
  command -v "$tool" >/dev/null || { echo "skipped: no $tool"; exit 0; }
done
[ -x "$program" ] || { echo "skipped: no program list_object, which the gate builds"; exit 0; }
work=$(mktemp -d) || exit 1
trap 'rm -rf "$work"' EXIT
cd "$work" || exit 1

# compares what is listed of a file with what readelf prints
compare() {
  "$program" symbols "$1" >listed || { echo "$1: list_object ends with status $?"; exit 1; }
  python3 "$top/checks/views_of_file.py" "$1" <listed || { echo "of $1"; exit 1; }
}

cat >templates.cc <<'EOF'
inline int shared_count() { static int count; return ++count; }
template <typename T> struct stack { T held[8]; int used = 0; void push(T item) { held[used++ % 8] = item; } };
template struct stack<int>;
template struct stack<long>;
thread_local int local_value;
extern int elsewhere(int);
static int hidden_one(int value) { return value + shared_count(); }
__attribute__((visibility("hidden"))) int not_seen() { return hidden_one(1); }
__attribute__((weak)) int weak_one() { return elsewhere(not_seen()) + local_value; }
EOF
cat >plain.c <<'EOF'
int common_value;
const char text[] = "text";
static long counter = 1;
extern void missing(void);
long count(void) { missing(); return counter++; }
EOF
cat >versions.c <<'EOF'
__asm__(".symver first_answer,answer@ONE");
__asm__(".symver second_answer,answer@@TWO");
int first_answer(void) { return 1; }
int second_answer(void) { return 2; }
extern char *getenv(const char *);
int asked(void) { return getenv("ASKED") != 0; }
EOF
cat >versions.map <<'EOF'
ONE { global: answer; };
TWO { global: answer; asked; local: *; } ONE;
EOF
compared=0
for options in "" "-mx32"; do
  # shellcheck disable=SC2086
  if g++ $options -g -ffreestanding -ffunction-sections -c templates.cc -o templates.o 2>/dev/null &&
    gcc $options -fcommon -ffreestanding -c plain.c -o plain.o 2>/dev/null; then
    compare templates.o
    compare plain.o
    compared=$((compared + 1))
  fi
done
if gcc -shared -fPIC versions.c -Wl,--version-script=versions.map -Wl,-soname,libversions.so.1 -o libversions.so 2>/dev/null; then
  compare libversions.so
  compared=$((compared + 1))
fi
for library in libc.so.6 libstdc++.so.6 libm.so.6; do
  found=$(gcc -print-file-name="$library")
  if [ -f "$found" ]; then
    compare "$found"
    compared=$((compared + 1))
  fi
done
[ "$compared" -gt 0 ] || { echo "skipped: no file to read"; exit 0; }
