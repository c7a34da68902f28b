#!/usr/bin/env bash
# Frames of objects that g++ makes with a section for each function, of both classes: the CIEs and FDEs that `list_object frames` lists, their
# offsets, lengths and sections, are those that readelf gives. Skipped where g++, readelf, python3 or the built program is missing.
set -u
top=$(cd "$(dirname "$0")/.." && pwd) || exit 1
program=${LIST_OBJECT:-$top/crates/list_object/out/list_object}
for tool in g++ readelf python3; do
  command -v "$tool" >/dev/null || { echo "skipped: no $tool"; exit 0; }
done
[ -x "$program" ] || { echo "skipped: no program list_object, which the gate builds"; exit 0; }
work=$(mktemp -d) || exit 1
trap 'rm -rf "$work"' EXIT
cd "$work" || exit 1

cat >frames.cc <<'EOF'
struct shape { virtual ~shape() {} virtual int area() const = 0; };
struct square : shape { int side; int area() const override { return side * side; } };
template <typename T> T larger(T a, T b) { return a < b ? b : a; }
int total(const shape *shapes[], int count) {
  int sum = 0;
  for (int index = 0; index < count; index++) sum += larger<int>(shapes[index]->area(), 1);
  return sum;
}
long checked(long value) { if (value < 0) throw value; return larger<long>(value, 2); }
long caught(long value) { try { return checked(value); } catch (long thrown) { return -thrown; } }
int make() { square one; one.side = 3; const shape *shapes[] = {&one}; return total(shapes, 1); }
EOF
compared=0
for options in "" "-O1" "-mx32"; do
  # shellcheck disable=SC2086
  if g++ $options -g0 -ffreestanding -ffunction-sections -c frames.cc -o frames.o 2>/dev/null; then
    "$program" frames frames.o >listed || { echo "g++ $options: list_object ends with status $?"; exit 1; }
    python3 "$top/checks/frames_of_object.py" frames.o <listed || { echo "of g++ $options"; exit 1; }
    compared=$((compared + 1))
  fi
done
[ "$compared" -gt 0 ] || { echo "skipped: g++ compiles no object"; exit 0; }
