#!/usr/bin/env bash
# RISC-V objects of both classes that clang makes, alone and in one list, placed and not: units and names are those of the objects
# (`checks/names_of_objects.py`). They are compiled without linker relaxation, which leaves the lengths in pubnames sections to relocations.
# Skipped where clang has no RISC-V or the program is not built.
set -u
top=$(cd "$(dirname "$0")/.." && pwd) || exit 1
. "$top/sample/derive.sh"
for tool in clang python3; do
  command -v "$tool" >/dev/null || { echo "skipped: no $tool"; exit 0; }
done
[ -x "${DERIVE:-$top/crates/derive/out/derive}" ] || { echo "skipped: no program, which the gate builds"; exit 0; }
work=$(mktemp -d) || exit 1
trap 'rm -rf "$work"' EXIT
cd "$work" || exit 1

cat >one.c <<'EOF'
struct pair { int first, second; };
static int local(int number) { struct pair pair = {number, number + 1}; return pair.first * pair.second; }
int twice(int number) { return 2 * local(number); }
EOF
cat >two.c <<'EOF'
static int local(int number) { return number - 1; }
int thrice(int number) { return 3 * local(number); }
EOF
flags="-mno-relax -g -gz=none -ggnu-pubnames -ffunction-sections -O1"
if ! { clang --target=riscv32-unknown-elf -march=rv32i -mabi=ilp32 $flags -c one.c -o one.o && clang --target=riscv64-unknown-elf -march=rv64i -mabi=lp64 $flags -c two.c -o two.o; } 2>/dev/null; then
  echo "skipped: clang makes no RISC-V objects"
  exit 0
fi

# compared OBJECT.. : the tables of the objects, not placed and placed, have their units and names
compared() {
  python3 "$top/bench/lay_out.py" "$@" >layout
  : >empty
  for placed in empty layout; do
    derive tables riscv64 "$work/$placed" "${@/#/$work/}" >report 2>said || { cat said; exit 1; }
    python3 "$top/checks/names_of_objects.py" "$@" <report || exit 1
  done
}

compared one.o
compared one.o two.o
