#!/usr/bin/env bash
# `derive browse` on the index that gdb makes of a program of C and C++: it lists what stands in the index by the GDB manual
# (`checks/listing_of_index.py`), all of it and the names with a prefix. An index of type units is refused as such, and one that is cut
# or damaged as what it is. Skipped without the tools, and where no gdb makes an index of version 8 or 9.
set -u
top=$(cd "$(dirname "$0")/.." && pwd) || exit 1
. "$top/sample/derive.sh"
for tool in g++ gdb python3; do
  command -v "$tool" >/dev/null || { echo "skipped: no $tool"; exit 0; }
done
work=$(mktemp -d) || exit 1
trap 'rm -rf "$work"' EXIT
cd "$work" || exit 1

cat >main.c <<'EOF'
int twice(int number);
struct pair { int first, second; };
static int counter;
int main(void) { struct pair pair = {1, 2}; counter += pair.first; return twice(counter) == 0; }
EOF
cat >two.cc <<'EOF'
enum class kind { small, large };
namespace shapes { template <typename T> T larger(T a, T b) { return a < b ? b : a; } }
static int local(int number) { return shapes::larger<int>(number, 4); }
extern "C" int twice(int number) { return local(number) + (int)shapes::larger<long>(1, (long)kind::large); }
EOF

# save NAME FLAG.. : the program NAME, compiled so, and gdb's index of it
save() {
  local name=$1
  shift
  gcc "$@" -c main.c && g++ "$@" -c two.cc && g++ -o "$name" main.o two.o || exit 1
  gdb -nx -batch -ex "save gdb-index $work" "$name" >said 2>&1 || { cat said; exit 1; }
}

# refused INDEX FAULT : the index is refused so
refused() {
  derive browse "$work/$1" >listed 2>said
  [ $? = 1 ] && grep -qx "derive: RefusedBrowse $2" said && [ ! -s listed ] || { cat said; echo "$1 is not refused as $2"; exit 1; }
}

save program -g -O1 -gz=none
case $(head -c 4 program.gdb-index | od -An -tu4 | tr -d ' ') in
  8 | 9) ;;
  *) echo "skipped: no gdb that makes an index of version 8 or 9"; exit 0 ;;
esac
derive browse "$work/program.gdb-index" >listed 2>said || { cat said; exit 1; }
python3 "$top/checks/listing_of_index.py" program.gdb-index >wanted || exit 1
diff wanted listed || { echo "browse lists otherwise than the index says"; exit 1; }
prefix=$(printf 'shapes::larger' | od -An -tx1 | tr -d ' \n')
derive browse "$work/program.gdb-index" "$prefix" >listed 2>said || { cat said; exit 1; }
grep "^name $prefix" wanted >named
[ "$(grep '^name ' listed)" = "$(cat named)" ] && [ "$(sed -n 's/^names //p' listed)" = "$(wc -l <named)" ] || { echo "browse lists other names with a prefix"; exit 1; }
echo "right: browse lists the $(sed -n 's/^units //p' wanted) units, $(sed -n 's/^addresses //p' wanted) addresses and $(sed -n 's/^names //p' wanted) names of gdb's index, $(wc -l <named) of them with a prefix"

head -c 20 program.gdb-index >cut.gdb-index
refused cut.gdb-index Short
{ printf '\007'; tail -c +2 program.gdb-index; } >other.gdb-index
refused other.gdb-index "Format Version"
save typed -g -O1 -gz=none -fdebug-types-section
refused typed.gdb-index TypeUnits
echo "right: an index of type units is refused, and one that is cut or of another version"
