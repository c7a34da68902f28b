#!/usr/bin/env bash
# The sample's input lies beside the program (`crates/derive/data`), as `sample/make_input.sh` makes it; the program derives the sample's
# report from it (`sample/report`); and the README shows the beginning of this report, and what the program's stored run prints.
set -u
top=$(cd "$(dirname "$0")/.." && pwd) || exit 1
work=$(mktemp -d) || exit 1
trap 'rm -rf "$work"' EXIT
bash "$top/sample/make_input.sh" "$work/input" || exit 1
diff -r "$work/input" "$top/crates/derive/data" || exit 1
bash "$top/sample/run.sh" >"$work/report" || exit 1
diff "$work/report" "$top/sample/report" || exit 1

# what the README shows between these two lines
shown() { sed -n "/$1/,/$2/p" "$top/README.md" | sed '$d' >"$work/shown"; [ -s "$work/shown" ] || { echo "the README shows no $1"; exit 1; }; }
shown '^units 2$' '^\.\.$'
head -n "$(wc -l <"$work/shown")" "$top/sample/report" | diff "$work/shown" - || exit 1
shown '^objects 3$' '^```$'
diff "$work/shown" "$top/crates/derive/stdout" || exit 1
echo "right: the sample has its report, and the README shows it and the summary of the stored run"
