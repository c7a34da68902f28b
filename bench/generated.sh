#!/usr/bin/env bash
# Measures the program on generated input of each kind, at one size and at its double: `bench/generated.sh DERIVE [FOLDER]`.
# The time is to double with the input. The input, about 400 MB, is made in FOLDER and kept; without one it is removed.
set -eu
derive=$1
here=$(cd "$(dirname "$0")" && pwd)
if [ $# -gt 1 ]; then
  folder=$2
else
  folder=$(mktemp -d)
  trap 'rm -rf "$folder"' EXIT
fi

# the kind of input, and its numbers
measure() {
  local input
  input="$folder/$(printf '%s' "$*" | tr ' ' _)"
  [ -e "$input/layout" ] || python3 "$here/make_input.py" "$input" "$@"
  python3 "$here/measure.py" "$derive" "$input" 3
}

measure objects 500 1000
measure objects 1000 1000
measure objects 1 200000
measure objects 1 400000
measure objects 1 1000000
measure objects 1 2000000
measure units 20000
measure units 40000
measure relocations 10000 1000000
measure relocations 20000 2000000
measure sections 30000
measure sections 60000
measure overlaps 20000 1000000
measure overlaps 40000 2000000
measure alike 65536
measure alike 131072
measure sframe 1000000 500
measure sframe 2000000 1000
