#!/usr/bin/env bash
# Makes the sample's input, and prints the report of the tables that are derived from it.
set -eu
top=$(cd "$(dirname "$0")/.." && pwd)
. "$top/sample/derive.sh"
work=$(mktemp -d)
trap 'rm -rf "$work"' EXIT
bash "$top/sample/make_input.sh" "$work"
derive tables x86_64 "$work/layout" --sframe "$work/sframe" "$work/one.o" "$work/two.o"
