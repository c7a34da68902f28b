#!/usr/bin/env bash
# Writes a relocatable object for x86-64 to standard output whose `.debug_info` is one unit of SIZE bytes:
# `bench/large_object.sh SIZE`. To measure the program on it, time `derive tables x86_64 LAYOUT OBJECT`.
set -eu
size=$1
. "$(dirname "$0")/../sample/bytes.sh"

header 3 $((64 + size + 23))
number 4 $((size - 4)); zeros $((size - 4))
printf '\0.debug_info\0.shstrtab\0'
zeros 64
section 1 1 0 64 "$size"
section 13 3 0 $((64 + size)) 23
