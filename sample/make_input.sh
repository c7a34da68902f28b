#!/usr/bin/env bash
# Writes the sample's input into FOLDER: `sample/make_input.sh FOLDER`.
#
#   one.o, two.o  relocatable objects for x86-64; each has one compilation unit, a set of names, and 16 bytes of code
#   sframe        two contributions of one function each
#   layout        where the code and the contributions are
set -eu
. "$(dirname "$0")/bytes.sh"
folder=$1
mkdir -p "$folder"

# unit: a compilation unit without an entry (DWARF 5, 7.5.1.1): length 8, version 5, DW_UT_compile, addresses of 8 bytes
unit() { number 4 8; number 2 5; number 1 1; number 1 8; number 4 0; }

# names_of [FLAGS NAME].. : one set of `.debug_gnu_pubnames` for the unit of 12 bytes at offset 0. An entry has the offset of
# its DIE, a byte of flags and a name. FLAGS: 0x30 is a function, 0x90 a static type, 0xa0 a static variable.
names_of() {
  local entries=0 i
  for ((i = 2; i <= $#; i += 2)); do entries=$((entries + 6 + $(printf '%s' "${!i}" | wc -c))); done
  number 4 $((14 + entries)); number 2 2; number 4 0; number 4 12
  while [ $# -gt 0 ]; do
    number 4 12; number 1 "$1"; printf '%s\0' "$2"
    shift 2
  done
  number 4 0
}

# object [FLAGS NAME].. : section 1 is `.debug_info`, 2 `.debug_gnu_pubnames`, 3 `.text`, 4 `.shstrtab`
object() {
  local names text strings table
  names=$(names_of "$@" | wc -c)
  text=$((64 + 12 + names))
  strings=$((text + 16))
  table=$((strings + 49))
  header 5 "$table"
  unit
  names_of "$@"
  zeros 16
  printf '\0.debug_info\0.debug_gnu_pubnames\0.text\0.shstrtab\0'
  zeros 64
  section 1 1 0 64 12
  section 13 1 0 76 "$names"
  section 33 1 6 "$text" 16
  section 39 3 0 "$strings" 49
}

# contribution START: an SFrame header of 28 bytes (version 2, AMD64, return address at CFA - 8), one FDE of 20 bytes for 16
# bytes of code, and one FRE of 3 bytes (CFA = SP + 8). START counts from the section's address.
contribution() {
  number 2 0xdee2; number 1 2; number 1 0; number 1 3; number 1 0; number 1 0xf8; number 1 0
  number 4 1; number 4 1; number 4 3; number 4 0; number 4 20
  number 4 "$1"; number 4 16; number 4 0; number 4 1; number 4 0
  number 1 0; number 1 3; number 1 8
}

object 0x30 main 0x90 int >"$folder/one.o"
object 0xa0 count 0x90 int >"$folder/two.o"
# the code of two.o is placed below that of one.o, so the second contribution's function comes first
{ contribution $((4112 - 8192)); contribution $((4096 - 8192)); } >"$folder/sframe"
cat >"$folder/layout" <<'END'
# place OBJECT SECTION ADDRESS SIZE: both `.text`
place 0 3 4112 16
place 1 3 4096 16
# range START STOP: the two contributions; base ADDRESS: where the SFrame section is loaded
range 0 51
range 51 102
base 8192
END
