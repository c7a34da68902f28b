# Bytes for scripts that write objects to standard output. Source it: `. sample/bytes.sh`.

# number WIDTH VALUE: a number in WIDTH bytes, little endian
number() {
  local width=$1 value=$2 i
  for ((i = 0; i < width; i++)); do
    printf "\\x$(printf '%02x' $(((value >> (8 * i)) & 255)))"
  done
}

# zeros COUNT: zero bytes
zeros() { head -c "$1" /dev/zero; }

# header SECTIONS OFFSET: the file header of a relocatable ELFCLASS64 object for x86-64 (System V gABI, "ELF Header"). It has
# SECTIONS section headers from OFFSET on; the last of them is the section name string table.
header() {
  printf '\x7fELF\x02\x01\x01'; zeros 9
  number 2 1; number 2 62; number 4 1; zeros 16; number 8 "$2"
  number 4 0; number 2 64; zeros 4; number 2 64; number 2 "$1"; number 2 $(($1 - 1))
}

# section NAME TYPE FLAGS OFFSET SIZE: a section header of ELFCLASS64 (System V gABI, "Section Header")
section() {
  number 4 "$1"; number 4 "$2"; number 8 "$3"; number 8 0; number 8 "$4"; number 8 "$5"
  number 4 0; number 4 0; number 8 1; number 8 0
}
