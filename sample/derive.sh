# The program, for scripts. Source it: `. sample/derive.sh`, with the top of the repository in `top`.

# derive ARGUMENT.. : runs the file that DERIVE names, else the one that the gate or `rt run` left; without either, the program
# unproved, which `rt try` needs about a minute for. Files are named by absolute paths.
derive() {
  local program=${DERIVE:-$top/crates/derive/out/derive} log status=0
  if [ -x "$program" ]; then
    "$program" "$@"
  else
    log=$(mktemp)
    (cd "$top/crates/derive" && rt try -- "$@" 2>"$log") || { status=$?; cat "$log" >&2; }
    rm -f "$log"
    return "$status"
  fi
}
