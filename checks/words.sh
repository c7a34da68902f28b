#!/usr/bin/env bash
# Keeps the field's words: `checks/words.txt` lists what is said otherwise. Skipped where python3 or git is missing.
set -u
top=$(cd "$(dirname "$0")/.." && pwd) || exit 1
for tool in git python3; do
  command -v "$tool" >/dev/null || { echo "skipped: no $tool"; exit 0; }
done
git -C "$top" rev-parse --git-dir >/dev/null 2>&1 || { echo "skipped: no checkout of git"; exit 0; }
python3 "$top/checks/words.py" || exit 1
echo "right: the words are the field's"
