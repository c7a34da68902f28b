#!/usr/bin/env bash
# Each function and clause that `docs/PROVED.md` names exists. Skipped where python3 is missing.
set -u
top=$(cd "$(dirname "$0")/.." && pwd) || exit 1
command -v python3 >/dev/null || { echo "skipped: no python3"; exit 0; }
python3 "$top/checks/proved.py"
