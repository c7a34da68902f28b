#!/usr/bin/env bash
# Each definition of `specs/` has a name of its own in the whole repository. Skipped where python3 is missing.
set -u
top=$(cd "$(dirname "$0")/.." && pwd) || exit 1
command -v python3 >/dev/null || { echo "skipped: no python3"; exit 0; }
python3 "$top/checks/definitions.py"
