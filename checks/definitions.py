#!/usr/bin/env python3
"""Whether each definition of `specs/` has a name of its own in the whole repository: `checks/definitions.py`.

Definitions without `pub` count too. Fields and constructors do not.
"""

import os
import re
import sys

TOP = os.path.dirname(os.path.dirname(os.path.abspath(__file__)))
# a name at the beginning of a line, after `abbrev`, `pub` and the like, with its parameters and type
DEFINITION = re.compile(r"(?m)^(?:(?:abbrev|unfoldable|pub|record|data)\s+)*([A-Za-z_◌][\w◌'.<>=≤+*&|∷-]*)(?:\s+[({][^\n]*)?\s*:(?!=)")


def main():
    found = {}
    for at, folders, files in os.walk(os.path.join(TOP, "crates")):
        folders[:] = [it for it in folders if it != "out"]
        if "specs" not in at.split(os.sep):
            continue
        for name in sorted(files):
            if name.endswith(".antt"):
                path = os.path.join(at, name)
                with open(path, encoding="utf-8") as file:
                    for match in DEFINITION.finditer(file.read()):
                        found.setdefault(match.group(1), set()).add(os.path.relpath(path, os.path.join(TOP, "crates")))
    twice = {name: paths for name, paths in found.items() if len(paths) > 1}
    for name in sorted(twice):
        print(f"{name}: {', '.join(sorted(twice[name]))}")
    if twice:
        sys.exit(f"{len(twice)} names of specs/ have two definitions or more")
    print(f"right: the {len(found)} definitions of specs/ have names of their own")


main()
