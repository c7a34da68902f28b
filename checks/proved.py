#!/usr/bin/env python3
"""Whether each row of `docs/PROVED.md` names contracts that exist: `checks/proved.py`.

A row of four columns names functions, clauses and a file. Each function has to stand in that file with each clause, or, for
`ensures`, with a clause that has no name.
"""

import os
import re
import sys

TOP = os.path.dirname(os.path.dirname(os.path.abspath(__file__)))


def contracts(path):
    """The clauses of each function of a file, '' for one without a name."""
    with open(path, encoding="utf-8") as file:
        text = file.read()
    found = {}
    for match in re.finditer(r"(?m)^([ \t]*)(?:pub(?:\(crate\))? )?(?:const )?fn (\w+)", text):
        end = re.compile(rf"(?m)^{match.group(1)}[{{}}]|;[ \t]*$").search(text, match.end())
        head = text[match.end():end.start() if end else len(text)]
        found.setdefault(match.group(2), set()).update(re.findall(r"(?m)^\s*ensures(?:\s+(\w+))?\s*\{", head))
    return found


def main():
    lacking, rows = [], 0
    with open(os.path.join(TOP, "docs", "PROVED.md"), encoding="utf-8") as file:
        for number, line in enumerate(file, 1):
            cells = [cell.strip() for cell in line.strip().strip("|").split("|")]
            if len(cells) != 4 or not cells[3].startswith("`") or not line.startswith("|"):
                continue
            rows += 1
            path = os.path.join(TOP, "crates", cells[3].strip("`"))
            if not os.path.exists(path):
                lacking.append(f"docs/PROVED.md:{number}: no file {cells[3]}")
                continue
            known = contracts(path)
            for function in re.findall(r"`(\w+)`", cells[1]):
                if function not in known:
                    lacking.append(f"docs/PROVED.md:{number}: no function {function} in {cells[3]}")
                for clause in re.findall(r"`(\w+)`", cells[2]):
                    if function in known and ("" if clause == "ensures" else clause) not in known[function]:
                        lacking.append(f"docs/PROVED.md:{number}: {function} has no clause {clause}; it has {sorted(known[function])}")
    if lacking:
        sys.exit("\n".join(lacking))
    print(f"right: the {rows} rows of docs/PROVED.md name contracts that exist")


main()
