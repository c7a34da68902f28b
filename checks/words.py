#!/usr/bin/env python3
"""Names each word of the repository that the field says otherwise: `checks/words.py [--all] [FILE ..]`.

`checks/words.txt` has the list. Without FILE it reads all files that git knows. A line of output is FILE:LINE: FOUND: SAY. The
status is 1 where there is one.
"""

import os
import re
import subprocess
import sys

HERE = os.path.dirname(os.path.abspath(__file__))
TOP = os.path.dirname(HERE)
KINDS = (".rt", ".antt", ".md", ".sh", ".py", ".edit")
IDENTIFIER = re.compile(r"[A-Za-z_][A-Za-z0-9_]*")


def rules():
    """(scope, files, pattern, say) of each line, those of allow lines without the last."""
    with open(os.path.join(HERE, "words.txt"), encoding="utf-8") as file:
        for number, line in enumerate(file, 1):
            line = line.rstrip("\n")
            if not line or line.startswith("#"):
                continue
            # a pattern may hold | ; the parts stand between " | "
            parts = [part.strip() for part in re.split(r"(?:^|(?<= ))\|(?= |$)", line)]
            scope = parts[0]
            if scope not in ("text", "doc", "name", "code", "allow") or len(parts) != (3 if scope == "allow" else 4):
                sys.exit(f"words.txt:{number}: no such line: {line}")
            yield scope, re.compile(parts[1]), re.compile(parts[2], re.I), parts[-1]


def parts_of(identifier):
    """The words of an identifier, between underscores and before capitals."""
    return [part for part in re.sub(r"(?<=[a-z0-9])(?=[A-Z])", "_", identifier).lower().split("_") if part]


def split(line, kind):
    """The code and the comment of a line. Strings count as code; of an attribute #[error("..")] the string counts as comment."""
    if kind in (".md",):
        return "", line
    if kind in (".sh", ".py"):
        return "", line if re.match(r'\s*(#(?!!)|""")', line) else ""
    start = "--" if kind == ".antt" else "//"
    if kind == ".rt":
        error = re.match(r'\s*#\[error\("(.*)"\)\]', line)
        if error:
            return "", re.sub(r"\{[^}]*\}", "", error.group(1))
    if start not in line:
        return line, ""
    # a mark inside a string begins no comment
    blank = re.sub(r'"(?:[^"\\]|\\.)*"', lambda match: " " * len(match.group(0)), line)
    at = blank.find(start)
    return (line, "") if at < 0 else (line[:at], line[at:])


def lines_of(path, kind):
    """(number, code, comment) of each line of a file."""
    with open(path, encoding="utf-8", errors="replace") as file:
        text = file.read()
    in_docstring = in_block = False
    for number, line in enumerate(text.split("\n"), 1):
        if kind == ".py" and line.count('"""') % 2 == 1:
            yield number, "", line
            in_docstring = not in_docstring
            continue
        if kind == ".md" and line.startswith("```"):
            in_block = not in_block
        if in_docstring:
            yield number, "", line
        elif kind == ".md" and in_block:
            continue
        elif kind == ".edit":
            if line.startswith(("old: ", "new: ")):
                yield number, split(line[5:], ".rt")[0], split(line[5:], ".rt")[1]
        else:
            yield number, *split(line, kind)


def found_in(path, shown, every):
    kind = os.path.splitext(path)[1]
    here = [rule for rule in every if rule[1].search(shown)]
    allowed = [pattern for scope, _, pattern, _ in here if scope == "allow"]
    some = re.compile("|".join(pattern.pattern for scope, _, pattern, _ in here if scope != "allow"), re.I)
    for number, code, comment in lines_of(path, kind):
        if not some.search(code + comment):
            continue
        text = comment
        for pattern in allowed:
            text = pattern.sub(" ", text)
            code = pattern.sub(" ", code)
        for scope, _, pattern, say in here:
            if scope == "text":
                for match in pattern.finditer(text):
                    yield number, match.group(0).strip(), say
            elif scope == "doc":
                match = re.match(r"\s*(?:///|--)\s*" + pattern.pattern, text, re.I)
                if match and (text.lstrip().startswith("///") or "/specs/" in shown) and is_first(path, number):
                    yield number, match.group(0).strip(), say
            elif scope in ("name", "code"):
                for match in IDENTIFIER.finditer(code):
                    word = match.group(0)
                    if scope == "code" and pattern.fullmatch(word) or scope == "name" and any(pattern.fullmatch(part) for part in parts_of(word)):
                        yield number, word, say


def is_first(path, number):
    """Whether no comment stands on the line before."""
    with open(path, encoding="utf-8", errors="replace") as file:
        lines = file.read().split("\n")
    return number < 2 or not lines[number - 2].lstrip().startswith(("///", "--"))


def main(paths):
    if not paths:
        known = subprocess.run(["git", "-C", TOP, "ls-files"], check=True, capture_output=True, text=True).stdout.split("\n")
        paths = [os.path.join(TOP, path) for path in known if path.endswith(KINDS)]
    every, count = list(rules()), 0
    for path in paths:
        shown = os.path.relpath(path, TOP)
        if os.path.exists(path) and not shown.startswith("checks/words."):
            for number, found, say in found_in(path, shown, every):
                print(f"{shown}:{number}: {found}: say {say}")
                count += 1
    if count:
        sys.exit(f"{count} words that the field says otherwise")


main(sys.argv[1:])
