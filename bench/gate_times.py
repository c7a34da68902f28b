#!/usr/bin/env python3
"""Measures what the gate spends on each crate: `bench/gate_times.py [CRATE ..]`, all crates if none is named.

It prints a markdown table of processor seconds (user and system, all processes) of `rt ci CRATE` where the crates below are proved: the
crate's own proof (of a crate of tests, their proof and runs), its edits, which begin with another proof of the crate, and their sum; then
the longest chain of proofs by crates.txt. As many runs go on at once as there are processors. Each is from nothing: the crates are
copied, and a comment with the time stands at the end of each root file, so that nothing fits that an earlier run kept. The table has the
named crates and those below them. LOGS=FOLDER keeps the logs.
"""
import os
import shutil
import subprocess
import sys
import tempfile
import time

TOP = os.path.dirname(os.path.dirname(os.path.abspath(__file__)))


def read_crates():
    """Returns the crates of crates.txt, each with those that it stands on."""
    lines = [line.split("#")[0] for line in open(os.path.join(TOP, "crates.txt"))]
    return {name.strip(): below.split() for name, _, below in (line.partition(":") for line in lines if ":" in line)}


def named_and_below(crates, names):
    """Returns the named crates and all below them."""
    found = []

    def add(name):
        if name in crates and name not in found:
            for below in crates[name]:
                add(below)
            found.append(name)

    for name in names or crates:
        if name not in crates:
            sys.exit(f"crates.txt has no crate {name}")
        add(name)
    return found


def edits_of(name):
    """Returns the folder of a crate's edits, or None."""
    folder = os.path.join(TOP, "crates", name, "must-fail")
    return folder if os.path.isdir(folder) else None


def copy_of_the_crates(folder):
    """Copies the repository's crates without their edits, with a comment with the time at the end of each root file."""
    os.makedirs(folder)
    for file in ("crates.txt", "HANDLES"):
        shutil.copy(os.path.join(TOP, file), folder)
    shutil.copytree(os.path.join(TOP, "crates"), os.path.join(folder, "crates"), ignore=shutil.ignore_patterns("out", "must-fail"))
    for name in os.listdir(os.path.join(folder, "crates")):
        for root in ("lib.rt", "main.rt"):
            path = os.path.join(folder, "crates", name, "src", root)
            if os.path.exists(path):
                with open(path, "a") as file:
                    file.write(f"// measured {time.time_ns()}\n")


def start(work, logs, task):
    """Starts `rt ci` of a crate: of the copy without edits, or of a copy with this crate's edits alone."""
    name, kind = task
    folder = os.path.join(work, "plain")
    if kind == "edits":
        folder = os.path.join(work, f"edits_{name}")
        shutil.copytree(os.path.join(work, "plain"), folder, ignore=shutil.ignore_patterns("out"))
        shutil.copytree(edits_of(name), os.path.join(folder, "crates", name, "must-fail"))
    log = open(os.path.join(logs, f"{name}.{kind}"), "w")
    return subprocess.Popen(["rt", "ci", name], cwd=folder, stdout=log, stderr=subprocess.STDOUT)


def measure(work, logs, crates, names):
    """Returns the processor seconds of each task, a pair of a crate and `own` or `edits`."""
    waiting = [(name, "own") for name in names] + [(name, "edits") for name in names if edits_of(name)]
    seconds, running = {}, {}
    while waiting or running:
        for task in list(waiting):
            name, kind = task
            below = [(other, "own") for other in crates[name] if other in names] + [(name, "own")] * (kind == "edits")
            if len(running) < os.cpu_count() and all(other in seconds for other in below):
                waiting.remove(task)
                running[start(work, logs, task).pid] = task
        pid, status, used = os.wait4(-1, 0)
        task = running.pop(pid)
        if status != 0:
            sys.exit("rt ci failed: " + os.path.join(logs, ".".join(task)))
        seconds[task] = used.ru_utime + used.ru_stime
        print(f"{task[0]} {task[1]} {seconds[task]:.0f}", file=sys.stderr, flush=True)
    return seconds


def longest_chain(crates, names, seconds):
    """Returns the longest chain of proofs, with its seconds."""
    chains = {}
    for name in names:
        before = max((chains[below] for below in crates[name] if below in chains), default=(0, []))
        chains[name] = (before[0] + seconds[name, "own"], before[1] + [name])
    return max(chains.values())


def print_table(crates, names, seconds):
    rows = [(name, seconds[name, "own"], seconds.get((name, "edits"), 0)) for name in names]
    print("| Crate | Proof | Edits | Sum |\n|---|--:|--:|--:|")
    for name, own, edits in sorted(rows, key=lambda row: -row[1] - row[2]):
        print(f"| `{name}` | {own:.0f} | {edits:.0f} | {own + edits:.0f} |")
    own, edits = sum(row[1] for row in rows), sum(row[2] for row in rows)
    print(f"| all | {own:.0f} | {edits:.0f} | {own + edits:.0f} |")
    length, chain = longest_chain(crates, names, seconds)
    print(f"\nThe longest chain of proofs: {', '.join(f'`{name}`' for name in chain)}, {length:.0f} s.")


def main(arguments):
    crates = read_crates()
    names = named_and_below(crates, arguments)
    with tempfile.TemporaryDirectory() as work:
        logs = os.environ.get("LOGS") or os.path.join(work, "logs")
        os.makedirs(logs, exist_ok=True)
        copy_of_the_crates(os.path.join(work, "plain"))
        print_table(crates, names, measure(work, logs, crates, names))


main(sys.argv[1:])
