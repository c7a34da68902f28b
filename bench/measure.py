#!/usr/bin/env python3
"""Runs `derive tables x86_64` on a folder, and prints what it took.

    bench/measure.py DERIVE FOLDER [RUNS]

DERIVE is the program. The folder has a file `layout`, objects `*.o`, and `sframe` where there are SFrame bytes, as
`bench/make_input.py` makes them. Of RUNS runs (three, if it isn't said) it prints the least processor time, in
seconds, with the time on the clock of that run, the greatest peak of memory, and this as a multiple of the input's bytes.
GNU time measures (the command `time`).
"""

import pathlib
import shutil
import subprocess
import sys
import tempfile


def run(arguments, report):
    """The processor's time, the time on the clock and the peak of memory, in bytes, of a run."""
    report.seek(0)
    report.truncate()
    with tempfile.NamedTemporaryFile("r") as taken:
        status = subprocess.call(["time", "-q", "-f", "%U %S %e %M", "-o", taken.name] + arguments, stdout=report)
        if status != 0:
            sys.exit(f"{arguments[0]} ended with status {status}")
        user, system, clock, peak = map(float, taken.read().split())
    return user + system, clock, 1024 * peak


def main(derive, folder, runs=3):
    if shutil.which("time") is None:
        sys.exit("no GNU time")
    folder = pathlib.Path(folder)
    layout, frames, objects = folder / "layout", folder / "sframe", sorted(folder.glob("*.o"))
    arguments = [derive, "tables", "x86_64", str(layout)]
    inputs = [layout] + objects
    if frames.exists():
        arguments += ["--sframe", str(frames)]
        inputs.append(frames)
    arguments += map(str, objects)
    size = sum(path.stat().st_size for path in inputs)
    with tempfile.TemporaryFile() as report:
        taken = [run(arguments, report) for _ in range(int(runs))]
        written = report.seek(0, 2)
    processor, clock, _ = min(taken)
    memory = max(peak for _, _, peak in taken)
    print(f"{folder.name}: {processor:.2f} s ({clock:.2f} s on the clock), "
          f"peak {memory / 2**20:.1f} MiB = {memory / size:.2f} times the input of {size / 2**20:.2f} MiB, "
          f"report {written / 2**20:.2f} MiB")


if len(sys.argv) not in (3, 4):
    sys.exit(__doc__)
main(*sys.argv[1:])
