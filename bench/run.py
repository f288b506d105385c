#!/usr/bin/env python3
"""Measures the built program on the inputs of `inputs.py`, and prints a table.

Run `rt run < stdin` in crates/zarr first, which leaves the program at crates/zarr/out/zarr, and in the folders of the other
programs; then `python3 bench/run.py`. With `--instructions` and valgrind the small cases are counted too, which takes some minutes;
`--only WORD` takes the cases whose names have the word. A case whose program is not there is left out.
"""

import argparse
import os
import re
import shutil
import subprocess
import sys
import tempfile
import time
from pathlib import Path

from inputs import cases

HERE = Path(__file__).resolve().parent
CRATES = HERE.parent / "crates"
COUNTED_BYTES = 9 << 20
RUNS = 5


def measure(program, path):
    """The least wall time of some runs in seconds, and the greatest resident memory in MiB."""
    best, peak = None, 0
    for _ in range(RUNS):
        with open(path, "rb") as source:
            start = time.monotonic()
            child = subprocess.Popen([program], stdin=source, stdout=subprocess.DEVNULL)
            _, status, usage = os.wait4(child.pid, 0)
            took = time.monotonic() - start
        if os.waitstatus_to_exitcode(status) != 0:
            sys.exit(f"{program}: ended with {status}")
        best = took if best is None else min(best, took)
        peak = max(peak, usage.ru_maxrss / 1024)
    return best, peak


def instructions(program, path):
    """How many instructions a run takes, in millions."""
    with open(path, "rb") as source:
        run = subprocess.run(
            ["valgrind", "--tool=callgrind", "--callgrind-out-file=/dev/null", program],
            stdin=source,
            stdout=subprocess.DEVNULL,
            stderr=subprocess.PIPE,
            text=True,
            check=True,
        )
    return int(re.search(r"Collected : (\d+)", run.stderr).group(1)) / 1e6


def main():
    options = argparse.ArgumentParser(description=__doc__, formatter_class=argparse.RawTextHelpFormatter)
    options.add_argument("--crates", default=str(CRATES), help="the folder that the programs stand in")
    options.add_argument("--only", default="", help="takes the cases whose names have this")
    options.add_argument("--instructions", action="store_true")
    options = options.parse_args()
    counts = options.instructions and shutil.which("valgrind") is not None
    print("| Case | Input | Time | To the one before | Peak memory |" + (" Instructions |" if counts else ""))
    print("|---|---|---|---|---|" + ("---|" if counts else ""))
    before = (None, None)
    with tempfile.TemporaryDirectory() as folder:
        path = os.path.join(folder, "input")
        for number, (group, name, _, *other) in enumerate(cases()):
            which = other[0] if other else "zarr"
            program = os.path.join(options.crates, which, "out", which)
            if options.only not in name or not os.path.exists(program):
                continue
            # Another process makes the input: a child's peak memory begins with that of its parent.
            with open(path, "wb") as out:
                subprocess.run([sys.executable, HERE / "inputs.py", str(number)], stdout=out, check=True)
            size = os.path.getsize(path)
            took, peak = measure(program, path)
            ratio = f"{took / before[1]:.2f}" if before[0] == group and group != "read" else ""
            row = f"| {name} | {size / 2**20:.1f} MiB | {took * 1000:.0f} ms | {ratio} | {peak:.0f} MiB |"
            if counts:
                row += f" {instructions(program, path):,.0f} million |" if size <= COUNTED_BYTES else " |"
            print(row, flush=True)
            before = (group, took)


if __name__ == "__main__":
    main()
