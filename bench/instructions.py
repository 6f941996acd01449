#!/usr/bin/env python3
"""Prints the instructions of two archives of the library, one before and one now, on each load of the benchmark.

usage: instructions.py BEFORE NOW: each a libexhash.a, or the directory that has it. Builds rust/bench with each, under
target/. Callgrind counts what is done inside the calls of the C interface and nothing else, so the same archives give
the same numbers each time. Needs cargo and Debian's valgrind.
"""
import os
import re
import shutil
import subprocess
import sys
import tempfile
from pathlib import Path

REPOSITORY = Path(__file__).resolve().parent.parent
# The calls that the loads make.
CALLS = ["exh_feed", "exh_compare", "exh_newer"]


def build(side, archive, program):
    """Builds the benchmark with an archive, and copies it to its place."""
    target = REPOSITORY / "target" / f"bench-{side}"
    environment = {**os.environ, "EXHASH_LIB": str(archive), "CARGO_TARGET_DIR": str(target)}
    command = ["cargo", "build", "--offline", "--quiet", "--release", "-p", "bench"]
    subprocess.run(command, cwd=REPOSITORY / "rust", env=environment, check=True)
    shutil.copy(target / "release" / "bench", program)


def count(valgrind, program, name):
    """The instructions of one round of a load, how many of its unit it has, and the unit."""
    toggles = [f"--toggle-collect={call}" for call in CALLS]
    command = [valgrind, "--tool=callgrind", "--callgrind-out-file=/dev/null", *toggles, program, "once", name]
    # How memcpy goes about its work depends on where its bytes stand, and the stack begins below the program's path and
    # environment: the one is always as long, the other empty.
    done = subprocess.run(command, env={}, capture_output=True, text=True)
    collected = re.search(r"Collected : (\d+)", done.stderr)
    if done.returncode != 0 or not collected or int(collected[1]) == 0:
        sys.exit(f"{name}: nothing was counted\n{done.stderr}")
    divisor, unit = done.stdout.split()
    return int(collected[1]), int(divisor), unit


def print_table(valgrind, before, now):
    names = subprocess.run([now, "names"], check=True, capture_output=True, text=True).stdout.splitlines()
    print("| instructions a record, unless said otherwise | before | now | now / before |")
    print("|---|---|---|---|")
    ratios = {}
    for name in names:
        old, divisor, unit = count(valgrind, before, name)
        new, _, _ = count(valgrind, now, name)
        ratios[name] = new / old
        title = name if unit == "record" else f"{name} (a {unit})"
        print(f"| {title} | {old / divisor:.1f} | {new / divisor:.1f} | {new / old:.4f} |", flush=True)
    worst = max(ratios, key=ratios.get)
    print(f"\nThe largest ratio is {ratios[worst]:.4f}: {worst}.")


def main():
    if len(sys.argv) != 3:
        print("usage: instructions.py BEFORE NOW, two archives of the library", file=sys.stderr)
        return 2
    valgrind = shutil.which("valgrind")
    if not valgrind:
        print("valgrind is missing: install Debian's package, apt-get install valgrind", file=sys.stderr)
        return 2
    archives = [Path(archive).resolve() for archive in sys.argv[1:]]
    with tempfile.TemporaryDirectory(dir="/tmp") as directory:
        programs = [Path(directory) / name for name in ["bench-1", "bench-2"]]
        for side, archive, program in zip(["before", "now"], archives, programs):
            build(side, archive, program)
        print_table(valgrind, *programs)
    return 0


if __name__ == "__main__":
    sys.exit(main())
