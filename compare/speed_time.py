#!/usr/bin/env python3
"""Times the operations of speed.sh, the port's and crate pdb 0.8.0's, and prints a table of nanoseconds a record.

    speed_time.py SPEED

SPEED is the program speed that build.sh made; the port's is crates/measure/out/measure, which `rt ci` makes, or `rt run` there. Of each operation the clock of the
quickest of fifteen runs is taken, less that of a tenth of the turns, so that starting and reading the input are not in it. The two programs take turns,
since a machine that others share is now quick and now slow. Nothing else should run beside it.
"""
import subprocess
import sys
import time
from pathlib import Path

ROOT = Path(__file__).resolve().parent.parent
MEASURE = ROOT / "crates/measure/out/measure"
TYPES, IDS = ROOT / "samples/gen400-x64.tpi", ROOT / "samples/rich-x64.ipi"

RUNS = 15

# The operation, its stream, and how often the whole stream is done.
OPERATIONS = [
    ("walk", TYPES, 20000),
    ("index", TYPES, 20000),
    ("find", TYPES, 10000),
    ("parse", TYPES, 5000),
    ("elements", TYPES, 2000),
    ("parseids", IDS, 200000),
]


def records(stream):
    head = stream.read_bytes()[:16]
    return int.from_bytes(head[12:16], "little") - int.from_bytes(head[8:12], "little")


def clock(program, operation, turns, stream):
    with stream.open("rb") as data:
        began = time.perf_counter()
        subprocess.run([program, operation, str(turns)], stdin=data, stdout=subprocess.DEVNULL, check=True)
        return time.perf_counter() - began


def nanoseconds(programs, operation, turns, stream):
    """Of each program, what a record takes."""
    few = turns // 10
    runs = [(program, n) for program in programs for n in (turns, few)]
    least = {}
    for _ in range(RUNS):
        for run in runs:
            took = clock(run[0], operation, run[1], stream)
            least[run] = min(took, least.get(run, took))
    return [(least[program, turns] - least[program, few]) * 1e9 / ((turns - few) * records(stream)) for program in programs]


def main():
    if len(sys.argv) != 2:
        sys.exit("usage: speed_time.py SPEED")
    print("| operation | port | crate | port / crate |")
    print("|---|---|---|---|")
    for operation, stream, turns in OPERATIONS:
        port, crate = nanoseconds([MEASURE, sys.argv[1]], operation, turns, stream)
        print(f"| {operation}, {stream.name} | {port:.1f} | {crate:.1f} | {port / crate:.2f} |", flush=True)


if __name__ == "__main__":
    main()
