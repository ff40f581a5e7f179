#!/usr/bin/env python3
"""How many instructions of the processor a row of `jvm run` takes, in programs of bench.py.

Usage: row_instructions.py [--jvm PROGRAM] [NAME ..]

Counted by valgrind's callgrind: a run of 400,000 turns less one of a single turn, with `--gc 0` and with `--gc 1`. These
counts are the same each time, where times move with the machine, so they tell what a change is worth (docs/SPEED.md).
Without a NAME the six that the machine was made quick for. PROGRAM is crates/jvm/out/jvm, which `rt run` builds, where nothing else
is said.
"""
import argparse
import re
import subprocess
import sys
import tempfile

import bench
from bench_programs import OURS, PROGRAMS

TURNS = 400_000
STEP_LIMIT = 4  # the status of a run that is ended by its limit of steps


def instructions(words, room):
    counted = ["valgrind", "--tool=callgrind", f"--callgrind-out-file={room}/counts", *words]
    done = subprocess.run(counted, stdout=subprocess.DEVNULL, stderr=subprocess.PIPE, check=False)
    if done.returncode != STEP_LIMIT:
        sys.exit(f"{' '.join(words)}: status {done.returncode}\n{done.stderr.decode(errors='replace')}")
    return int(re.search(r"Collected : (\d+)", done.stderr.decode(errors="replace"))[1])


def of_row(compiled, jvm, gc, room):
    words = [jvm, "run", "--gc", str(gc), "--small", "1000", "--steps"]
    few, many = (instructions([*words, str(turns), *compiled.classes], room) for turns in (1, TURNS))
    return (many - few) / (TURNS - 1)


def main():
    parser = argparse.ArgumentParser(description=__doc__.split("\n")[0])
    parser.add_argument("--jvm", default=bench.BUILT)
    parser.add_argument("names", nargs="*", metavar="NAME")
    options = parser.parse_args()
    for name in options.names or [name for name, program in PROGRAMS.items() if program.group == OURS]:
        with tempfile.TemporaryDirectory() as room:
            compiled = bench.Compiled(room, PROGRAMS[name], TURNS)
            ways = (1,) if name == "allocation" else (0, 1)
            told = ", ".join(f"--gc {gc} {of_row(compiled, options.jvm, gc, room):.1f}" for gc in ways)
        print(f"{name}: instructions a row: {told}", flush=True)
    return 0


if __name__ == "__main__":
    sys.exit(main())
