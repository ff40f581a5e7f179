#!/usr/bin/env python3
"""How long a row takes with one carrier and with several, and how many rows the collector makes.

Usage: carriers_speed.py [--jvm PROGRAM] [--carriers N,..] [--times N] [--rows N] [NAME ..]

Runs programs of bench.py (the int loop and the allocation where none is named) that don't end before so many rows (four million
where nothing is said) are made. A figure is the time by the clock of such a run less that of one with a single row, each the
best of so many (five), over the rows, and over the threads' rows alone; the collector's rows are counted in the journals of as
many runs. One carrier makes the int loop without a collector and the allocation with one turn of it after each of the thread.
PROGRAM is crates/jvm/out/jvm, which `rt run` builds, where nothing else is said.
"""
import argparse
import os
import subprocess
import sys
import tempfile
import time

from bench import BUILT, Compiled
from bench_programs import PROGRAMS

ENDLESS = 2_000_000_000


def words_of(compiled, options, name, carriers, rows, *more):
    alone = ["--gc", str(int(name == "allocation"))] if carriers == 1 else []
    words = [options.jvm, "run", *alone, "--carriers", str(carriers), "--steps", str(rows), "--small", "1000"]
    return [*words, *more, *compiled.classes]


def timed(words):
    """The seconds that a command takes that has to end by the limit of steps."""
    before = time.monotonic()
    done = subprocess.run(words, stdout=subprocess.PIPE, stderr=subprocess.PIPE, check=False)
    after = time.monotonic()
    if done.stderr != b"jvm: step limit\n":
        sys.exit(f"{' '.join(words)}: status {done.returncode}, {done.stderr}")
    return after - before


def collected(words, journal):
    """Which part of a run's rows the collector makes."""
    timed(words)
    with open(journal, encoding="ascii") as file:
        actors = [line.split(" ", 1)[0] for line in file][4:-1]
    os.remove(journal)
    return actors.count("c") / len(actors)


def measure(compiled, options, name, carriers):
    rows = options.rows
    seconds = min(timed(words_of(compiled, options, name, carriers, rows)) for _ in range(options.times))
    start = min(timed(words_of(compiled, options, name, carriers, 1)) for _ in range(options.times))
    journal = os.path.join(compiled.folder, "rows.journal")
    words = words_of(compiled, options, name, carriers, rows, "--journal", journal)
    parts = sorted(collected(words, journal) for _ in range(options.times))
    each, part = (seconds - start) * 1e9 / rows, parts[len(parts) // 2]
    print(
        f"{name}, {carriers} carriers: {each:.0f} ns a row, {each / (1 - part):.0f} ns a row of a thread;"
        f" the collector makes {100 * part:.1f} % ({100 * parts[0]:.1f} to {100 * parts[-1]:.1f})",
        flush=True,
    )


def main():
    parser = argparse.ArgumentParser(description=__doc__.split("\n")[0])
    parser.add_argument("--jvm", default=BUILT)
    parser.add_argument("--carriers", default="1,2,4,8")
    parser.add_argument("--times", type=int, default=5)
    parser.add_argument("--rows", type=int, default=4_000_000)
    parser.add_argument("names", nargs="*", metavar="NAME", default=["int loop", "allocation"])
    options = parser.parse_args()
    for name in options.names:
        with tempfile.TemporaryDirectory() as room:
            compiled = Compiled(room, PROGRAMS[name], ENDLESS)
            for carriers in map(int, options.carriers.split(",")):
                measure(compiled, options, name, carriers)
    return 0


if __name__ == "__main__":
    sys.exit(main())
