#!/usr/bin/env python3
"""Shows that no turn of `jvm run` asks for host memory: as many requests for 10 turns as for a million.

Usage: memory_requests.py [--jvm PROGRAM] [--gc N]

Valgrind counts the requests (malloc and the like) of whole runs of a program that never ends: it makes objects, drops them,
calls a method and stores what it gives. Ends with 1 if the counts differ.
PROGRAM is crates/jvm/out/jvm, which `rt run` builds, where nothing else is said.
"""
import argparse
import os
import re
import subprocess
import sys
import tempfile

BUILT = os.path.join(os.path.dirname(os.path.abspath(__file__)), "..", "crates", "jvm", "out", "jvm")
TURNS = (10, 1_000, 1_000_000)

TEXT = """.class public Busy
.super java/lang/Object
.field static kept Ljava/lang/Object;

.method static made(I)Ljava/lang/Object;
.limit stack 1
.limit locals 1
    new java/lang/Object
    areturn
.end method

.method public static main()V
.limit stack 1
.limit locals 0
Again:
    iconst_1
    invokestatic Busy/made(I)Ljava/lang/Object;
    putstatic Busy/kept Ljava/lang/Object;
    goto Again
.end method
"""


def requests(jvm, path, turns, gc):
    """How often a run of so many turns asks for memory, and how many turns it made."""
    words = [jvm, "run", "--gc", gc, "--steps", str(turns), path]
    done = subprocess.run(["valgrind", *words], stdout=subprocess.PIPE, stderr=subprocess.PIPE, check=False)
    told = done.stderr.decode(errors="replace")
    if done.returncode != 4 or "jvm: step limit" not in told:
        sys.exit(f"{' '.join(words)}: status {done.returncode}\n{told}")
    return int(re.search(r"total heap usage: ([\d,]+) allocs", told)[1].replace(",", ""))


def main():
    words = argparse.ArgumentParser(description=__doc__.split("\n")[0])
    words.add_argument("--jvm", default=BUILT)
    words.add_argument("--gc", default="7")
    given = words.parse_args()
    with tempfile.TemporaryDirectory() as room:
        path = os.path.join(room, "Busy.j")
        with open(path, "w", encoding="ascii") as file:
            file.write(TEXT)
        counts = [requests(os.path.abspath(given.jvm), path, turns, given.gc) for turns in TURNS]
    for turns, count in zip(TURNS, counts):
        print(f"{turns} turns: {count} requests")
    return 0 if len(set(counts)) == 1 else 1


if __name__ == "__main__":
    sys.exit(main())
