#!/usr/bin/env python3
"""Whether runs by several carriers replay from their journals.

    tools/carriers_replay.py [--jvm PATH] [--runs N] [--carriers N] [--options WORDS] [FILE ..]

Runs a program N times (a hundred where nothing is said) with several carriers (four), each time with a journal, which it
replays: output, lines and status are to be the same. Each journal has as many rows as its last line says, each of a worker
that it has, and the collector's rows are all of the last worker. Without files the program is one whose main starts four
threads that count under one monitor and make garbage on a small heap, and waits for them; each run prints 8000 and ends well,
since its garbage fits.

Then it runs the program once as a user who may start no thread: that is reported, and no journal is written.

Ends with status 1 where something differs; the last line has the rows of each worker, of all runs together.
"""
import argparse
import os
import resource
import subprocess
import sys
import tempfile
from collections import Counter

ROOT = os.path.join(os.path.dirname(os.path.abspath(__file__)), "..")
BUILT = os.path.join(ROOT, "crates", "jvm", "out", "jvm")
NOBODY = 65534

TEXT = """.class public Four
.super java/lang/Thread
.field static lock Ljava/lang/Object;
.field static count I
.field next LFour;

.method public run()V
.limit stack 3
.limit locals 3
    sipush 2000
    istore_1
Again:
    getstatic Four/lock Ljava/lang/Object;
    dup
    astore_2
    monitorenter
    getstatic Four/count I
    iconst_1
    iadd
    putstatic Four/count I
    aload_2
    monitorexit
    iload_1
    bipush 15
    iand
    ifne Next
    aload_0
    new Four
    putfield Four/next LFour;
    new java/lang/Object
    pop
Next:
    iinc 1 -1
    iload_1
    ifne Again
    return
.end method

.method public static main()V
.limit stack 2
.limit locals 4
    new java/lang/Object
    putstatic Four/lock Ljava/lang/Object;
%s
    getstatic Four/count I
    invokestatic vm/Sys/print(I)V
    return
.end method
"""
STARTS = "".join(f"    new Four\n    astore_{n}\n    aload_{n}\n    invokevirtual Four/start()V\n" for n in range(4))
JOINS = "".join(f"    aload_{n}\n    invokevirtual Four/join()V\n" for n in range(4))


def run(*words, **more):
    done = subprocess.run(words, stdout=subprocess.PIPE, stderr=subprocess.PIPE, timeout=600, **more)
    return done.stdout, done.stderr, done.returncode


def rows_of(journal, carriers):
    """The rows of each worker, or why the journal is wrong."""
    with open(journal, encoding="ascii") as file:
        lines = file.read().split("\n")
    if lines[3] != f"workers {carriers + 1}":
        return None, f"it has {lines[3]}"
    rows = [line.split(" ") for line in lines[4:-2]]
    if lines[-2] != f"end {len(rows)}":
        return None, f"it has {len(rows)} rows, and {lines[-2]}"
    wrong = [row for row in rows if (row[0] == "c") != (row[2] == str(carriers)) or int(row[2]) > carriers]
    return Counter(row[2] for row in rows), f"rows of the wrong worker: {wrong[:3]}" if wrong else None


def alone():
    """Takes away what a process needs to start a thread."""
    resource.setrlimit(resource.RLIMIT_NPROC, (0, 0))
    if os.getuid() == 0:
        os.setuid(NOBODY)


def without_threads(machine, files, room):
    """How a run that may start no thread differs from what is wanted, or nothing."""
    os.chmod(room, 0o777)
    journal = f"{room}/none"
    told = run(machine, "run", "--carriers", "2", "--journal", journal, *files, preexec_fn=alone)
    if told != (b"", b"jvm: no thread\n", 6):
        return f"without threads: {told}"
    return "without threads a journal is written" if os.path.exists(journal) else None


def replayed(machine, given, files, room, wanted):
    """The rows of each worker in all runs, how often each end was seen, and how many runs were wrong."""
    total, ends, failed, journal = Counter(), Counter(), 0, f"{room}/journal"
    for number in range(given.runs):
        told = run(machine, "run", "--carriers", str(given.carriers), "--journal", journal, *given.options.split(), *files)
        ends[told[2], told[1].decode().strip()] += 1
        rows, why = rows_of(journal, given.carriers)
        if not why and wanted and told != wanted:
            why = f"it ended with {told}"
        if not why and run(machine, "replay", journal, *files) != told:
            why = "its replay ends otherwise"
        if why:
            failed += 1
            print(f"run {number}: {why}")
        total += rows or Counter()
    return total, ends, failed


def main():
    words = argparse.ArgumentParser(description=__doc__.split("\n")[0])
    words.add_argument("--jvm", default=BUILT)
    words.add_argument("--runs", type=int, default=100)
    words.add_argument("--carriers", type=int, default=4)
    words.add_argument("--options", default="--small 300 --medium 0 --large 0")
    words.add_argument("files", nargs="*")
    given = words.parse_args()
    machine = os.path.abspath(given.jvm)
    with tempfile.TemporaryDirectory() as room:
        files = given.files or [f"{room}/Four.j"]
        if not given.files:
            with open(files[0], "w", encoding="ascii") as file:
                file.write(TEXT % (STARTS + JOINS))
        wanted = None if given.files else (b"8000\n", b"", 0)
        total, ends, failed = replayed(machine, given, files, room, wanted)
        why = without_threads(machine, files, room)
    for (status, line), times in ends.most_common():
        print(f"{times} runs ended with status {status} {line}")
    if why:
        print(why)
    print(f"{given.runs - failed} replayed, {failed} failed; rows by worker:", dict(sorted(total.items())))
    return 1 if failed or why else 0


if __name__ == "__main__":
    sys.exit(main())
