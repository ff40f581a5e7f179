#!/usr/bin/env python3
"""What whole runs of `jvm` take: start, loading, `asm` and `dis`, threads in turn, and replay, each with what is wanted.

Usage: whole_runs.py [--jvm PROGRAM] [--times N]

A figure is the least processor time of N runs (20), user's and system's together; memory is the most that one had in use.
Of turns and of replay, the time of a run of one turn is taken off. Speed by the bytecode is measured by bench.py, requests
for memory are counted by memory_requests.py.
PROGRAM is crates/jvm/out/jvm, which `rt run` builds, where nothing else is said.
"""
import argparse
import os
import resource
import subprocess
import sys
import tempfile

from bench import BUILT

HERE = os.path.dirname(os.path.abspath(__file__))
CLASSES, METHODS, TURNS = 256, 3_000, 4_000_000
DONE, LIMIT = 0, 4  # the statuses of a run that ends and of one that its limit of steps ends

LOOP = """    iconst_0
    istore_1
Again:
    iload_1
    iload_1
    iadd
    istore_1
    iinc 1 3
    goto Again
.end method
"""
LONE = ".class Lone\n.super java/lang/Object\n\n.method static main()V\n.limit stack 2\n.limit locals 2\n" + LOOP
PAIR = (
    """.class Pair
.super java/lang/Thread

.method <init>()V
.limit stack 1
.limit locals 1
    aload_0
    invokespecial java/lang/Thread/<init>()V
    return
.end method

.method public run()V
.limit stack 2
.limit locals 2
"""
    + LOOP
    + """
.method static main()V
.limit stack 2
.limit locals 2
    new Pair
    dup
    invokespecial Pair/<init>()V
    invokevirtual Pair/start()V
"""
    + LOOP
)


def spent(words, status=DONE):
    """The seconds of processor time of a command, which has to end with this status."""
    before = resource.getrusage(resource.RUSAGE_CHILDREN)
    done = subprocess.run(words, stdout=subprocess.DEVNULL, stderr=subprocess.DEVNULL, check=False)
    after = resource.getrusage(resource.RUSAGE_CHILDREN)
    if done.returncode != status:
        sys.exit(f"{' '.join(words[:8])}: status {done.returncode}")
    return after.ru_utime - before.ru_utime + after.ru_stime - before.ru_stime


def least(times, words, status=DONE):
    return min(spent(words, status) for _ in range(times))


def room_of(words):
    """The most bytes that a command had in use, as the program `time` tells it: of a process that Python begins the system
    counts Python's own size."""
    done = subprocess.run(["/usr/bin/time", "-f", "%M", *words], stdout=subprocess.DEVNULL, stderr=subprocess.PIPE, check=True)
    return 1024 * int(done.stderr.split()[-1])


def written(path, text):
    with open(path, "w", encoding="ascii") as file:
        file.write(text)
    return path


def start(jvm, times, _room):
    seconds = least(3 * times, [jvm, "run", f"{HERE}/../examples/hello.j"])
    print(f"jvm run examples/hello.j: {seconds * 1e3:.2f} ms (3 wanted)")


def loading(jvm, times, room):
    subprocess.run([sys.executable, f"{HERE}/classes.py", str(CLASSES), room], check=True)
    texts = [f"{room}/C{number:03d}.j" for number in range(CLASSES)]
    files = [f"{text[:-1]}class" for text in texts]
    for text, file in zip(texts, files):
        subprocess.run([jvm, "asm", text, file], check=True)
    for kind, sources in (("class files", files), ("texts", texts)):
        words = [jvm, "run", "--gc", "0", *sources]
        told = f"{least(times, words) * 1e3:.0f} ms (200 wanted), {room_of(words) / 2**20:.0f} MB"
        print(f"{CLASSES} classes of 250 methods from {kind}: {told}")


def assembling(jvm, times, room):
    lines = subprocess.check_output([sys.executable, f"{HERE}/texts.py", "methods", str(METHODS)], text=True)
    text, file = written(f"{room}/Large.j", lines), f"{room}/Large.class"
    for name, words in (("asm", [jvm, "asm", text, file]), ("dis", [jvm, "dis", file])):
        told = f"{least(times, words) * 1e3:.1f} ms (40 wanted), {room_of(words) / len(lines):.1f} times the text (12 wanted)"
        print(f"{name} of {lines.count(chr(10))} lines: {told}")


def turns(jvm, times, room):
    for name, text, wanted in (("one thread alone", LONE, ""), ("two threads in turn", PAIR, " (15 wanted)")):
        path = written(f"{room}/turns.j", text)
        one, many = (least(times, [jvm, "run", "--gc", "0", "--steps", str(n), path], LIMIT) for n in (1, TURNS))
        print(f"a turn of {name}: {(many - one) * 1e9 / (TURNS - 1):.1f} ns{wanted}")


def replaying(jvm, times, room):
    path = written(f"{room}/Lone.j", LONE)
    seconds = []
    for count in (1, TURNS):
        journal = f"{room}/{count}.journal"
        spent([jvm, "run", "--gc", "0", "--steps", str(count), "--journal", journal, path], LIMIT)
        seconds.append(least(times, [jvm, "replay", journal, path], LIMIT))
    print(f"a row replayed, with the reading of its text: {(seconds[1] - seconds[0]) * 1e9 / (TURNS - 1):.1f} ns")


def main():
    parser = argparse.ArgumentParser(description=__doc__.split("\n")[0])
    parser.add_argument("--jvm", default=BUILT)
    parser.add_argument("--times", type=int, default=20)
    options = parser.parse_args()
    with tempfile.TemporaryDirectory() as room:
        for figure in (start, loading, assembling, turns, replaying):
            figure(options.jvm, options.times, room)
    return 0


if __name__ == "__main__":
    sys.exit(main())
