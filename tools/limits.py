#!/usr/bin/env python3
"""Tries each limit of the machine at its value and one past it, at the program: what `jvm` prints and how it ends.

    tools/limits.py [--jvm PROGRAM] [NAME ..]

A row is a name, a command with its files, and what a terminal shows of it; where the row says so, a file that the command writes
too. All were worked out by hand from the limits of this machine (docs/DEFINITIONS.md, docs/CODES.md). NAME is a part of the names
of rows to be tried. The last line is 'N passed, M failed'. For run_examples.py, too.
"""
import argparse
import os
import subprocess
import sys
import tempfile

BUILT = os.path.join(os.path.dirname(os.path.abspath(__file__)), "..", "crates", "jvm", "out", "jvm")

GOOD = "status 0"
NO_MEMORY_LEFT = "jvm: thread 0 ended by java/lang/OutOfMemoryError\nstatus 1"
NO_FRAME_LEFT = "jvm: thread 0 ended by java/lang/StackOverflowError\nstatus 1"
STEP_LIMIT = "jvm: step limit\nstatus 4"
OUTPUT_LIMIT = "jvm: output limit\nstatus 4"
OPTIONS = "jvm: options\nstatus 7"
FEW = ["--small", "8", "--medium", "0", "--large", "0"]


# ---- programs

def text(name, body, above="java/lang/Object"):
    """The text of a class."""
    return f".class public {name}\n.super {above}\n{body}"


def method(head, stack, locals_, code):
    """A method; a bar ends a line of its code."""
    return f".method {head}\n.limit stack {stack}\n.limit locals {locals_}\n" + code.replace("|", "\n") + "\n.end method\n"


def main_of(code, stack=2, locals_=2):
    """A class M with a main."""
    return [text("M", method("static main()V", stack, locals_, code))]


def fields(count, first=0):
    return "".join(f".field x{number} I\n" for number in range(first, first + count))


def classes(count):
    """A main and so many classes with it, each over the one before."""
    texts = main_of("return")
    return texts + [text(f"C{number}", "", f"C{number - 1}" if number > 1 else "M") for number in range(1, count)]


def wide(*counts):
    """A main that makes an object of a class whose fields are so many in it and so many in each class above it."""
    texts = main_of(f"new C{len(counts) - 1}|pop|return")
    above = ["java/lang/Object", *(f"C{number}" for number in range(len(counts)))]
    return texts + [text(f"C{number}", fields(count), above[number]) for number, count in enumerate(counts)]


def starting(count):
    """A main that starts so many threads, each of which ends at once."""
    code = f"bipush {count}|istore_0|Top:|new T|invokevirtual T/start()V|iinc 0 -1|iload_0|ifne Top|return"
    return main_of(code) + [text("T", "", "java/lang/Thread")]


def deep(calls):
    """A main whose static method calls itself so often, from below its first frame."""
    code = f"sipush {calls}|invokestatic M/f(I)V|return"
    again = "iload_0|ifeq End|iload_0|iconst_1|isub|invokestatic M/f(I)V|End:|return"
    return [text("M", method("static main()V", 1, 0, code) + method("static f(I)V", 2, 1, again))]


def two_frames(main, called):
    """A main of so many units that calls a method of so many."""
    code = method("static main()V", 0, main, "invokestatic M/f()V|return") + method("static f()V", 0, called, "return")
    return [text("M", code)]


def initialised(classes_, main=0, own=0):
    """A main of so many units, and so many classes to be initialised before it, each in so many units."""
    first = method("static <clinit>()V", 0, own, "return")
    texts = [text("M", first + method("static main()V", 0, main, "return"), "C1" if classes_ > 1 else "java/lang/Object")]
    return texts + [text(f"C{number}", first, f"C{number + 1}" if number + 1 < classes_ else "java/lang/Object")
                    for number in range(1, classes_)]


def array(length, element="int"):
    return main_of(f"sipush {length}|newarray {element}|arraylength|invokestatic vm/Sys/print(I)V|return")


def turning(turns):
    """A main that ends with the turn of this number: a loop of three turns, with 0 to 2 nops before it."""
    rounds, left = divmod(turns - 3, 3)
    return main_of(f"{'nop|' * left}ldc {rounds}|istore_0|Top:|iinc 0 -1|iload_0|ifne Top|return")


def printing(count):
    """A main that prints a byte so many times."""
    return main_of(f"ldc {count}|istore_0|Top:|bipush 65|invokestatic vm/Sys/putc(I)V|iinc 0 -1|iload_0|ifne Top|return")


def entering(times, exits):
    """A main that enters one monitor so many times, and leaves it as often as it is told."""
    loop = "{0}:|aload_1|monitor{1}|iinc 0 -1|iload_0|ifne {0}"
    code = f"new java/lang/Object|astore_1|ldc {times}|istore_0|{loop.format('Enter', 'enter')}"
    if exits:
        code += f"|ldc {exits}|istore_0|{loop.format('Exit', 'exit')}"
    return main_of(code + "|return")


def locked(times):
    """A main that enters the monitor of an object so many times, and then calls a synchronized method of it."""
    code = f"new M|astore_1|ldc {times}|istore_0|Top:|aload_1|monitorenter|iinc 0 -1|iload_0|ifne Top"
    code += "|aload_1|invokevirtual M/f()V|return"
    return [text("M", method("static main()V", 2, 2, code) + method("synchronized f()V", 0, 1, "return"))]


# ---- rows: name, options or another command, texts, what is shown, and what is at the end of the journal

def shape(small, medium, large):
    return ["--small", str(small), "--medium", str(medium), "--large", str(large)]


def rows_of_loading():
    yield "256 classes", [], classes(256), GOOD
    yield "257 classes", [], classes(257), "jvm: load: L8 in class C256\nstatus 2"
    yield "256 fields", shape(2, 0, 1), wide(256), GOOD
    yield "257 fields", shape(2, 0, 1), wide(257), "jvm: load: L8 in class C0\nstatus 2"
    yield "256 fields, of which 255 are inherited", shape(2, 0, 1), wide(200, 55, 1), GOOD
    yield "257 fields, of which 255 are inherited", shape(2, 0, 1), wide(200, 55, 2), "jvm: load: L8 in class C2\nstatus 2"
    yield "a method of 4,096 units", [], main_of("return", 4000, 96), GOOD
    yield "a method of 4,097 units", [], main_of("return", 4000, 97), "jvm: load: L8 in class M\nstatus 2"


def rows_of_frames():
    yield "256 frames", [], deep(254), GOOD
    yield "257 frames", [], deep(255), NO_FRAME_LEFT
    yield "4,096 units in two frames", [], two_frames(1, 4095), GOOD
    yield "4,097 units in two frames", [], two_frames(2, 4095), NO_FRAME_LEFT
    yield "256 frames to open with", [], initialised(255), GOOD
    yield "257 frames to open with", [], initialised(256), "jvm: world: P4\nstatus 2"
    yield "4,096 units to open with", [], initialised(1, 4090, 6), GOOD
    yield "4,097 units to open with", [], initialised(1, 4090, 7), "jvm: world: P4\nstatus 2"
    yield "64 threads", shape(66, 0, 0), starting(63), GOOD
    yield "65 threads", shape(66, 0, 0), starting(64), "jvm: fault F8 in thread 0\nstatus 3"


def rows_of_heaps():
    p1 = "jvm: world: P1\nstatus 2"
    yield "65,535 cells", shape(65_535, 0, 0), main_of("return"), GOOD
    yield "65,536 cells", shape(65_536, 0, 0), main_of("return"), p1
    yield "65,535 cells of three sizes", shape(65_000, 500, 35), main_of("return"), GOOD
    yield "65,536 cells of three sizes", shape(65_000, 500, 36), main_of("return"), p1
    yield "1,048,576 words", shape(0, 0, 4096), main_of("return"), GOOD
    yield "1,048,580 words", shape(1, 0, 4096), main_of("return"), p1
    yield "1,048,576 words of three sizes", shape(64, 24, 4092), main_of("return"), GOOD
    yield "1,048,580 words of three sizes", shape(65, 24, 4092), main_of("return"), p1
    yield "1,048,608 words, of two sizes", shape(0, 1, 4096), main_of("return"), p1
    yield "1,048,832 words", shape(0, 0, 4097), main_of("return"), p1
    yield "more cells than count", shape(4_294_967_295, 4_294_967_295, 4_294_967_295), main_of("return"), p1
    yield "two cells", shape(0, 1, 1), main_of("return"), GOOD
    yield "one cell", shape(0, 0, 1), main_of("return"), p1
    yield "an array of 4 in a small cell", shape(3, 0, 0), array(4), f"4\n{GOOD}"
    yield "an array of 5 in a small cell", shape(3, 0, 0), array(5), NO_MEMORY_LEFT
    yield "an array of 32 in a medium cell", shape(2, 1, 0), array(32, "byte"), f"32\n{GOOD}"
    yield "an array of 33 in a medium cell", shape(2, 1, 0), array(33, "byte"), NO_MEMORY_LEFT
    yield "an array of 256 in a large cell", shape(2, 0, 1), array(256, "long"), f"256\n{GOOD}"
    yield "an array of 257 in a large cell", shape(2, 0, 1), array(257, "long"), NO_MEMORY_LEFT
    yield "an object where both errors take the last cells", shape(2, 0, 0), main_of("new java/lang/Object|pop|return"), NO_MEMORY_LEFT
    yield "an object in the last cell", shape(3, 0, 0), main_of("new java/lang/Object|pop|return"), GOOD


def rows_of_turns():
    most, full = ["--steps", "16777215"], ["--output", "1048576"]
    p2 = "jvm: world: P2\nstatus 2"
    yield "16,777,215 turns", [*most, "--gc", "0"], turning(16_777_215), GOOD, "end 16777215\n"
    yield "16,777,216 turns", [*most, "--gc", "0"], turning(16_777_216), STEP_LIMIT, "end 16777215\n"
    yield "a limit of 16,777,216 turns", ["--steps", "16777216"], main_of("return"), p2
    yield "as many turns as the limit", ["--steps", "7", "--gc", "0"], main_of("nop|" * 6 + "return"), GOOD, "0 d 0\nend 7\n"
    yield "a turn more than the limit", ["--steps", "7", "--gc", "0"], main_of("nop|" * 7 + "return"), STEP_LIMIT, "0 d 0\nend 7\n"
    yield "a limit of one turn", ["--steps", "1"], main_of("return"), GOOD, "\n0 d 0\nend 1\n"
    yield "a limit of no turn", ["--steps", "0"], main_of("return"), p2
    yield "1,048,576 bytes of output", [*full, *most, "--gc", "0"], printing(1_048_576), "A" * 1_048_576 + GOOD
    yield "1,048,577 bytes of output", [*full, *most, "--gc", "0"], printing(1_048_577), "A" * 1_048_576 + OUTPUT_LIMIT
    yield "a limit of 1,048,577 bytes", ["--output", "1048577"], main_of("return"), p2
    yield "a limit of no byte", ["--output", "0"], main_of("return"), GOOD
    yield "a byte where there is room for none", ["--output", "0"], printing(1), OUTPUT_LIMIT
    yield "65,535 entries into a monitor, and as many exits", ["--gc", "0", *FEW], entering(65_535, 65_535), GOOD
    yield "65,536 entries into a monitor", ["--gc", "0", *FEW], entering(65_536, 0), "jvm: fault F10 in thread 0\nstatus 3"
    yield "an exit more than entries", ["--gc", "0", *FEW], entering(1, 2), (
        "jvm: thread 0 ended by java/lang/IllegalMonitorStateException\nstatus 1")
    yield "a synchronized call as the 65,535th entry", ["--gc", "0", *FEW], locked(65_534), GOOD
    yield "a synchronized call as the 65,536th entry", ["--gc", "0", *FEW], locked(65_535), "jvm: fault F10 in thread 0\nstatus 3"


def rows_of_options():
    yield "8 carriers", ["--carriers", "8"], main_of("return"), GOOD
    yield "9 carriers", ["--carriers", "9"], main_of("return"), OPTIONS
    yield "no carrier", ["--carriers", "0"], main_of("return"), OPTIONS
    yield "1,000 turns of the collector", ["--gc", "1000"], main_of("nop|return"), GOOD, "\nc d 0\n0 d 0\nend 1002\n"
    yield "1,001 turns of the collector", ["--gc", "1001"], main_of("return"), OPTIONS


def all_rows():
    for rows in (rows_of_loading, rows_of_frames, rows_of_heaps, rows_of_turns, rows_of_options):
        yield from rows()


# ---- trying them

def shown(words):
    """What a terminal shows of a command: its output, its lines of standard error, and its status."""
    done = subprocess.run(words, stdout=subprocess.PIPE, stderr=subprocess.PIPE, timeout=120, check=False)
    return (done.stdout + done.stderr).decode("latin-1") + f"status {done.returncode}"


def end_of(path):
    """The last bytes of a file."""
    with open(path, "rb") as file:
        file.seek(max(0, os.path.getsize(path) - 100))
        return file.read().decode("ascii")


def shortly(said):
    return said if len(said) < 200 else f"{said[:40]!r} .. {said[-100:]!r}, {len(said)} bytes"


def tried(jvm, room, options, texts, wanted, end=None):
    """What is wrong with a row, or nothing."""
    files = [f"{room}/limit{number}.j" for number in range(len(texts))]
    for path, it in zip(files, texts):
        with open(path, "w", encoding="ascii") as file:
            file.write(it)
    journal = f"{room}/limit.journal"
    said = shown([jvm, "run", *options, *(["--journal", journal] if end else []), *files])
    if said != wanted:
        return shortly(said)
    if end and not end_of(journal).endswith(end):
        return f"the journal ends in {end_of(journal)!r}"
    return None


def tried_limits(jvm, room):
    """What was tried of the limits, each with what is wrong, or nothing."""
    for name, *row in all_rows():
        yield f"limit: {name}", tried(jvm, room, *row)


def main():
    words = argparse.ArgumentParser(description=__doc__.split("\n", maxsplit=1)[0])
    words.add_argument("--jvm", default=BUILT)
    words.add_argument("names", nargs="*")
    given = words.parse_args()
    passed = failed = 0
    with tempfile.TemporaryDirectory() as room:
        for name, *row in all_rows():
            if given.names and not any(it in name for it in given.names):
                continue
            why = tried(os.path.abspath(given.jvm), room, *row)
            passed, failed = passed + (not why), failed + bool(why)
            if why:
                print(f"limit: {name}: {why}")
    print(f"{passed} passed, {failed} failed")
    return 1 if failed else 0


if __name__ == "__main__":
    sys.exit(main())
