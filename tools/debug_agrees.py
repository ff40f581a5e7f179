#!/usr/bin/env python3
"""Compares `jvm debug` with a plain debugger on sessions that it makes up.

    tools/debug_agrees.py [--jvm PROGRAM] [--sessions N] [--seed N] [--show]

The plain debugger (tools/plain/) is a whole machine in Python: it reads class files, runs every instruction, initialises classes,
has cells, colours and the collector's phases, and picks threads. So each answer of each command is compared, byte for byte, and
how a session ends: turns, faults and limits, `run` with breakpoints, frames, objects, cells, classes, lines that are no commands.

The programs are those of examples/ that have a .out, the class files of examples/java, and a few that fault; each session has a
heap, limits and commands of its own, drawn from the seed. Besides, `run 1000000` has to print what `jvm run` prints within 20000 turns.
It doesn't cover failing reads and writes, want of memory, and more turns than Python has time for: a session makes some thousand.
PROGRAM is crates/jvm/out/jvm where nothing else is said. The last line is 'N passed, M failed'.
"""
import argparse
import glob
import os
import random
import subprocess
import sys
import tempfile

from plain.programs import class_file_of
from plain.run_classes import class_of
from plain.debugger import Debugger
from plain.machine import World
from sessions import sessions

ROOT = os.path.join(os.path.dirname(os.path.abspath(__file__)), "..")
EXAMPLES = os.path.join(ROOT, "examples")
BUILT = os.path.join(ROOT, "crates", "jvm", "out", "jvm")
OTHERS = {"Square": ["Shape"]}
SESSIONS, SEED = 1000, 21
# as many turns as a session may make
TURNS = 2500
# room for what the class files of examples/java make
ROOM = ["--small", "2000", "--medium", "400", "--large", "100", "--steps", "20000"]
# what else stands in lines
NOISE = [" ", "  ", "0", "-", "\t", "\r", ".", "x", "\x00", "\x80", "\xff", "/", "(", "[", ";", "99999999999"]


def programs(room):
    """The programs, each as a name and its files."""
    for out in sorted(glob.glob(f"{EXAMPLES}/*.out")):
        name = os.path.basename(out).removesuffix(".out")
        yield name, [f"{EXAMPLES}/{it}.j" for it in [name, *OTHERS.get(name, [])]]
    for out in sorted(glob.glob(f"{EXAMPLES}/java/*.out")):
        name = out.removesuffix(".out")
        yield f"java/{os.path.basename(name)}", [f"{name}.class", *sorted(glob.glob(f"{name}$*.class"))]
    yield from programs_of_sessions(room)


def programs_of_sessions(room):
    """The programs of the debugger's own sessions: faults, threads, initializers."""
    for number, (name, steps) in enumerate(it for it in sessions() if it[0].startswith("debugged: ")):
        texts = [(line.removeprefix("-- "), lines) for line, lines in steps if line.startswith("-- ") and line.endswith(".j")]
        if len(dict(texts)) < len(texts) or any("goto X" in lines for _, lines in texts):
            continue
        files = [f"{room}/{number}{path}" for path, _ in texts]
        for path, (_, lines) in zip(files, texts):
            with open(path, "w", encoding="ascii") as file:
                file.write("\n".join(lines) + "\n")
        yield name[:40], files


def classes_of(files):
    """The classes of a program, as the plain machine reads them."""
    for path in files:
        with open(path, "rb") as file:
            data = file.read()
        yield class_of(data if data.startswith(b"\xca\xfe\xba\xbe") else class_file_of(data))


class Made:
    """A session that is made up, line by line, with what the plain debugger answers."""

    def __init__(self, dice, classes):
        self.dice = dice
        small, medium, large = dice.choice([(64, 16, 4), (12, 4, 1), (6, 2, 1), (5, 0, 0), (200, 40, 10), (2000, 400, 4)])
        steps, output = dice.choice([1_000_000] * 6 + [7, 60, 800]), dice.choice([65_536] * 6 + [0, 5, 40])
        self.options = [f"--{word}={n}" for word, n in
                        (("small", small), ("medium", medium), ("large", large), ("steps", steps), ("output", output))]
        self.plain = Debugger(World(classes, (small, medium, large), steps, output))
        self.world, self.lines, self.answers = self.plain.world, [], []
        self.methods = [m for it in classes for m in it.methods]
        for _ in range(dice.randint(3, 40)):
            self.say(self.line())
        self.ends = dice.choice([b"quit\n", b"quit", b"quit\ngc\n", b"", b""])
        if not self.ends and self.lines and self.lines[-1]:
            self.cut = dice.random() < 0.5
        else:
            self.cut = False

    def say(self, line):
        if line != b"quit":
            self.lines.append(line)
            self.answers.append(self.plain.answer(line))

    def typed(self):
        text = b"".join(line + b"\n" for line in self.lines) + self.ends
        return text[:-1] if self.cut else text

    def line(self):
        """A line: one time in eight something is wrong with it."""
        text = self.command()
        for _ in range(self.dice.choice([0] * 14 + [1, 2])):
            at = self.dice.randint(0, len(text))
            text = text[:at] + self.dice.choice(NOISE) + text[at + self.dice.randint(0, 1):]
        if self.dice.random() < 0.01:
            text += "x" * self.dice.randint(190, 210)
        return text.replace("\n", "").encode("latin-1")

    def command(self):
        return self.dice.choice([self.turn, self.turn, self.turn, self.run, self.run, self.stack, self.stack, self.object,
                                 self.object, self.heap, self.class_, self.break_, self.break_, self.delete])()

    def thread(self):
        return self.dice.choice([0, 0, 1, 1, 2, self.world.pick() or 0, len(self.world.threads), 255, 256])

    def turn(self):
        return self.dice.choice(["gc", "gc", f"step {self.thread()}", f"step {self.world.pick() or 0}"])

    def run(self):
        room = max(1, TURNS - len(self.world.actors))
        most = self.dice.choice([1, 2, 3, 20, 100, 1000])
        return f"run {self.dice.randint(1, min(most, room))}"

    def stack(self):
        return f"stack {self.thread()}"

    def object(self):
        return f"object {self.dice.choice([1, 2, 3, 4, self.dice.randint(0, self.world.births), self.world.births - 1])}"

    def heap(self):
        return "heap" if len(self.world.heap.cells) < 300 else "gc"

    def class_(self):
        return f"class {self.dice.choice([*self.world.classes, 'None'])}"

    def break_(self):
        method = self.dice.choice(self.methods)
        pc = self.dice.choice([0, 1, *(method.code or {}), *(method.code or {})])
        return f"break {method.owner.name}.{method.name}{method.descriptor} {pc}"

    def delete(self):
        return f"delete {self.dice.randint(0, 4)}"


def difference(jvm, files, made):
    """How a session with `jvm debug` differs from what the plain debugger says, or nothing."""
    words = [jvm, "debug", *made.options, *files]
    done = subprocess.run(words, input=made.typed(), stdout=subprocess.PIPE, stderr=subprocess.PIPE, timeout=120, check=False)
    if (done.returncode, done.stderr) != (0, b""):
        return f"status {done.returncode}, {done.stderr!r}"
    rest = done.stdout
    for number, (line, answer) in enumerate(zip(made.lines, made.answers), 1):
        if not rest.startswith(answer):
            return f"line {number}, {line!r}: {rest[:300]!r} and not {answer[:300]!r}"
        rest = rest[len(answer):]
    return None if rest == made.plain.farewell() else f"in the end: {rest[:300]!r} and not {made.plain.farewell()[:300]!r}"


def prints_as_run(jvm, files):
    """How what a session prints in the end differs from what `jvm run` prints, or nothing."""
    run = subprocess.run([jvm, "run", *ROOM, *files], stdout=subprocess.PIPE, stderr=subprocess.PIPE, timeout=120, check=False)
    debug = subprocess.run([jvm, "debug", *ROOM, *files], input=b"run 1000000", stdout=subprocess.PIPE, timeout=120, check=False)
    wanted = b"output %d\n" % len(run.stdout) + run.stdout
    return None if debug.stdout.endswith(wanted) else f"{debug.stdout[:300]!r} doesn't end in {wanted[:300]!r}"


def tried(jvm, room, count, seed):
    """What was tried, each with what is wrong, or nothing, and the session."""
    found = [(name, files, list(classes_of(files))) for name, files in programs(room)]
    for number in range(count):
        name, files, classes = found[number % len(found)]
        made = Made(random.Random(f"{seed} {number}"), classes)
        yield f"{name}: session {number} of seed {seed}", difference(jvm, files, made), (made, files)
    for name, files, _ in found:
        yield f"{name}: printed as by `jvm run`", prints_as_run(jvm, files), None


def tried_debugger(jvm, room):
    """What the gate tries, each with what is wrong, or nothing."""
    for name, why, _ in tried(jvm, room, SESSIONS, SEED):
        yield f"debugger: {name}", why


def main():
    words = argparse.ArgumentParser(description=__doc__, formatter_class=argparse.RawDescriptionHelpFormatter)
    words.add_argument("--jvm", default=BUILT, metavar="PROGRAM")
    words.add_argument("--sessions", type=int, default=SESSIONS, metavar="N")
    words.add_argument("--seed", type=int, default=SEED, metavar="N")
    words.add_argument("--show", action="store_true", help="the whole text of each session that differs")
    given = words.parse_args()
    passed = failed = 0
    if not os.path.exists(given.jvm):
        print(f"debug_agrees: there is no {given.jvm}\n0 passed, 1 failed")
        return 1
    with tempfile.TemporaryDirectory() as room:
        for name, why, session in tried(os.path.abspath(given.jvm), room, given.sessions, given.seed):
            passed, failed = passed + (not why), failed + bool(why)
            if why:
                print(f"debug_agrees: {name}: {why}", flush=True)
            if why and given.show and session:
                made, files = session
                print(f"jvm debug {' '.join([*made.options, *files])}\n{made.typed().decode('latin-1')}")
    print(f"{passed} passed, {failed} failed")
    return 1 if failed else 0


if __name__ == "__main__":
    sys.exit(main())
