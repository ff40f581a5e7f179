#!/usr/bin/env python3
"""How many bytecodes a second `jvm run` makes of programs that javac compiles, beside OpenJDK's interpreters.

Usage: bench.py [--jvm PROGRAM] [--zero JAVA] [--times N] [--carriers N] [NAME | GROUP ..]

Each program of bench_programs.py does so many units of work. How many bytecodes a unit takes is read off the journals of two short
runs. A figure is the processor time of a run less that of one with no unit, each the best of so many (five), which take turns, over the
bytecodes between them: for `jvm run --gc 0`, for `jvm run --gc 1`, for `java -Xint`, and, where JAVA is the program `java` of a Debian
package openjdk-17-jre-zero, for `JAVA -zero`. What all print has to be the same. In the end, for each group and mode, the geometric
mean of the speed over Zero's (without it: over -Xint's), and the worst. With --carriers the programs of four threads are also run by so
many carriers, and told is how long that takes by the clock, over one carrier's time.
PROGRAM is crates/jvm/out/jvm, which `rt run` builds, where nothing else is said.
"""
import argparse
import math
import os
import resource
import subprocess
import sys
import tempfile
import time

from bench_programs import FOUR_THREADS, PROGRAMS, source
from java_agrees import BEGIN, BUILT, SYS, as_version_49

STEPS = 16_000_000
# cells for what is made while nobody collects, and so many objects of them are used; cells where the collector works
MANY_CELLS, MANY_OBJECTS = ("--small", "40000", "--medium", "20000"), 18_000
CELLS = ("--small", "1000", "--medium", "100")
MODES = ("--gc 0", "--gc 1")


class Compiled:
    """The classes of a program that does so many units, in a folder of their own."""

    def __init__(self, room, program, units):
        self.folder = os.path.join(room, str(units))
        os.makedirs(f"{self.folder}/vm")
        for path, text in {"vm/Sys": SYS, "Bench": source(program, units), "Begin": BEGIN % "Bench"}.items():
            with open(f"{self.folder}/{path}.java", "w", encoding="utf-8") as file:
                file.write(text)
        javac = ["javac", "-g:none", "-nowarn", "--release", "8", "-Xlint:-options", "Begin.java"]
        subprocess.run(javac, cwd=self.folder, check=True)
        self.classes = as_version_49(self.folder)

    def on_machine(self, machine, gc, *more):
        cells = CELLS if gc else MANY_CELLS
        return [machine, "run", "--gc", str(gc), "--steps", str(STEPS), *cells, *more, *self.classes]

    def on_java(self, java, mode):
        return [java, mode, "-XX:+UseSerialGC", "-cp", self.folder, "Begin"]


def timed(words):
    """Gives the processor time of a command that has to end well, and what it prints."""
    before = resource.getrusage(resource.RUSAGE_CHILDREN)
    done = subprocess.run(words, stdout=subprocess.PIPE, check=True)
    after = resource.getrusage(resource.RUSAGE_CHILDREN)
    return after.ru_utime - before.ru_utime + after.ru_stime - before.ru_stime, done.stdout


def by_the_clock(words):
    """Gives the seconds that a command takes, and what it prints."""
    began = time.time()
    done = subprocess.run(words, stdout=subprocess.PIPE, check=True)
    return time.time() - began, done.stdout


def least(runs, times, measured=timed):
    """The least time of each of these commands, by its name. They take turns, since a machine's speed moves."""
    seconds = {}
    for _ in range(times):
        for name, words in runs.items():
            seconds[name] = min(seconds.get(name, math.inf), measured(words)[0])
    return seconds


def rows(compiled, machine, gc):
    """How many rows a run makes of threads, and how many of the collector."""
    path = os.path.join(compiled.folder, "rows.journal")
    subprocess.run(compiled.on_machine(machine, gc, "--journal", path), stdout=subprocess.DEVNULL, check=True)
    with open(path, encoding="ascii") as file:
        lines = [line.split(" ", 1)[0] for line in file][4:-1]
    os.remove(path)
    collected = lines.count("c")
    return len(lines) - collected, collected


class Measured:
    """What a program takes."""

    def __init__(self, name, options, room):
        self.program, self.options, self.room, self.made = PROGRAMS[name], options, room, {}
        few, many = (rows(self.compiled(units), options.jvm, 1) for units in (10, 20))
        self.each, self.collected = (many[0] - few[0]) / 10, (many[1] - few[1]) / 10
        self.units = {"--gc 0": self.units_within(STEPS / self.each), "--gc 1": int(0.9 * STEPS / (self.each + self.collected))}

    def compiled(self, units):
        if units not in self.made:
            self.made[units] = Compiled(self.room, self.program, units)
        return self.made[units]

    def units_within(self, most):
        """Units for which the steps do, and the cells where nobody collects."""
        objects = self.program.objects * (4 if self.program.group == FOUR_THREADS else 1)
        return int(min(0.9 * most, MANY_OBJECTS / objects if objects else math.inf))

    def figures(self):
        """Gives the nanoseconds of a bytecode by the name of who makes it."""
        jvm, zero = self.options.jvm, self.options.zero
        ways = {mode: (lambda it, gc=mode[-1]: it.on_machine(jvm, int(gc)), units) for mode, units in self.units.items()}
        longer = 20 * max(self.units.values())
        ways["-Xint"] = (lambda it: it.on_java("java", "-Xint"), longer)
        if zero:
            ways["Zero"] = (lambda it: it.on_java(zero, "-zero"), longer)
        runs = {(way, units): words(self.compiled(units)) for way, (words, most) in ways.items() for units in (0, most)}
        seconds = least(runs, self.options.times)
        self.are_same(self.compiled(self.units["--gc 1"]))
        return {way: (seconds[way, units] - seconds[way, 0]) * 1e9 / (self.each * units) for way, (_, units) in ways.items()}

    def are_same(self, compiled):
        """Stops where both machines print different things."""
        told = {timed(words)[1] for words in (compiled.on_machine(self.options.jvm, 1), compiled.on_java("java", "-Xint"))}
        if len(told) != 1:
            sys.exit(f"{self.program.group}: jvm and java print different things: {told}")

    def by_carriers(self):
        """How long several carriers take by the clock, over one carrier's time."""
        compiled = self.compiled(self.units["--gc 1"])
        runs = {count: compiled.on_machine(self.options.jvm, 1, "--carriers", str(count)) for count in (1, self.options.carriers)}
        seconds = least(runs, self.options.times, by_the_clock)
        return seconds[self.options.carriers] / seconds[1]


def measure(name, options):
    """Prints a program's figures, and gives its speed over Zero's, or else over that of -Xint, by mode."""
    with tempfile.TemporaryDirectory() as room:
        it = Measured(name, options, room)
        figures = it.figures()
        told = ", ".join(f"{way} {ns:.2f}" for way, ns in figures.items())
        with_collector = (it.each + it.collected) / it.each / figures["--gc 1"] * 1e3
        told += f"; {with_collector:.1f} million rows a second with --gc 1"
        if options.carriers and it.program.group == FOUR_THREADS:
            told += f"; {options.carriers} carriers take {it.by_carriers():.2f} of one's time by the clock"
    other = figures["Zero" if options.zero else "-Xint"]
    over = {mode: other / figures[mode] for mode in MODES}
    print(f"{name}: ns a bytecode: {told}; of {'Zero' if options.zero else '-Xint'} " + ", ".join(f"{it:.3f}" for it in over.values()), flush=True)
    return over


def main():
    parser = argparse.ArgumentParser(description=__doc__.split("\n")[0])
    parser.add_argument("--jvm", default=BUILT)
    parser.add_argument("--zero")
    parser.add_argument("--times", type=int, default=5)
    parser.add_argument("--carriers", type=int)
    parser.add_argument("names", nargs="*", metavar="NAME")
    options = parser.parse_args()
    found = {}
    for name, program in PROGRAMS.items():
        if not options.names or name in options.names or program.group in options.names:
            found.setdefault(program.group, {})[name] = measure(name, options)
    for group, all_of in found.items():
        for mode in MODES:
            ratios = {name: over[mode] for name, over in all_of.items()}
            mean = math.exp(sum(map(math.log, ratios.values())) / len(ratios))
            worst = min(ratios, key=ratios.get)
            print(f"{group}, {mode}: geometric mean of {'Zero' if options.zero else '-Xint'} {mean:.3f}, worst {ratios[worst]:.3f} ({worst})")
    return 0


if __name__ == "__main__":
    sys.exit(main())
