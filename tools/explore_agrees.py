#!/usr/bin/env python3
"""Compares what `jvm explore` reports with a plain explorer, on small programs of several threads that it makes up.

    tools/explore_agrees.py [--jvm PROGRAM] [--programs N] [--seed N] [--schedules N] [--show]

The plain explorer (tools/plain/explorer.py) makes each turn of each thread of each state, in Python. Of each program, with
`--no-room` and without, these have to be so:

- the report is complete, and its outcomes are those that the plain explorer finds, none more and none less;
- no witness is shorter than the plain explorer's, which is a shortest one;
- divided into parts, or by several workers, it has the same outcomes, and each part that is a journal replays;
- each witness is a journal that replays to its outcome, or, where a cell has to be missing, turns that lead to it on the plain machine;
- each outcome that N random schedules come to, on a small heap with its collector, is one of those that `--no-room` reports.

Programs have two or three threads, monitors, synchronized methods, static fields and others, arrays, exceptions with handlers and
without, classes with initializers that use each other or fail, joins, loops that wait, that make garbage or print for ever, and faults.
PROGRAM is crates/jvm/out/jvm where nothing else is said. The last line is 'N passed, M failed'.
"""
import argparse
import os
import random
import re
import subprocess
import sys
import tempfile

from debug_agrees import classes_of
from merge_reports import merged, report_of
from plain.explorer import Ideal, Outcome, Seen, explored

ROOT = os.path.join(os.path.dirname(os.path.abspath(__file__)), "..")
BUILT = os.path.join(ROOT, "crates", "jvm", "out", "jvm")
PROGRAMS, SEED, SCHEDULES = 50, 53, 1000
# how many states a program may have, how many bytes it may print, and how many turns a random schedule may make
STATES, OUTPUT, TURNS = 1500, 12, 400
STATUSES = {"finished": (0, 1), "stuck": (5,), "faulted": (3,), "output limit": (4,)}

HEAD = """.class {0}
.super {1}
.field static x I
.field static y I
.field static o LP;
.field static a Ljava/lang/Object;
.field static b Ljava/lang/Object;
.field static t LP;
.field f I
""".format("P", "java/lang/Thread")
METHODS = """.method synchronized touch()V
.limit stack 3
.limit locals 1
aload_0
dup
getfield P/f I
iconst_1
iadd
putfield P/f I
return
.end method
.method static made()LP;
.limit stack 1
.limit locals 0
new P
areturn
.end method
"""
PRINT = "invokestatic vm/Sys/print(I)V"
LOCKS = {"a": "getstatic P/a Ljava/lang/Object;", "b": "getstatic P/b Ljava/lang/Object;", "o": "getstatic P/o LP;"}


class Maker:
    """A program that is made up: the texts of its classes P, Q and R."""

    def __init__(self, dice):
        self.dice, self.labels = dice, 0
        self.wild = dice.random() < 0.4
        workers = dice.choice([1, 1, 1, 2])
        runs = [self.block(dice.randint(1, 3), 0) for _ in range(workers)]
        above = dice.choice(["java/lang/Object", "Q"])
        self.texts = [self.program(runs), self.used("Q", "java/lang/Object", "R"), self.used("R", above, "Q")]

    def label(self):
        self.labels += 1
        return f"L{self.labels}"

    def program(self, runs):
        """The text of P: main starts as many threads as there are runs, each of which picks its own by a number that it takes."""
        opening = [f"new java/lang/Object\nputstatic P/{lock} Ljava/lang/Object;" for lock in "ab"]
        opening += ["new P\nputstatic P/o LP;"] * self.dice.randint(0, 1)
        starts = []
        for number in range(len(runs)):
            starts.append(f"new P\ndup\nputstatic P/t LP;\ndup\nsipush {number}\nputfield P/f I\ninvokevirtual P/start()V")
        body = self.block(self.dice.randint(1, 3), 0)
        last = self.dice.choice(["", "getstatic P/t LP;\ninvokevirtual P/join()V\ngetstatic P/x I\n" + PRINT, f"getstatic P/x I\n{PRINT}"])
        main = self.method("static main()V", "\n".join([*opening, *starts, *body[0], last]), body[1])
        run = runs[0][0] if len(runs) == 1 else ["aload_0", "getfield P/f I", "ifne Second", *runs[0][0], "return", "Second:", *runs[1][0]]
        return HEAD + METHODS + main + self.method("run()V", "\n".join(run), sum((it[1] for it in runs), []))

    @staticmethod
    def method(words, code, rows):
        lines = [f".method {words}", ".limit stack 4", ".limit locals 3", *rows, code, "return", ".end method"]
        return "\n".join(it for it in lines if it) + "\n"

    def used(self, name, above, other):
        """The text of a class with an initializer, or without."""
        text = f".class {name}\n.super {above}\n.field static v I\n"
        does = self.dice.choice([None, ["iconst_2"], [f"getstatic {other}/v I", "iconst_1", "iadd"], ["getstatic P/x I"],
                                 ["iconst_1", "getstatic P/x I", "idiv"]])
        return text if does is None else text + self.method("static <clinit>()V", "\n".join([*does, f"putstatic {name}/v I"]), [])

    # ---- statements: lines of code, and rows of the exception table

    def block(self, count, depth):
        lines, rows = [], []
        for _ in range(count):
            more, caught = self.statement(depth)
            lines, rows = lines + more, rows + caught
        return lines, rows

    def statement(self, depth):
        plain = [self.adds, self.adds, self.prints, self.makes, self.field, self.uses, self.uses, self.call, self.array]
        if self.wild:
            plain += [self.divides, self.throws, self.waits, self.odd, self.for_ever]
        nested = [self.locked, self.locked, self.locked, self.caught] if depth < 2 else []
        made = self.dice.choice(plain + nested + nested)
        return made(depth) if made in (self.locked, self.caught) else (made(), [])

    def adds(self):
        name = self.dice.choice("xxy")
        return [f"getstatic P/{name} I", "iconst_1", "iadd", f"putstatic P/{name} I"]

    def prints(self):
        return [f"getstatic P/{self.dice.choice('xy')} I", PRINT]

    def makes(self):
        return [self.dice.choice(["new P", "invokestatic P/made()LP;"]), "putstatic P/o LP;"]

    def field(self):
        return ["getstatic P/o LP;", "dup", "getfield P/f I", "iconst_2", "iadd", "putfield P/f I"]

    def uses(self):
        name = self.dice.choice("QR")
        return self.dice.choice([[f"new {name}", "pop"], [f"getstatic {name}/v I", "putstatic P/x I"],
                                 ["iconst_3", f"putstatic {name}/v I"]])

    def call(self):
        return ["getstatic P/o LP;", "invokevirtual P/touch()V"]

    def array(self):
        return [f"iconst_{self.dice.randint(1, 2)}", "newarray int", "iconst_1", "iaload", "putstatic P/y I"]

    def divides(self):
        return ["iconst_4", "getstatic P/x I", "idiv", PRINT]

    def throws(self):
        return self.dice.choice([["aconst_null", "athrow"], ["new java/lang/Exception", "athrow"]])

    def waits(self):
        again = self.label()
        return [f"{again}:", "getstatic P/x I", f"ifeq {again}"]

    def odd(self):
        """What throws or is at fault."""
        return self.dice.choice([["pop"], [LOCKS["a"], "monitorexit"], [LOCKS["a"], "checkcast P", "pop"],
                                 ["getstatic P/t LP;", "invokevirtual P/start()V"], ["iload_1", "pop"]])

    def for_ever(self):
        again = self.label()
        does = self.dice.choice([["new java/lang/Object", "pop"], ["getstatic P/x I", PRINT],
                                 ["getstatic P/y I", "iconst_1", "ixor", "putstatic P/y I"]])
        return [f"{again}:", *does, f"goto {again}"]

    def locked(self, depth):
        lock = LOCKS[self.dice.choice("aabbo")]
        lines, rows = self.block(self.dice.randint(1, 2), depth + 1)
        return [lock, "monitorenter", *lines, lock, "monitorexit"], rows

    def caught(self, depth):
        start, end, handler, past = (self.label() for _ in range(4))
        lines, rows = self.block(1, depth + 1)
        what = self.dice.choice(["all", "java/lang/RuntimeException", "java/lang/Error", "java/lang/OutOfMemoryError"])
        row = f".catch {what} from {start} to {end} using {handler}"
        handles = [f"goto {past}", f"{handler}:", "pop", "iconst_m1", "putstatic P/y I", f"{past}:"]
        return [f"{start}:", *lines, f"{end}:", *handles], [*rows, row]


def made_up(dice, room):
    """The files of a program that is small enough, with what the plain explorer finds."""
    files = [f"{room}/{name}.j" for name in "PQR"]
    while True:
        for path, text in zip(files, Maker(dice).texts):
            with open(path, "w", encoding="ascii") as file:
                file.write(text)
        classes = list(classes_of(files))
        found = {no_room: explored(classes, OUTPUT, no_room, STATES) for no_room in (False, True)}
        if all(it.complete for it in found.values()):
            return files, classes, found


# ---- what `jvm explore` reports

def read_report(text):
    """The outcomes of a report, each with how many turns its witness has, and how it ended."""
    outcomes, _, _, how = report_of(text)
    return [(shown_of(*outcome), turns) for outcome, turns in outcomes], how


def shown_of(how, ends, output):
    """An outcome of a report."""
    fault = re.fullmatch(rb"fault F(\d+) in thread (\d+)", how)
    ended = tuple((int(number), name.decode()) for number, name in re.findall(rb"thread (\d+) ended by ([^\n]*)\n", ends))
    at_fault = (int(fault[1]), int(fault[2])) if fault else None
    return Shown("faulted" if fault else how.decode(), at_fault, ended, output)


class Shown(Outcome):
    """An outcome as a report tells it: of ends only those by an exception."""


def told(outcome):
    """What a report tells of an outcome."""
    return Shown(outcome.status, outcome.fault, tuple((thread, by) for thread, by in enumerate(outcome.ends) if by), outcome.output)


def shown(words):
    done = subprocess.run(words, stdout=subprocess.PIPE, stderr=subprocess.PIPE, timeout=120, check=False)
    return done.returncode, done.stdout, done.stderr


def replayed(jvm, journal, files, outcome):
    """How the replay of a witness differs from its outcome, or nothing."""
    status, output, said = shown([jvm, "replay", journal, *files])
    wanted = "".join(f"jvm: thread {thread} ended by {by}\n" for thread, by in outcome.ends) if outcome.status == "finished" else None
    if outcome.fault:
        wanted = f"jvm: fault F{outcome.fault[0]} in thread {outcome.fault[1]}\n"
    is_so = output == outcome.output and status in STATUSES[outcome.status] and wanted in (None, said.decode())
    return None if is_so else f"{journal} replays to status {status}, {said!r}, {output!r}"


def led(classes, turns, outcome):
    """How the end of these turns, on the plain machine, differs from an outcome, or nothing."""
    world = Ideal(classes, OUTPUT)
    for line in turns.decode().splitlines():
        thread, _, lacks = line.partition(" ")
        if not world.may_turn(int(thread)):
            return f"thread {thread} may take no turn: {line!r}"
        world, asked = world.after(int(thread), lacks != "no room")
        if lacks and not asked:
            return f"no cell is asked for: {line!r}"
    return None if told(world.outcome()) == outcome else f"the turns lead to {told(world.outcome())}"


def wrong_witness(jvm, folder, number, turns, outcome, files, classes):
    """What is wrong with the witness of an outcome, or nothing."""
    journal, pairs = f"{folder}/{number}.journal", f"{folder}/{number}.turns"
    if os.path.exists(journal) == os.path.exists(pairs):
        return f"outcome {number} has not one witness"
    if os.path.exists(pairs):
        with open(pairs, "rb") as file:
            text = file.read()
        return led(classes, text, outcome) or (None if text.count(b"\n") == turns else f"outcome {number} has a witness of {turns} turns")
    return replayed(jvm, journal, files, outcome)


def difference(jvm, folder, files, classes, no_room, found):
    """How what `jvm explore` reports differs from what the plain explorer found, or nothing."""
    words = [jvm, "explore", "--output", str(OUTPUT), *["--no-room"] * no_room, "--witnesses", folder, *files]
    status, text, said = shown(words)
    if (status, said) != (0, b""):
        return f"status {status}, {said!r}"
    outcomes, how = read_report(text)
    wanted, least = {}, {}
    for outcome, pairs in found.outcomes.items():
        wanted[told(outcome)] = wanted.get(told(outcome), 0) + 1
        least[told(outcome)] = min(len(pairs), least.get(told(outcome), len(pairs)))
    got = {}
    for outcome, turns in outcomes:
        got[outcome] = got.get(outcome, 0) + 1
    if how != b"complete" or got != wanted:
        return f"{how.decode()}: {got}, and not {wanted}"
    if any(turns < least[outcome] for outcome, turns in outcomes):
        return "a witness is shorter than a shortest one"
    for number, (outcome, turns) in enumerate(outcomes, 1):
        why = wrong_witness(jvm, folder, number, turns, outcome, files, classes)
        if why:
            return why
    return None


def divided_otherwise(jvm, folder, files, no_room, parts):
    """How the outcomes of the parts of an exploration differ from those of the whole, or nothing."""
    within = ["--output", str(OUTPUT), *["--no-room"] * no_room]
    status, whole, said = shown([jvm, "explore", *within, *files])
    divided, told_of, wrong = shown([jvm, "explore", *within, "--split", str(parts), "--witnesses", folder, *files])
    if (status, said, divided, wrong) != (0, b"", 0, b""):
        return f"statuses {status} and {divided}, {said!r}, {wrong!r}"
    written = sorted(os.listdir(folder))
    if told_of != f"parts {len(written)}\n".encode() or len(written) > parts:
        return f"{told_of!r} of {parts}, and {written}"
    reports = []
    for name in written:
        if name.endswith(".journal") and shown([jvm, "replay", f"{folder}/{name}", *files])[0] not in (0, 1, 3, 4, 5):
            return f"{name} is no journal"
        status, text, said = shown([jvm, "explore", *within, "--from", f"{folder}/{name}", *files])
        if (status, said) != (0, b""):
            return f"{name}: status {status}, {said!r}"
        reports.append(report_of(text))
    got = {outcome for outcome, _ in merged(reports)[0]}
    wanted = {outcome for outcome, _ in report_of(whole)[0]}
    return None if got == wanted else f"the parts have {got}, and the whole {wanted}"


def shared_otherwise(jvm, files, no_room, workers):
    """How the outcomes that several workers find differ from those that one finds, or nothing."""
    within = ["--output", str(OUTPUT), *["--no-room"] * no_room]
    status, whole, said = shown([jvm, "explore", *within, *files])
    by_all, told, wrong = shown([jvm, "explore", *within, "--workers", str(workers), *files])
    if (status, said, by_all, wrong) != (0, b"", 0, b""):
        return f"statuses {status} and {by_all}, {said!r}, {wrong!r}"
    got, wanted = sorted(it for it, _ in report_of(told)[0]), sorted(it for it, _ in report_of(whole)[0])
    return None if got == wanted else f"{workers} workers find {got}, and one {wanted}"


def scheduled(dice, classes):
    """What a random schedule comes to on a small heap, or nothing where it takes too long."""
    world = Seen(classes, (dice.choice([3, 4, 5, 6, 8, 12]), 0, 0), TURNS, OUTPUT)
    collects = dice.choice([0, 0.3, 0.6])
    for _ in range(TURNS):
        ready = [thread for thread in range(len(world.threads)) if world.may_turn(thread)]
        if not ready:
            return world.outcome()
        world.turn("c" if dice.random() < collects else dice.choice(ready))
    return None


def tried(jvm, room, count, seed, schedules):
    """What was tried, each with what is wrong, or nothing."""
    for number in range(count):
        dice = random.Random(f"{seed} {number}")
        folder = f"{room}/{number}"
        os.mkdir(folder)
        files, classes, found = made_up(dice, folder)
        for no_room in (False, True):
            os.mkdir(witnesses := f"{folder}/{int(no_room)}")
            name = f"program {number} of seed {seed}" + " without room" * no_room
            try:
                yield name, difference(jvm, witnesses, files, classes, no_room, found[no_room]), files
                os.mkdir(divided := f"{folder}/parts{int(no_room)}")
                yield f"parts of {name}", divided_otherwise(jvm, divided, files, no_room, dice.choice([1, 2, 5, 16])), files
                yield f"workers of {name}", shared_otherwise(jvm, files, no_room, 3), files
            except ValueError as wrong:
                yield name, str(wrong), files
        met = {it for it in (scheduled(dice, classes) for _ in range(schedules)) if it} - set(found[True].outcomes)
        yield f"random schedules of program {number} of seed {seed}", met and f"these are met: {met}" or None, files


def tried_explorer(jvm, room):
    """What the gate tries, each with what is wrong, or nothing."""
    os.mkdir(folder := f"{room}/explored")
    for name, why, _ in tried(jvm, folder, PROGRAMS, SEED, 20):
        yield f"explore: {name}", why


def main():
    words = argparse.ArgumentParser(description=__doc__, formatter_class=argparse.RawDescriptionHelpFormatter)
    words.add_argument("--jvm", default=BUILT, metavar="PROGRAM")
    words.add_argument("--programs", type=int, default=PROGRAMS, metavar="N")
    words.add_argument("--seed", type=int, default=SEED, metavar="N")
    words.add_argument("--schedules", type=int, default=SCHEDULES, metavar="N")
    words.add_argument("--show", action="store_true", help="the texts of each program that differs")
    given = words.parse_args()
    passed = failed = 0
    if not os.path.exists(given.jvm):
        print(f"explore_agrees: there is no {given.jvm}\n0 passed, 1 failed")
        return 1
    with tempfile.TemporaryDirectory() as room:
        for name, why, files in tried(os.path.abspath(given.jvm), room, given.programs, given.seed, given.schedules):
            passed, failed = passed + (not why), failed + bool(why)
            if why:
                print(f"explore_agrees: {name}: {why}", flush=True)
            if why and given.show:
                for path in files:
                    with open(path, encoding="ascii") as file:
                        print(file.read())
    print(f"{passed} passed, {failed} failed")
    return 1 if failed else 0


if __name__ == "__main__":
    sys.exit(main())
