#!/usr/bin/env python3
"""Assembles, disassembles, runs and replays the programs of examples/, and compares what a terminal shows of them.

    tools/run_examples.py [--jvm PATH]

A text NAME.j that has NAME.out beside it is a program (Square.j with Shape.j): it is run from its texts and from its class
files, twice each with one journal, the second time beside the ideal run (`--check`), and the journal is replayed. NAME.out has
its output, its lines on standard error and its status. Each text is assembled, disassembled and assembled again, which gives the
same class file. The class files of examples/java are run in the same way; there NAME.out is what `java`
printed. The programs of examples/rows.txt are run turn by turn. All but those of rows.txt that have
several threads, or find no room for an object, are also run by four carriers beside the ideal run, and the journals of these
runs are replayed: they print the same, whoever took which turn. The sessions of examples/sessions.txt are played command by command,
and each row of examples/answers.txt is reported as it says. Limits are tried at their values and one past them (limits.py). Of some
commands each request for memory is refused in turn (memory_refused.py), and each read and write (failing_streams.py).
The programs of examples/explore are explored, with the report beside each, and programs that are made up are explored as the plain
explorer does (explore_agrees.py). Inputs that were cut, changed or made up are told as the plain reader tells them (damaged.py).

The last line is 'N passed, M failed'.
"""
import argparse
import glob
import itertools
import os
import subprocess
import sys
import tempfile

from answers import tried_answers
from damaged import tried_damaged
from debug_agrees import classes_of, tried_debugger
from explore_agrees import OUTPUT, difference as explored_otherwise, divided_otherwise, shared_otherwise, tried_explorer
from failing_streams import tried_failures
from limits import tried_limits
from memory_refused import tried_refusals
from plain.explorer import explored
from plain.rows import tried_reader
from sessions import tried_commands

ROOT = os.path.join(os.path.dirname(os.path.abspath(__file__)), "..")
EXAMPLES = os.path.join(ROOT, "examples")
BUILT = os.path.join(ROOT, "crates", "jvm", "out", "jvm")
# what a program needs beside its own text
OTHERS = {"Square": ["Shape"]}
# room for what the programs of examples/java make, and time for the collector
ROOM = ["--small", "2000", "--medium", "400", "--large", "100", "--steps", "16000000"]
CARRIERS = ["--carriers", "4"]
# beside the ideal run, with which each turn is compared
CHECK = "--check"
# what threads come to that may lock each other out
BY_SCHEDULE = {"D"}
# what is explored with a program of examples/explore, or stands elsewhere
EXPLORED = {"D": ["../D"], "race": ["race", "Left", "Right"]}


def run(*words):
    """What a terminal shows of a command: its output, its lines of standard error, and its status."""
    done = subprocess.run(words, stdout=subprocess.PIPE, stderr=subprocess.PIPE, timeout=120)
    return done.stdout + done.stderr + f"status {done.returncode}\n".encode()


def bytes_of(path):
    with open(path, "rb") as file:
        return file.read()


def round_trip(jvm, text, room):
    """The class file of a text, and how it differs from that of its disassembled text, or nothing."""
    made = os.path.join(room, os.path.basename(text).removesuffix(".j") + ".class")
    again = {"text": f"{room}/again.j", "class": f"{room}/again.class"}
    said = run(jvm, "asm", text, made)
    if said != b"status 0\n":
        return made, f"asm: {said.decode()}"
    with open(again["text"], "wb") as file:
        file.write(subprocess.run([jvm, "dis", made], stdout=subprocess.PIPE, timeout=120).stdout)
    said = run(jvm, "asm", again["text"], again["class"])
    if said != b"status 0\n":
        return made, f"asm of its disassembled text: {said.decode()}"
    return made, None if bytes_of(made) == bytes_of(again["class"]) else "its disassembled text is of another class file"


def difference(jvm, files, options, wanted, room):
    """How a run of these files, its replay and a second run, beside the ideal run, differ from what is wanted, or nothing."""
    journals = [f"{room}/journal", f"{room}/second"]
    for journal, more in zip(journals, ([], [CHECK])):
        shown = run(jvm, "run", *options, *more, "--journal", journal, *files)
        if shown != wanted:
            return f"run: {shown.decode(errors='replace')}"
    if bytes_of(journals[0]) != bytes_of(journals[1]):
        return "two runs have two journals"
    shown = run(jvm, "replay", journals[0], *files)
    return None if shown == wanted else f"replay: {shown.decode(errors='replace')}"


def carried(jvm, files, options, wanted, room):
    """How a run of these files by four carriers beside the ideal run, or its replay, differs from what is wanted, or nothing."""
    journal = f"{room}/carried"
    shown = run(jvm, "run", *CARRIERS, CHECK, *options, "--journal", journal, *files)
    if shown != wanted:
        return f"by four carriers: {shown.decode(errors='replace')}"
    if b"\nworkers 5\n" not in bytes_of(journal):
        return "by four carriers: the journal doesn't have five workers"
    shown = run(jvm, "replay", journal, *files)
    return None if shown == wanted else f"replay of four carriers: {shown.decode(errors='replace')}"


def tried_texts(jvm, room):
    """What was tried of the texts, each with what is wrong, or nothing."""
    made = {}
    for text in sorted(glob.glob(f"{EXAMPLES}/*.j") + glob.glob(f"{EXAMPLES}/explore/*.j")):
        name = os.path.basename(text).removesuffix(".j")
        made[name], why = round_trip(jvm, text, room)
        yield f"{name}.j, assembled", why
    for out in sorted(glob.glob(f"{EXAMPLES}/*.out")):
        name = os.path.basename(out).removesuffix(".out")
        names = [name, *OTHERS.get(name, [])]
        texts = [f"{EXAMPLES}/{it}.j" for it in names]
        yield f"{name}.j", difference(jvm, texts, [], bytes_of(out), room)
        yield f"{name}.class", difference(jvm, [made[it] for it in names], ["--gc", "7"], bytes_of(out), room)
        if name not in BY_SCHEDULE:
            yield f"{name}.j by four carriers", carried(jvm, texts, ROOM, bytes_of(out), room)


def tried_others(jvm, room):
    """Two threads that don't get stuck by another schedule, and may by carriers."""
    shown = run(jvm, "replay", f"{EXAMPLES}/D.journal", f"{EXAMPLES}/D.j")
    yield "D.journal", None if shown == b"status 0\n" else shown.decode()
    shown = run(jvm, "run", *CARRIERS, "--journal", f"{room}/carried", f"{EXAMPLES}/D.j")
    again = run(jvm, "replay", f"{room}/carried", f"{EXAMPLES}/D.j")
    yield "D.j by four carriers", None if shown == again else f"{shown.decode()}, and replayed {again.decode()}"


def rows_in(text):
    """The programs of rows.txt: name, cells, classes, and what comes of them."""
    for block in text.split("\n== ")[1:]:
        name, cells, rest = block.rstrip("\n").split("\n", 2)
        classes, story = rest.split("\n>>\n")
        yield name, cells.split(" "), classes.split("\n--\n"), story


def turns_of(journal):
    """The outcomes of a journal's turns, by thread; those that follow each other and are alike together."""
    rows = [line.split(" ")[:2] for line in bytes_of(journal).decode().split("\n")[4:-2]]
    told = ["".join(row) for row in rows]
    parts = [(turn, len(list(alike))) for turn, alike in itertools.groupby(told)]
    return "".join(f" {turn}" + (f"*{count}" if count > 1 else "") for turn, count in parts)


def tried_rows(jvm, room):
    """What was tried of rows.txt, each with what is wrong, or nothing."""
    for name, cells, classes, story in rows_in(bytes_of(f"{EXAMPLES}/rows.txt").decode()):
        files = [f"{room}/row{number}.j" for number in range(len(classes))]
        for path, text in zip(files, classes):
            with open(path, "w", encoding="ascii") as file:
                file.write(text + "\n")
        small, medium, large = cells
        shape = ["--small", small, "--medium", medium, "--large", large]
        shown = run(jvm, "run", CHECK, "--gc", "0", *shape, "--journal", f"{room}/journal", *files)
        printed, _, status = shown.decode().rpartition("status ")
        turns = turns_of(f"{room}/journal")
        told = f"{printed}{status.strip()}:{turns}"
        yield f"rows: {name}", None if told == story else told
        if " 1" not in turns and " 0n" not in turns:
            yield f"rows: {name}, by four carriers", carried(jvm, files, shape, shown, room)


def tried_classes(jvm, room):
    """The same of the class files that javac made."""
    for out in sorted(glob.glob(f"{EXAMPLES}/java/*.out")):
        name = out.removesuffix(".out")
        files = [f"{name}.class", *sorted(glob.glob(f"{name}$*.class"))]
        wanted = bytes_of(out) + b"status 0\n"
        yield f"java/{os.path.basename(name)}", difference(jvm, files, ROOM, wanted, room)
        yield f"java/{os.path.basename(name)} by four carriers", carried(jvm, files, ROOM, wanted, room)


def tried_explored(jvm, room):
    """The reports of examples/explore, NAME.txt or NAME--OPTION.txt, each also beside the plain explorer."""
    for report in sorted(glob.glob(f"{EXAMPLES}/explore/*.txt")):
        title = os.path.basename(report).removesuffix(".txt")
        name, *options = title.split("--")
        files = [f"{EXAMPLES}/explore/{it}.j" for it in EXPLORED.get(name, [name])]
        shown = run(jvm, "explore", *[f"--{it}" for it in options], *files)
        yield f"explore/{title}", None if shown == bytes_of(report) + b"status 0\n" else shown.decode(errors="replace")
        classes, no_room = list(classes_of(files)), options == ["no-room"]
        os.makedirs(folder := f"{room}/witnesses/{title}")
        found = explored(classes, OUTPUT, no_room)
        yield f"explore/{title}, beside the plain explorer", explored_otherwise(jvm, folder, files, classes, no_room, found)
        for parts in (1, 2, 7):
            os.makedirs(folder := f"{room}/parts/{title}/{parts}")
            yield f"explore/{title}, in {parts} parts at most", divided_otherwise(jvm, folder, files, no_room, parts)
        for workers in (2, 4):
            yield f"explore/{title}, by {workers} workers", shared_otherwise(jvm, files, no_room, workers)


def tried_merged(jvm, room):
    """What tools/merge_reports.py makes of reports, and its statuses."""
    merge, report = [sys.executable, f"{ROOT}/tools/merge_reports.py"], f"{EXAMPLES}/explore/race.txt"
    with open(report, "rb") as file:
        whole = file.read()
    with open(cut := f"{room}/cut.txt", "wb") as file:
        file.write(b"outcome 1: stuck\nturns 9\noutput 0\nexplored 7 states, 8 turns: cut off: states\n")
    yield "one report merged", None if run(*merge, report) == whole + b"status 0\n" else "it differs"
    both = whole.replace(b"turns 11\n", b"turns 9\n").replace(b"52 states, 110 turns: complete", b"59 states, 118 turns: cut off: states")
    yield "two reports merged", None if run(*merge, report, cut) == both + b"status 4\n" else "it differs"
    for words, status in (([f"{EXAMPLES}/D.j"], b"2"), ([room + "/none"], b"6"), ([], b"7")):
        yield f"merge_reports.py {words}", None if run(*merge, *words).endswith(b"status " + status + b"\n") else "its status"


TRIED = (
    tried_texts,
    tried_others,
    tried_rows,
    tried_classes,
    tried_commands,
    tried_answers,
    tried_limits,
    tried_refusals,
    tried_failures,
    tried_debugger,
    tried_explored,
    tried_merged,
    tried_explorer,
    tried_reader,
    tried_damaged,
)


def main():
    words = argparse.ArgumentParser(description=__doc__.split("\n")[0])
    words.add_argument("--jvm", default=BUILT)
    given = words.parse_args()
    passed = failed = 0
    if not os.path.exists(given.jvm):
        print(f"examples: there is no {given.jvm}\n0 passed, 1 failed")
        return 1
    with tempfile.TemporaryDirectory() as room:
        for tried in TRIED:
            for name, why in tried(os.path.abspath(given.jvm), room):
                passed, failed = passed + (not why), failed + bool(why)
                if why:
                    print(f"examples: {name}: {why}")
    print(f"{passed} passed, {failed} failed")
    return 1 if failed else 0


if __name__ == "__main__":
    sys.exit(main())
