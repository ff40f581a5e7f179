"""The inputs that are damaged: the texts, class files and journals of the worked rows, and of the programs of examples/."""
import glob
import os
import subprocess
from typing import NamedTuple

import answers
import sessions

from . import journals, programs
from .refusals import Refused, answer

EXAMPLES = os.path.dirname(answers.ROWS)
# what a program needs beside its own text
OTHERS = {"Square": ["Shape"]}
SHAPES = ("--small", "--medium", "--large")
# the longest inputs of which each front and each byte is tried, and the longest journals where not all is tried
LONGEST, LONGEST_JOURNAL = 3_200, 1_000
TEXT, CLASS_FILE, JOURNAL = "text", "class file", "journal"


class Input(NamedTuple):
    """An input: where it stands, its kind, its bytes, and the files of the program of which it is the one at a place. A journal has
    no place: it is replayed with the whole program, and may be one that a run of it made."""

    name: str
    kind: str
    whole: bytes
    program: tuple
    place: int | None = None
    of_run: bool = False


def bytes_of(path):
    with open(path, "rb") as file:
        return file.read()


def of_program(name, sources):
    """The inputs that the texts and class files of a program are."""
    for place, source in enumerate(sources):
        kind = CLASS_FILE if source.startswith(programs.CLASS_FILE) else TEXT
        yield Input(f"{name}, {kind} {place}", kind, source, tuple(sources), place)


def assembled(sources):
    """The class files of texts, or nothing where one of them is none."""
    try:
        return [it if it.startswith(programs.CLASS_FILE) else programs.class_file_of(it) for it in sources]
    except Refused:
        return []


class Recorder:
    """Runs of the program under test that write a journal."""

    def __init__(self, jvm, room):
        self.jvm, self.room = jvm, room

    def journal(self, sources, options):
        paths = [os.path.join(self.room, f"{number}.source") for number in range(len(sources))]
        for path, source in zip(paths, sources):
            with open(path, "wb") as file:
                file.write(source)
        out = os.path.join(self.room, "journal")
        subprocess.run([self.jvm, "run", *options, "--journal", out, *paths], capture_output=True, timeout=120, check=False)
        return bytes_of(out)


def of_rows(recorder):
    """The texts, class files and journals of examples/rows.txt."""
    for block in bytes_of(f"{EXAMPLES}/rows.txt").decode().split("\n== ")[1:]:
        name, cells, rest = block.split("\n", 2)
        sources = [f"{text}\n".encode() for text in rest.split("\n>>\n")[0].split("\n--\n")]
        yield from of_program(f"rows.txt: {name}", sources)
        yield from of_program(f"rows.txt: {name}", assembled(sources))
        shape = [word for pair in zip(SHAPES, cells.split(" ")) for word in pair]
        yield Input(f"rows.txt: {name}, journal", JOURNAL, recorder.journal(sources, ["--gc", "0", *shape]), tuple(sources), None, True)


def files_of(command, files):
    """The names on a command's line that are files of its session."""
    return [word for word in command.split(" ")[3:] if word in files]


def of_session(name, steps):
    """The inputs of a session, with the programs that its commands run."""
    files = {}
    for line, lines in steps:
        words = line.split(" ")
        if words[0] == "--":
            if "has" not in words and "begins" not in words:
                files[words[1]] = sessions.bytes_of(lines, "hex" in words)
            continue
        named = files_of(line, files)
        if words[2] == "asm" and named:
            files.update({words[4]: it for it in assembled([files[words[3]]])} if words[3] in files else {})
        if words[2] in ("replay", "upgrade") and words[3] in files:
            sources = tuple(files[it] for it in named[1:] if words[2] == "replay")
            yield Input(f"sessions.txt: {name}, {words[3]}", JOURNAL, files[words[3]], sources)
        elif named:
            yield from of_program(f"sessions.txt: {name}", [files[it] for it in named])


def of_sessions():
    """The texts, class files and journals of examples/sessions.txt."""
    for name, steps in sessions.sessions():
        yield from of_session(name, steps)


def of_answers():
    """The texts, class files and journals of examples/answers.txt, but for those of `main of 4` and its like."""
    for kind, given, told in answers.rows():
        name = f"answers.txt: {kind}: {given[:60]}"
        if kind in ("text", "assembled"):
            yield from of_program(name, [answers.lines_of(given)])
        elif kind in ("program", "reference"):
            yield from of_program(name, answers.classes_of(given if kind == "program" else answers.around(given)))
        elif kind in ("journal", "replay"):
            yield Input(name, JOURNAL, answers.lines_of(given), (answers.SUM.encode(),))
        elif not kind.startswith("main of "):
            for digits, _ in answers.class_files(kind, given, told):
                yield from of_program(name, [bytes.fromhex(digits)])


def of_examples(recorder):
    """The programs of examples/: texts, class files that javac made, and the journals of those that are short."""
    for path in sorted(glob.glob(f"{EXAMPLES}/*.j")):
        name = os.path.basename(path)
        paths = [path, *(f"{EXAMPLES}/{it}.j" for it in OTHERS.get(name.removesuffix(".j"), []))]
        sources = [bytes_of(it) for it in paths]
        yield from of_program(f"examples/{name}", sources)
        journal = recorder.journal(sources, ["--gc", "0"])
        yield Input(f"the journal of examples/{name}", JOURNAL, journal, tuple(sources), None, True)
    sources = (bytes_of(f"{EXAMPLES}/D.j"),)
    yield Input("examples/D.journal", JOURNAL, bytes_of(f"{EXAMPLES}/D.journal"), sources, None, True)
    for out in sorted(glob.glob(f"{EXAMPLES}/java/*.out")):
        name = out.removesuffix(".out")
        paths = [f"{name}.class", *sorted(glob.glob(f"{name}$*.class"))]
        yield from of_program(f"examples/java/{os.path.basename(name)}", [bytes_of(it) for it in paths])


def is_good(it):
    """Whether the plain reader takes an input as it is."""
    return answer(journals.read if it.kind == JOURNAL else programs.class_of, it.whole) is None


def is_short(it, is_all):
    """Whether an input is short enough for each front and each byte."""
    return len(it.whole) <= (LONGEST_JOURNAL if it.kind == JOURNAL and not is_all else LONGEST)
