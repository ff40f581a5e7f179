"""What `jvm` is to answer to a damaged input, as the plain reader sees it, and how an answer differs from that."""
import re
from typing import NamedTuple

from . import class_files, inputs, journals, programs
from .classes import Class
from .inputs import CLASS_FILE, JOURNAL, TEXT
from .refusals import Refused

ENDINGS = {TEXT: "j", CLASS_FILE: "class", JOURNAL: "journal"}
# how a run ends, by its status: what stands on standard error then
NAME = r"[\w$/]+"
ENDS = {
    0: r"",
    1: rf"(jvm: thread \d+ ended by {NAME}\n)+",
    3: r"jvm: fault F([1-9]|10) in thread \d+\n",
    4: r"jvm: (step|output) limit\n",
    5: r"jvm: stuck\n",
}
OTHER_ROW = r"jvm: journal N5 at row (\d+)\n"


class Case(NamedTuple):
    """A damaged input: what it was, what was done to it, what came of it, whether it is run even where it is refused, and whether
    runs are made beside the ideal run."""

    of: inputs.Input
    done: str
    given: bytes
    is_run: bool
    is_checked: bool


class Wanted(NamedTuple):
    """What a command is to answer: a refusal's line; or else the file or the text that it writes, if it writes one, or that it
    ends, or that one of some rows isn't the program's."""

    words: str
    refusal: str | None
    written: bytes | None = None
    said: Class | None = None
    is_run: bool = False
    rows: range = range(0)
    may_end: bool = True


def read_or_refused(source):
    """The class of a source, or the refusal."""
    try:
        return programs.class_of(source)
    except Refused as refused:
        return refused


# what the undamaged files of programs are, read once in a process
READ = {}


def known(source):
    """The class of a file that is whole."""
    if source not in READ:
        READ[source] = read_or_refused(source)
    if isinstance(READ[source], Refused):
        raise READ[source]
    return READ[source]


def file_name(number, kind):
    return f"{number}.{ENDINGS[kind]}"


def sources_of(case, number, others):
    """The files of a case's program by name, the damaged one among them."""
    found = []
    for place, source in enumerate(case.of.program):
        is_damaged = place == case.of.place
        name = file_name(number, case.of.kind) if is_damaged else others.setdefault(source, f"whole{len(others)}")
        found.append((name, case.given if is_damaged else source))
    return found


def wanted_of_run(case, number, others):
    sources = sources_of(case, number, others)
    read = lambda source: programs.class_of(source) if source is case.given else known(source)
    told = programs.told_of_program(sources, read)
    how = "run --steps 10000 --check" if case.is_checked else "run --steps 10000"
    return Wanted(f"{how} {' '.join(name for name, _ in sources)}", told, is_run=True)


def wanted_of_journal(case, number, others):
    name = file_name(number, JOURNAL)
    refused = programs.told_of_journal(case.given)
    yield Wanted(f"upgrade {name} {number}.out", refused, None if refused else journals.upgrade(case.given))
    if case.of.program and (case.is_run or not refused):
        sources = sources_of(case, number, others)
        told = refused or programs.told_of_program(sources, known)
        rows, may_end = rows_of(case) if not refused else (range(0), True)
        yield Wanted(f"replay {name} {' '.join(it for it, _ in sources)}", told, is_run=True, rows=rows, may_end=may_end)


def rows_of(case):
    """Of a journal that is one: the rows that may be reported as not the program's, and whether there may be none."""
    given = journals.read(case.given)
    count, steps = len(given.rows), given.limits[0]
    made = journals.read(case.of.whole) if case.of.of_run else None
    if not made or (made.heap, made.limits[1]) != (given.heap, given.limits[1]):
        return range(1, count + 1), count <= steps
    pairs = [(one[:2], other[:2]) for one, other in zip(made.rows, given.rows)]
    first = next((n for n, (one, other) in enumerate(pairs) if one != other), len(pairs))
    if first >= min(count, steps):
        # the run's own rows, and perhaps one past the limit
        return range(steps + 1, min(count, steps + 1) + 1), count <= steps
    if first < len(pairs) and pairs[first][0][0] == pairs[first][1][0]:
        # the turn of the same thread has one outcome, which isn't this one
        return range(first + 1, first + 2), False
    return range(first + 1, count + 1), count <= steps


def wanted_of(case, number, others):
    """What each command of a case is to answer."""
    if case.of.kind == JOURNAL:
        yield from wanted_of_journal(case, number, others)
        return
    name = file_name(number, case.of.kind)
    if case.of.kind == TEXT:
        refused = programs.told_of_text(name, case.given)
        yield Wanted(f"asm {name} {number}.out", refused, None if refused else programs.class_file_of(case.given))
    else:
        refused = programs.told_of_class_file(name, case.given)
        said = None if refused else class_files.read(case.given)
        yield Wanted(f"dis {name}", refused, said=said)
    # a file that begins with the wrong bytes is a text for `run`, and the other way round
    if case.is_run or not refused:
        yield wanted_of_run(case, number, others)


def difference(wanted, status, told, written):
    """How an answer differs from what is wanted, or nothing."""
    said = f"{told.strip() or 'nothing'}, status {status}"
    if wanted.refusal:
        right = status == 2 and told == f"jvm: {wanted.refusal}\n"
        return None if right else f"it says {said} where the plain reader says {wanted.refusal}"
    if wanted.is_run:
        row = re.fullmatch(OTHER_ROW, told) if status == 2 else None
        ends = wanted.may_end and status in ENDS and re.fullmatch(ENDS[status], told)
        right = ends or row and int(row[1]) in wanted.rows
        rows = f"N5 at a row from {wanted.rows.start} to {wanted.rows.stop - 1}" if wanted.rows else ""
        return None if right else f"it says {said} where {rows or 'the end of a run'} is right"
    if status or told:
        return f"it says {said} where the plain reader says nothing"
    if wanted.said:
        return programs.told_of_disassembled(wanted.said, written)
    return None if wanted.written == written else "it writes another file than the plain reader"


def code_of(wanted, status):
    """What an answer is counted as: the code of a refusal, or the status."""
    found = re.search(r"(?:: |^journal )([A-Z]\d+)", wanted.refusal or "")
    return found[1] if found else f"status {status}"
