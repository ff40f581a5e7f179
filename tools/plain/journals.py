"""Journals of runs, of version 1 and 2, read line by line: the first fault in their order is told."""
import re
from typing import NamedTuple

from . import names
from .refusals import Refused

HEADS = {"JVMJ 1\n": 1, "JVMJ 2\n": 2}
CELL_WORDS = (4, 32, 256)
MOST_CELLS, MOST_WORDS, MOST_STEPS, MOST_OUTPUT, MOST_WORKERS, MOST_ACTORS = 65_535, 1_048_576, 16_777_215, 1_048_576, 9, 256


class Journal(NamedTuple):
    """A heap's numbers of cells, the limits of steps and output, the number of workers, and the rows."""

    heap: list
    limits: list
    workers: int
    rows: list


def want(holds, code, place=""):
    if not holds:
        raise Refused(code, place)


def number(word):
    """The number that a word is, or nothing. A number of more digits than any limit is as good as a great one."""
    if not names.is_number(word) or word.startswith("-"):
        return None
    return int(word[:30])


def numbers_of(line, first, count):
    """The numbers of a line of the head, or nothing where it isn't one."""
    words = line.removesuffix("\n").split(" ")
    found = [number(word) for word in words[1:]]
    good = line.endswith("\n") and words[0] == first and len(found) == count and None not in found
    return found if good else None


def row_of(line, version, workers):
    """Actor, outcome and worker of a row, or nothing where it isn't one."""
    words = line.removesuffix("\n").split(" ")
    if not line.endswith("\n") or len(words) != version + 1:
        return None
    actor, outcome, worker = (*words, "0")[:3]
    known = actor == "c" or is_below(actor, MOST_ACTORS)
    return (actor, outcome, worker) if known and outcome in ("d", "o", "n", "f") and is_below(worker, workers) else None


def is_below(word, bound):
    found = number(word)
    return found is not None and found < bound


def read(text):
    """The journal that a text is."""
    lines = re.findall(r"[^\n]*\n|[^\n]+", text.decode("latin-1"))
    at = lambda place: lines[place] if place < len(lines) else ""
    version = HEADS.get(at(0))
    want(version, "N1")
    heap = numbers_of(at(1), "heap", 3)
    want(heap and 2 <= sum(heap) <= MOST_CELLS and sum(n * words for n, words in zip(heap, CELL_WORDS)) <= MOST_WORDS, "N2")
    limits = numbers_of(at(2), "limits", 2)
    want(limits and 1 <= limits[0] <= MOST_STEPS and limits[1] <= MOST_OUTPUT, "N2")
    workers = [1] if version == 1 else numbers_of(at(3), "workers", 1)
    want(workers and 1 <= workers[0] <= MOST_WORKERS, "N7")
    rows = []
    for place, line in enumerate(lines[version + 2 :], version + 3):
        if line.startswith("end"):
            want(line == f"end {len(rows)}\n" and place == len(lines), "N4")
            return Journal(heap, limits, workers[0], rows)
        row = row_of(line, version, workers[0])
        want(row, "N3", f"at row {len(rows) + 1}")
        rows.append(row)
    raise Refused("N4")


def write(journal):
    """A journal in version 2."""
    words = [("JVMJ 2",), ("heap", *journal.heap), ("limits", *journal.limits), ("workers", journal.workers), *journal.rows]
    return "".join(" ".join(str(it) for it in line) + "\n" for line in (*words, ("end", len(journal.rows)))).encode()


def upgrade(text):
    return write(read(text))
