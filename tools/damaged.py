#!/usr/bin/env python3
"""Gives `jvm` damaged texts, class files and journals, and compares each answer with that of a plain reader (tools/plain).

    tools/damaged.py [--jvm PATH] [--jobs N] [--all] [--large MEGABYTES]

Texts go to `asm` and to `run`, class files to `dis` and to `run`, journals to `upgrade` and to `replay`. What the plain reader
refuses is to be refused with its code at its place. What it takes is to be taken: a text's class file and a journal's version 2 are
the plain ones, byte by byte, and a run of at most 10,000 steps ends with a status that docs/CODES.md has, and its line.

What is tried: each front of an input, and each byte changed to 0 and to ff, of the inputs of examples/rows.txt and sessions.txt; a
tenth of these of examples/answers.txt and of the programs of examples/ (with --all: all of them); and a thousand changes (with
--all: thirty thousand, and each way and each bound to each pc) that keep an input well-formed a step further. docs/TESTING.md
says what came of it.

The last line is 'N passed, M failed'.
"""
import argparse
import collections
import itertools
import multiprocessing
import os
import random
import re
import resource
import signal
import subprocess
import sys
import tempfile
import threading
import time

from plain import class_parts, damage, inputs, large, worked
from plain.inputs import CLASS_FILE, JOURNAL, TEXT, bytes_of
from plain.wanted import Case, code_of, difference, file_name, wanted_of

BUILT = os.path.join(os.path.dirname(os.path.abspath(__file__)), "..", "crates", "jvm", "out", "jvm")
SEED = 1978
# one of so many refused inputs is given to `run` or `replay` too; one of so many of the rest is tried; and so many of each long input
ALSO_RUN, OF_THE_REST, OF_LONG = 20, 10, 6
# the most files of a program that is changed so that it is well-formed a step further
MOST_FILES = 20
STRUCTURED, STRUCTURED_OF_ALL = 1_000, 30_000
# the answers that the gate's part has at least
LEAST = 100_000
# so many cases are one process of the shell, with so many seconds of the processor for each command and by the clock for all
CHUNK, SECONDS, SECONDS_OF_CHUNK = 200, 20, 600
# where the files of a chunk stand: in memory, if there is such a folder
ROOM = "/dev/shm" if os.path.isdir("/dev/shm") else None
# the status of a command that came to no end
NO_ANSWER = -1


def put(folder, name, content):
    with open(os.path.join(folder, name), "wb") as file:
        file.write(content)


def shell(jvm, folder):
    """What the commands of a folder print, one after another in one shell; nothing where they don't come to an end."""
    words = ["sh", "commands", jvm]
    with subprocess.Popen(words, cwd=folder, stdout=subprocess.PIPE, stderr=subprocess.STDOUT, start_new_session=True) as process:
        try:
            return process.communicate(timeout=SECONDS_OF_CHUNK)[0].decode("latin-1")
        except subprocess.TimeoutExpired:
            os.killpg(process.pid, signal.SIGKILL)
            return ""


def answers_of(jvm, folder, commands):
    """Status and standard error of each command; a status that there is none where it has no answer."""
    lines = [f"ulimit -t {SECONDS}", *(f'"$1" {words} 2>&1 >{out}; echo "@ $?"' for words, out in commands)]
    put(folder, "commands", "\n".join(lines).encode())
    found = re.findall(r"((?:(?!@ ).*\n)*)@ (\d+)\n", shell(jvm, folder))
    told = [(int(status), told) for told, status in found]
    return told + [(NO_ANSWER, "")] * (len(commands) - len(told))


def asked_of(jvm, folder, cases):
    """The commands of some cases, each with the case, what is wanted, and what is answered: status, lines, and what is written."""
    others, asked = {}, []
    for number, case in enumerate(cases):
        put(folder, file_name(number, case.of.kind), case.given)
        asked += [(number, case, wanted) for wanted in wanted_of(case, number, others)]
    for source, name in others.items():
        put(folder, name, source)
    told = answers_of(jvm, folder, [(it.words, f"{number}.out" if it.said else "/dev/null") for number, _, it in asked])
    for (number, case, wanted), (status, lines) in zip(asked, told):
        out = os.path.join(folder, f"{number}.out")
        is_written = (wanted.said or wanted.written is not None) and os.path.exists(out)
        yield case, wanted, status, lines, bytes_of(out) if is_written else b""


def chunk(given):
    """What is wrong with the answers to some cases, how many were asked for, and how many of each there were."""
    jvm, cases = given
    wrong, counts = [], collections.Counter()
    try:
        with tempfile.TemporaryDirectory(dir=ROOM) as folder:
            for case, wanted, *answer in asked_of(jvm, folder, cases):
                command = wanted.words.split(" ")[0]
                why = difference(wanted, *answer)
                counts[f"{command} {code_of(wanted, answer[0])}"] += 1
                wrong += [f"{case.of.name}: {case.done}: {command}: {why}"] if why else []
    except Exception as fault:  # a fault of the plain reader is told like a wrong answer
        wrong.append(f"{cases[0].of.name}: {cases[0].done}, or one of the {len(cases) - 1} after it: {fault!r}")
        counts["no answer"] += 1
    return wrong, counts.total(), counts


class Chosen:
    """The cases that are tried, each of them once."""

    def __init__(self, seed):
        self.rng, self.seen = random.Random(seed), set()

    def case(self, it, done, given, is_checked=False):
        """A case, or nothing where the same was tried."""
        key = it.kind, given
        if key in self.seen:
            return None
        self.seen.add(key)
        return Case(it, done, given, self.rng.randrange(ALSO_RUN) == 0, is_checked)

    def simple(self, found, one_of, is_all):
        """The fronts and the bytes of inputs, or one of so many of them; a few of those of long inputs where all are tried."""
        for it in found:
            if inputs.is_short(it, is_all):
                for done, given in damage.simple(it.whole):
                    if one_of == 1 or self.rng.randrange(one_of) == 0:
                        yield self.case(it, done, given)
            elif is_all:
                for _ in range(OF_LONG):
                    yield self.case(it, *damage.one_of_simple(it.whole, self.rng))

    def structured(self, found, count):
        """So many changes of inputs that keep them well-formed a step further: class files as often as all else, and those of each
        file of examples/ as often as those of another."""
        good = {(it.kind, it.whole): it for it in found if inputs.is_short(it, False) and inputs.is_good(it)}
        groups = {CLASS_FILE: {}, TEXT: {}, JOURNAL: {}}
        for it in good.values():
            if len(it.program) <= MOST_FILES:
                groups[it.kind].setdefault(it.name.split(":")[0].split("/")[0], []).append(it)
        left = count
        while left:
            group = groups[self.rng.choice((CLASS_FILE, CLASS_FILE, TEXT, JOURNAL))]
            it = self.rng.choice(group[self.rng.choice(list(group))])
            done, given = damage.structured(it, self.rng)
            made = self.case(it, done, given, True) if given != it.whole else None
            if made:
                left -= 1
                yield made


    def each_pc(self, found):
        """The ways and bounds of class files to each pc."""
        for it in found:
            if it.kind == CLASS_FILE and inputs.is_short(it, False):
                for done, given in class_parts.each_pc(it.whole):
                    yield self.case(it, done, given, True)


def cases(recorder, is_all):
    """All that is tried."""
    chosen = Chosen(SEED)
    rows = [*inputs.of_rows(recorder), *inputs.of_sessions()]
    rest = [*inputs.of_answers(), *inputs.of_examples(recorder)]
    yield from chosen.structured(rows + rest, STRUCTURED_OF_ALL if is_all else STRUCTURED)
    yield from chosen.each_pc(rows if is_all else ())
    yield from chosen.simple(rows, 1, is_all)
    yield from chosen.simple(rest, 1 if is_all else OF_THE_REST, is_all)


def in_chunks(found):
    found = (it for it in found if it)
    while part := list(itertools.islice(found, CHUNK)):
        yield part


class Ahead:
    """Parts that are handed out, of which no more than so many are under way."""

    def __init__(self, most):
        self.left = threading.Semaphore(most)

    def parts(self, jvm, found):
        for part in in_chunks(found):
            self.left.acquire()
            yield jvm, part

    def done(self):
        self.left.release()


def show(line):
    print(f"damaged: {line}", flush=True)


def tried_cases(jvm, jobs, is_all, tell):
    """What is wrong with the answers to all cases, which is told at once, how many answers there were, and how many of each."""
    wrong, asked, counts = [], 0, collections.Counter()
    with tempfile.TemporaryDirectory() as room, multiprocessing.Pool(jobs) as pool:
        ahead = Ahead(4 * jobs)
        parts = ahead.parts(jvm, cases(inputs.Recorder(jvm, room), is_all))
        for more, number, counted in pool.imap_unordered(chunk, parts):
            ahead.done()
            for line in more:
                tell(line)
            wrong, asked = wrong + more, asked + number
            counts.update(counted)
        pool.close()
        pool.join()
    return wrong, asked, counts


def tried_damaged(jvm, _room):
    """The same for run_examples.py: all answers as one, and each that is wrong."""
    wrong, asked, _ = tried_cases(os.path.abspath(jvm), os.cpu_count() or 1, False, lambda line: None)
    yield f"{asked} answers to damaged input", None if asked >= LEAST else f"fewer than {LEAST}"
    for line in wrong:
        yield f"damaged input: {line}", "it differs"
    yield from worked.tried(os.path.abspath(jvm))


def seconds():
    """The processor's time of this process and of all that it started."""
    found = [resource.getrusage(who) for who in (resource.RUSAGE_SELF, resource.RUSAGE_CHILDREN)]
    return sum(it.ru_utime + it.ru_stime for it in found)


def main():
    words = argparse.ArgumentParser(description=__doc__.split("\n", maxsplit=1)[0])
    words.add_argument("--jvm", default=BUILT)
    words.add_argument("--jobs", type=int, default=os.cpu_count() or 1)
    words.add_argument("--all", action="store_true")
    words.add_argument("--large", type=int, metavar="MEGABYTES", help="large inputs instead, of so many megabytes where a size can be chosen")
    words.add_argument("--counts", action="store_true", help="how many answers of each command had which code or status")
    given = words.parse_args()
    if not os.path.exists(given.jvm):
        print(f"damaged: there is no {given.jvm}\n0 passed, 1 failed")
        return 1
    jvm, began = os.path.abspath(given.jvm), time.time()
    wrong, asked, counts = ([], 0, {}) if given.large else tried_cases(jvm, given.jobs, given.all, show)
    for name, why in large.tried(jvm, given.large) if given.large else worked.tried(jvm):
        asked += 1
        if why:
            wrong.append(name)
            show(f"{name}: {why}")
    if given.counts:
        for what, count in sorted(counts.items()):
            show(f"{what}: {count}")
    show(f"{seconds():.0f} seconds of the processor, {time.time() - began:.0f} by the clock")
    print(f"{asked - len(wrong)} passed, {len(wrong)} failed")
    return 1 if wrong else 0


if __name__ == "__main__":
    sys.exit(main())
