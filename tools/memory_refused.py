#!/usr/bin/env python3
"""Refuses requests for memory, one after another, and looks how `jvm` ends: with status 6 and its one line, or as if nothing was.

    tools/memory_refused.py [--jvm PROGRAM] [--all]
    tools/memory_refused.py --calls [PROGRAM]

The requests of a whole run of a command are counted, and then the command is run twice for each of them:

- **With that one and all after it refused**, it has to say `jvm: memory` and end with 6, having written no file, and no more than a
  beginning of its output. So no request is made in vain, and no other answer comes in the place of this one.
- **With that one alone refused**, it has to do the same, or what it does else, by a way that does without: std's `collect` asks for
  the room that it expects, and where that is refused for as much as it needs; `replay` makes the rows one by one where it has no
  memory to make them in rounds.

An exploration that has begun is cut off for memory instead, with status 4, having reported outcomes that it reports else. Where threads
are started, the request of each start ends with `jvm: no thread`; and so does each start that the system refuses. Of commands that begin
alike only the first is tried from its first request on, but with --all. Those that fail have to be refused in the same way.

With --calls, `launch`, `Board::new` and `Hall::new` are tried alone in the same way, by the program of the tests in crates/refused_tests,
which `rt ci` builds, and `rt test` there. Each ends with its own error of memory.

It wants a C compiler, `cc`. The last line is 'N passed, M failed'. For run_examples.py, too, which gets a result for each command.
"""
import argparse
import bisect
import itertools
import os
import re
import subprocess
import sys
import tempfile
from typing import NamedTuple

ROOT = os.path.join(os.path.dirname(os.path.abspath(__file__)), "..")
EXAMPLES = os.path.join(ROOT, "examples")
BUILT = os.path.join(ROOT, "crates", "jvm", "out", "jvm")
TESTS = os.path.join(ROOT, "crates", "refused_tests", "out", "refused_tests_tests")
LACKS, NO_THREAD = (6, b"jvm: memory\n"), (6, b"jvm: no thread\n")
# how many of the last requests are tried of a command that begins as another one does: those after its program was loaded
LAST = 160

# the tests of calls, and how each call says that it had no memory
CALLS = {
    "launch_alone": r"World\(Memory\)|Load\(Memory\(AllocError\)\)|Source \{ place: [01], error: "
    r"(Memory|Assembly\(Memory\)|Class\(Memory\)|Text\(TextError \{ line: \d+, fault: Memory \}\)) \}",
    "board_alone": "Memory",
    "hall_alone": "Memory",
}

# a session of the debugger with answers that take memory, and a breakpoint
SESSION = b"stack 0\nbreak Square.area()I 0\nrun 5\nobject 3\nheap\nstack 0\nclass Square\nx\nstep 0\ngc\ndelete 0\nquit\n"

# counts requests, refuses the one whose number REFUSED has, and where ALL is set those after it too, and writes the count to the file
# that COUNTED names; and refuses the start of a thread whose number UNSTARTED has
REFUSER = r"""
#define _GNU_SOURCE
#include <dlfcn.h>
#include <fcntl.h>
#include <pthread.h>
#include <stdio.h>
#include <stdlib.h>
#include <sys/syscall.h>
#include <unistd.h>

static unsigned long made, refused, all, started, unstarted;

static unsigned long number(const char *name) {
    const char *value = getenv(name);
    return value ? strtoul(value, 0, 10) : 0;
}

__attribute__((constructor)) static void begin(void) {
    refused = number("REFUSED"), all = number("ALL"), unstarted = number("UNSTARTED");
    made = 0;
}

// the program ends by this call, which runs no destructors
void _exit(int status) {
    const char *path = getenv("COUNTED");
    if (path) {
        char text[32];
        int length = snprintf(text, sizeof text, "%lu", made);
        int file = open(path, O_WRONLY | O_CREAT | O_TRUNC, 0600);
        if (write(file, text, length) != length) status = 99;
    }
    for (;;) syscall(SYS_exit_group, status);
}

#define REFUSES (++made == refused || (all && refused && made > refused))

void *malloc(size_t size) {
    static void *(*next)(size_t);
    if (!next) next = dlsym(RTLD_NEXT, "malloc");
    return REFUSES ? 0 : next(size);
}

void *realloc(void *old, size_t size) {
    static void *(*next)(void *, size_t);
    if (!next) next = dlsym(RTLD_NEXT, "realloc");
    return REFUSES ? 0 : next(old, size);
}

void *aligned_alloc(size_t alignment, size_t size) {
    static void *(*next)(size_t, size_t);
    if (!next) next = dlsym(RTLD_NEXT, "aligned_alloc");
    return REFUSES ? 0 : next(alignment, size);
}

int pthread_create(pthread_t *thread, const pthread_attr_t *how, void *(*run)(void *), void *with) {
    static int (*next)(pthread_t *, const pthread_attr_t *, void *(*)(void *), void *);
    if (!next) next = dlsym(RTLD_NEXT, "pthread_create");
    return ++started == unstarted ? 11 : next(thread, how, run, with);
}

int posix_memalign(void **to, size_t alignment, size_t size) {
    static int (*next)(void **, size_t, size_t);
    if (!next) next = dlsym(RTLD_NEXT, "posix_memalign");
    return REFUSES ? 12 : next(to, alignment, size);
}
"""


class Command(NamedTuple):
    """A command, the files that it writes, what is typed into it, and how many of its last requests are tried: all, where none is told."""

    words: list
    written: list = []
    typed: bytes = b""
    last: int = None
    carriers: int = 0


def put(path, text):
    with open(path, "w", encoding="ascii") as file:
        file.write(text)
    return path


def commands(jvm, room):
    """The commands."""
    journal, made = f"{room}/journal", f"{room}/Square.class"
    kept, run = f"{room}/kept.class", f"{room}/kept.journal"
    texts = [f"{EXAMPLES}/{name}.j" for name in ("Square", "Shape")]
    empty, small = f"{EXAMPLES}/E.j", ["--small", "4", "--gc", "0"]
    subprocess.run([jvm, "asm", texts[0], kept], check=False)
    subprocess.run([jvm, "run", "--journal", run, *texts], check=False, stdout=subprocess.DEVNULL)
    yield Command([jvm, "run", "--small", "8", "--journal", journal, *texts], [journal])
    yield Command([jvm, "run", *small, "--check", empty], last=1600)
    yield Command([jvm, "run", *small, "--carriers", "4", "--journal", journal, empty], [journal], last=LAST, carriers=4)
    yield Command([jvm, "asm", texts[0], made], [made])
    yield Command([jvm, "dis", kept])
    yield Command([jvm, "replay", run, *texts], last=600)
    yield Command([jvm, "upgrade", run, made], [made])
    yield Command([jvm, "explain"])
    yield Command([jvm, "explain", "J5"])
    yield Command([jvm, "debug", "--small", "8", *texts], typed=SESSION, last=600)
    yield Command([jvm, "explore", "--witnesses", room, empty], [f"{room}/1.journal"], last=400)
    yield Command([jvm, "explore", "--no-room", f"{EXAMPLES}/D.j"], last=LAST)
    # (the last request is that for the line that tells how many parts were written)
    yield Command([jvm, "explore", "--from", run, "--split", "2", "--witnesses", room, *texts], last=600)
    yield from failing_commands(jvm, room, empty, small, kept, run)


def failing_commands(jvm, room, empty, small, kept, run):
    """Commands that don't end well."""
    broken = put(f"{room}/broken.j", ".class E\n.super java/lang/Object\nfoo\n")
    orphan = put(f"{room}/orphan.j", ".class E\n.super F\n")
    unassembled = put(f"{room}/unassembled.j", f"{text_of('lookupswitch|2 : X|1 : X|default : X|X:|return')}")
    thrower = put(f"{room}/thrower.j", text_of("iconst_1|iconst_0|idiv|return"))
    fault = put(f"{room}/fault.j", text_of("iadd|return"))
    changed = put(f"{room}/changed.journal", "JVMJ 1\nheap 4 0 0\nlimits 9 0\n0 o\nend 1\n")
    yield Command([jvm, "asm", broken, f"{room}/none"], [f"{room}/none"])
    yield Command([jvm, "asm", unassembled, f"{room}/none"], [f"{room}/none"])
    yield Command([jvm, "dis", empty])
    yield Command([jvm, "run", kept, orphan])
    yield Command([jvm, "run", *small, "--medium", "70000", empty], last=LAST)
    yield Command([jvm, "run", *small, thrower], last=LAST)
    yield Command([jvm, "run", *small, fault], last=LAST)
    yield Command([jvm, "run", *small, f"{EXAMPLES}/D.j"], last=LAST)
    yield Command([jvm, "run", *small, "--steps", "2", thrower], last=LAST)
    yield Command([jvm, "replay", changed, empty], last=400)
    yield Command([jvm, "upgrade", empty, f"{room}/none"], [f"{room}/none"])
    yield Command([jvm, "explain", "J0"])
    yield Command([jvm, "run"])
    yield Command([jvm, "run", "--steps", "many", empty])
    yield Command([jvm, "--help"])


def text_of(code):
    """A class with a main."""
    head = ".class E\n.super java/lang/Object\n.method static main()V\n.limit stack 2\n.limit locals 0\n"
    return head + code.replace("|", "\n") + "\n.end method\n"


def ending(command, library, **given):
    """What a command says and writes, with some variables of its environment."""
    for path in command.written:
        if os.path.exists(path):
            os.remove(path)
    set_ = {**os.environ, "LD_PRELOAD": library, **{name: str(value) for name, value in given.items()}}
    how = {"input": command.typed, "stdout": subprocess.PIPE, "stderr": subprocess.PIPE}
    done = subprocess.run(command.words, env=set_, timeout=60, check=False, **how)
    files = [open(path, "rb").read() if os.path.exists(path) else None for path in command.written]
    if command.carriers:
        files = [it is not None for it in files]  # the journal is another one each time
    return (done.returncode, done.stderr), done.stdout, files


def refuser(room):
    """The library that refuses requests, and what is wrong with it, or nothing."""
    source, library = f"{room}/refuser.c", f"{room}/refuser.so"
    put(source, REFUSER)
    try:
        words = ["cc", "-O1", "-fno-builtin", "-shared", "-fPIC", "-o", library, source, "-ldl"]
        made = subprocess.run(words, stdout=subprocess.PIPE, stderr=subprocess.STDOUT, check=False)
    except OSError as error:
        return library, f"there is no C compiler: {error}"
    return library, made.stdout.decode(errors="replace") if made.returncode else None


def is_given_up(found, whole, line):
    """Whether a command ended with this line, having written no file, and no more than a beginning of its output."""
    return found[0] == line and whole[1].startswith(found[1]) and not any(found[2])


def is_cut_off(command, found, whole):
    """Whether an exploration was cut off for memory, having reported no more than a beginning of its outcomes."""
    outcomes, _, last = found[1].rpartition(b"explored ")
    is_so = found[0] == (4, b"") and last.endswith(b" turns: cut off: memory\n") and whole[1].startswith(outcomes)
    return command.words[1] == "explore" and is_so


def refused_one_by_one(command, library, counted):
    """What is wrong with a command's ends where each of its requests is refused in turn, or nothing."""
    whole = ending(command, library, COUNTED=counted)
    with open(counted, encoding="ascii") as file:
        requests = int(file.read())
    lacked, without_thread = 0, 0
    for number in range(max(1, requests + 1 - (command.last or requests)), requests + 1):
        found = ending(command, library, REFUSED=number, ALL=1)
        cut_off = is_cut_off(command, found, whole)
        if not cut_off and not is_given_up(found, whole, LACKS) and not (command.carriers and found == whole and number > requests - 8):
            return f"with request {number} of {requests} and all after it refused: {found[0]}, {found[1]!r}"
        found = ending(command, library, REFUSED=number)
        cut_off = is_cut_off(command, found, whole)
        lacked += cut_off or is_given_up(found, whole, LACKS)
        without_thread += is_given_up(found, whole, NO_THREAD)
        if found != whole and not cut_off and not is_given_up(found, whole, LACKS) and not is_given_up(found, whole, NO_THREAD):
            return f"with request {number} of {requests} refused: {found[0]}, {found[1]!r}"
    if without_thread != command.carriers or not lacked:
        return f"of {requests} requests {lacked} are for memory alone, and {without_thread} for threads"
    return unstarted(command, library, whole)


def unstarted(command, library, whole):
    """What is wrong with a command's ends where each start of a thread is refused in turn, or nothing. The last worker needs none."""
    for number in range(1, command.carriers + 1):
        found = ending(command, library, UNSTARTED=number)
        if not is_given_up(found, whole, NO_THREAD):
            return f"with thread {number} not started: {found[0]}, {found[1]!r}"
    return None if ending(command, library, UNSTARTED=command.carriers + 1) == whole else "more threads are started than workers need"


def tested(tests, name, library, number, **given):
    """What a test prints and says with some requests refused, and whether it passes."""
    how = {"stdout": subprocess.PIPE, "stderr": subprocess.PIPE, "timeout": 60, "check": False}
    set_ = {**os.environ, "LD_PRELOAD": library, "REFUSED": str(number), **given}
    done = subprocess.run([tests, f"call_tests::{name}"], env=set_, **how)
    return done.stdout.decode(), done.stderr.decode(), done.returncode == 0


def first_of(tests, name, library):
    """The number of a call's first request: the least with which, and with all after it refused, the test says that the call begins."""

    def begins(number):
        return tested(tests, name, library, number, ALL="1")[0].startswith("begun\n")

    most = next(number for number in (1 << n for n in itertools.count()) if begins(number))
    return bisect.bisect_left(range(most + 1), True, lo=max(1, most // 2), key=begins)


def refused_alone(tests, name, library):
    """How many requests a call makes, and what is wrong with its ends where each is refused in turn, or nothing."""
    first, lacks = first_of(tests, name, library), re.compile(f"error: ({CALLS[name]})\n")
    for number in itertools.count(first):
        _, said, passes = tested(tests, name, library, number, ALL="1")
        if passes:
            return number - first, None if number > first else "it makes none"
        if not lacks.match(said):
            return number - first, f"with request {number} and all after it refused: {said}"
        _, said, passes = tested(tests, name, library, number)
        if not passes and not lacks.match(said):
            return number - first, f"with request {number} refused: {said}"


def tried_calls(tests, room):
    """What was tried of calls alone, each with what is wrong, or nothing."""
    library, why = refuser(room)
    if not os.path.exists(tests):
        why = f"there is no {tests}: rt test in crates/refused_tests builds it"
    for name in CALLS:
        made, wrong = (0, why) if why else refused_alone(tests, name, library)
        yield f"each request for memory refused: {name}, {made} requests", wrong


def tried_refusals(jvm, room, whole=False):
    """What was tried of refused requests, each with what is wrong, or nothing."""
    library, why = refuser(room)
    for command in commands(jvm, room):
        command = command._replace(last=None) if whole else command
        name = " ".join(word.removeprefix(f"{room}/").removeprefix(f"{EXAMPLES}/") for word in command.words[1:])
        yield f"each request for memory refused: {name}", why or refused_one_by_one(command, library, f"{room}/count")


def main():
    words = argparse.ArgumentParser(description=__doc__.split("\n", maxsplit=1)[0])
    words.add_argument("--jvm", default=BUILT)
    words.add_argument("--all", action="store_true")
    words.add_argument("--calls", nargs="?", const=TESTS, metavar="PROGRAM")
    given = words.parse_args()
    passed = failed = 0
    with tempfile.TemporaryDirectory() as room:
        tried = tried_calls(os.path.abspath(given.calls), room) if given.calls else tried_refusals(os.path.abspath(given.jvm), room, given.all)
        for name, why in tried:
            passed, failed = passed + (not why), failed + bool(why)
            if why or given.calls:
                print(f"{name}: {why or 'as it should'}", flush=True)
    print(f"{passed} passed, {failed} failed")
    return 1 if failed else 0


if __name__ == "__main__":
    sys.exit(main())
