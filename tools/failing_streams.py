#!/usr/bin/env python3
"""Lets each read and each write of each file and stream fail, in each command of `jvm`, and looks how it ends.

    tools/failing_streams.py [--jvm PROGRAM]

Three parts, of which each wants status 6 with `jvm: cannot read FILE` or `jvm: cannot write FILE`, where FILE is `-` for standard
input and output, and of what is printed no more than a beginning:

- **System calls.** A library that is loaded before the C library counts the calls `open`, `read` and `write`, lets one of them fail,
  and lets the others move a byte at a time. So a call fails at each byte of each file and stream. Without a failing call a byte at a
  time changes nothing, and no more does a call that a signal interrupts; but the debugger's input and output, and the report of
  `explore`, count such a call as failed.
- **Sessions of the debugger**: beside that, which answers there are before a read fails.
- **Real ones**: a full device, a pipe that nobody reads, streams that are closed, folders, files that aren't there.

Where standard error doesn't take a line, output and files are as ever, and 6 is the status. It wants a C compiler, `cc`. The last line is
'N passed, M failed'. For run_examples.py, too.
"""
import argparse
import errno
import os
import subprocess
import sys
import tempfile

ROOT = os.path.join(os.path.dirname(os.path.abspath(__file__)), "..")
EXAMPLES = os.path.join(ROOT, "examples")
BUILT = os.path.join(ROOT, "crates", "jvm", "out", "jvm")

LIBRARY = r"""
#include <errno.h>
#include <fcntl.h>
#include <stdarg.h>
#include <stdio.h>
#include <stdlib.h>
#include <string.h>
#include <sys/syscall.h>
#include <unistd.h>

/* the call that fails, from 1, with this error; how many bytes a call moves at most; and where each call is told */
static unsigned long made, failing, error, most;
static int told = -1;
static char names[16][200];

static unsigned long number(const char *name) {
    const char *value = getenv(name);
    return value ? strtoul(value, 0, 10) : 0;
}

__attribute__((constructor)) static void begin(void) {
    const char *path = getenv("TOLD");
    failing = number("FAILING"), error = number("ERROR"), most = number("MOST");
    if (path) told = syscall(SYS_open, path, O_WRONLY | O_CREAT | O_TRUNC, 0600);
}

static int fails(const char *what, int fd, const char *name) {
    char line[300];
    if (told >= 0) syscall(SYS_write, told, line, snprintf(line, sizeof line, "%s %d %s\n", what, fd, name));
    if (++made != failing) return 0;
    errno = error;
    return 1;
}

static const char *name_of(int fd) {
    return fd < 3 ? "-" : names[fd % 16];
}

static size_t least(size_t size) {
    return most && size > most ? most : size;
}

int open(const char *path, int flags, ...) {
    va_list rest;
    va_start(rest, flags);
    int mode = va_arg(rest, int);
    va_end(rest);
    if (fails(flags & (O_WRONLY | O_RDWR) ? "write" : "read", 16, path)) return -1;
    int fd = syscall(SYS_openat, AT_FDCWD, path, flags, mode);
    if (fd >= 0) snprintf(names[fd % 16], sizeof names[0], "%s", path);
    return fd;
}

ssize_t read(int fd, void *to, size_t size) {
    return fails("read", fd, name_of(fd)) ? -1 : syscall(SYS_read, fd, to, least(size));
}

ssize_t write(int fd, const void *from, size_t size) {
    return fails("write", fd, name_of(fd)) ? -1 : syscall(SYS_write, fd, from, least(size));
}
"""

# a session on the empty main, with what each command answers
SESSION = [
    ("stack 0", "frame 0 E.main()V pc 0\nlocals\nstack\n"),
    ("break E.main()V 0", "breakpoint 0\n"),
    ("run 5", "ran 1: finished\n"),
    ("step 0", "not ready\n"),
    ("quit", "output 0\n"),
]
TYPED = "".join(f"{command}\n" for command, _ in SESSION).encode()
ANSWERED = "".join(answer for _, answer in SESSION).encode()


class Shown:
    """What a command shows: its status, its output, its lines of standard error, and the file that it writes."""

    def __init__(self, done, written):
        self.status, self.output, self.errors = done.returncode, done.stdout, done.stderr
        self.file = None
        if written and os.path.isfile(written):
            with open(written, "rb") as file:
                self.file = file.read()

    def __eq__(self, other):
        return self.__dict__ == other.__dict__

    def __repr__(self):
        return f"status {self.status}, {self.errors!r}, {self.output[-60:]!r}"


def ran(words, written=None, typed=b"", **given):
    """What a command shows, with some variables of its environment."""
    if written and os.path.isfile(written):
        os.remove(written)
    words = [str(it) for it in words]
    set_ = {name: str(value) for name, value in given.items()}
    how = {"input": typed, "stdout": subprocess.PIPE, "stderr": subprocess.PIPE, "env": {**os.environ, **set_}}
    return Shown(subprocess.run(words, timeout=60, check=False, **how), written)


def library(room):
    """The library that lets calls fail, and what is wrong with it, or nothing."""
    source, made = f"{room}/failing.c", f"{room}/failing.so"
    with open(source, "w", encoding="ascii") as file:
        file.write(LIBRARY)
    try:
        done = subprocess.run(["cc", "-O1", "-shared", "-fPIC", "-o", made, source], stdout=subprocess.PIPE, stderr=subprocess.STDOUT, check=False)
    except OSError as failed:
        return made, f"there is no C compiler: {failed}"
    return made, done.stdout.decode(errors="replace") if done.returncode else None


# ---- the commands

def kept(jvm, room):
    """A class file, a journal, and a text that is refused."""
    paths = {"class": f"{room}/E.class", "journal": f"{room}/E.journal", "bad": f"{room}/bad.j"}
    subprocess.run([jvm, "asm", f"{EXAMPLES}/E.j", paths["class"]], check=True)
    subprocess.run([jvm, "run", "--journal", paths["journal"], f"{EXAMPLES}/E.j"], check=True)
    with open(paths["bad"], "w", encoding="ascii") as file:
        file.write(".class bad\nfoo\n")
    return paths


def commands(jvm, room):
    """The commands, each with the file that it writes, and what is typed into it."""
    file, out, texts = kept(jvm, room), f"{room}/written", [f"{EXAMPLES}/{it}.j" for it in ("E", "sum")]
    yield [jvm, "asm", texts[0], out], out, b""
    yield [jvm, "asm", file["bad"], out], out, b""
    yield [jvm, "dis", file["class"]], None, b""
    yield [jvm, "run", "--journal", out, texts[1], texts[0]], out, b""
    yield [jvm, "run", "--carriers", "4", texts[1]], None, b""
    yield [jvm, "run", "--check", "--steps", "4", "--gc", "0", texts[1]], None, b""
    yield [jvm, "replay", file["journal"], texts[0]], None, b""
    yield [jvm, "upgrade", file["journal"], out], out, b""
    yield [jvm, "explain", "F8"], None, b""
    yield [jvm, "explain", "J0"], None, b""
    yield [jvm, "--version"], None, b""
    yield [jvm, "run", "--steps", "many", texts[0]], None, b""
    yield [jvm, "explore", "--witnesses", room, texts[0]], f"{room}/1.journal", b""
    yield [jvm, "explore", "--from", file["journal"], "--split", "2", "--witnesses", room, texts[0]], f"{room}/1.journal", b""
    yield [jvm, "debug", texts[0]], None, TYPED


def title(words, room):
    return " ".join(it.removeprefix(f"{room}/").removeprefix(f"{EXAMPLES}/") for it in words[1:])


# ---- system calls that fail

def lacks(call, shown, whole):
    """What is wrong with the end of a command of which one call failed, or nothing."""
    what, fd, name = call.split(" ", 2)
    if fd == "2":
        is_so = (shown.status, shown.output, shown.file) == (6, whole.output, whole.file)
        return None if is_so and whole.errors not in shown.errors else f"{call}: {shown}"
    line = f"jvm: cannot {what} {name}\n".encode()
    is_front = whole.output.startswith(shown.output) and (whole.file or b"").startswith(shown.file or b"")
    return None if (shown.status, shown.errors) == (6, line) and is_front else f"{call}: {shown}"


def calls_of(words, written, typed, loaded, room, most):
    """What a command shows where each call moves so many bytes at most, and its calls."""
    told = f"{room}/told"
    whole = ran(words, written, typed, LD_PRELOAD=loaded, MOST=most, TOLD=told)
    with open(told, encoding="ascii") as file:
        return whole, file.read().splitlines()


def one_by_one(words, written, typed, loaded, room):
    """What is wrong with a command's ends where each of its calls fails in turn, or nothing."""
    plainly = ran(words, written, typed)
    for most in (0, 1):
        whole, calls = calls_of(words, written, typed, loaded, room, most)
        if whole != plainly or not calls:
            return f"with {most or 'all'} bytes at a time: {whole}"
        for number, call in enumerate(calls):
            given = {"LD_PRELOAD": loaded, "MOST": most, "FAILING": number + 1}
            why = lacks(call, ran(words, written, typed, ERROR=errno.EIO, **given), whole)
            if why:
                return f"with {most or 'all'} bytes at a time, call {number + 1}, {why}"
            counts = words[1] in ("debug", "explore") and call.startswith(("read 0 ", "write 1 "))
            if most == 0 and not counts and (shown := ran(words, written, typed, ERROR=errno.EINTR, **given)) != whole:
                return f"interrupted at call {number + 1}, {call}: {shown}"
    return None


def session(jvm, loaded):
    """What is wrong with the answers of a session of which each read and each write fails in turn, or nothing."""
    words = [jvm, "debug", "--small", "2", "--medium", "0", "--large", "0", f"{EXAMPLES}/E.j"]
    given = {"LD_PRELOAD": loaded, "MOST": 1, "ERROR": errno.EIO}
    begun = os.path.getsize(f"{EXAMPLES}/E.j") + 2
    failing, ends = begun, set()
    while (failing := failing + 1) and (shown := ran(words, None, TYPED, FAILING=failing, **given)).status:
        answers = [answer for _, answer in SESSION]
        fronts = ["".join(answers[:count]).encode() for count in range(len(answers))]
        wanted = {b"jvm: cannot read -\n": shown.output in fronts, b"jvm: cannot write -\n": ANSWERED.startswith(shown.output)}
        if shown.status != 6 or not wanted.get(shown.errors):
            return f"call {failing}: {shown}"
        ends.add((shown.errors, shown.output))
    if shown.output != ANSWERED or failing != begun + len(TYPED) + len(ANSWERED) + 1:
        return f"call {failing}: {shown}"
    # a read fails before the first command and after each but the last, a write before each byte
    return None if len(ends) == len(SESSION) + len(ANSWERED) else f"it ends in {len(ends)} ways"


# ---- streams and files that fail by themselves

def with_output(words, output, typed):
    """The status and the lines of standard error of a command that writes to this stream; it is closed where there is none."""
    how = {"preexec_fn": lambda: os.close(1)} if output is None else {"stdout": output}
    done = subprocess.run(words, input=typed, stderr=subprocess.PIPE, timeout=60, check=False, **how)
    return done.returncode, done.stderr


def unread_pipe():
    ours, theirs = os.pipe()
    os.close(ours)
    return theirs


def outputs(words, typed):
    """What is wrong with a command whose output can't be written, or nothing."""
    for name, output in (("full", os.open("/dev/full", os.O_WRONLY)), ("a pipe that nobody reads", unread_pipe()), ("closed", None)):
        found = with_output(words, output, typed)
        if output is not None:
            os.close(output)
        if found != (6, b"jvm: cannot write -\n"):
            return f"{name}: status {found[0]}, {found[1]!r}"
    return None


def errors(words):
    """What is wrong with a command whose lines of standard error can't be written, or nothing."""
    wanted = subprocess.run(words, stdout=subprocess.PIPE, stderr=subprocess.PIPE, timeout=60, check=False)
    for stream in (os.open("/dev/full", os.O_WRONLY), unread_pipe()):
        done = subprocess.run(words, stdout=subprocess.PIPE, stderr=stream, timeout=60, check=False)
        os.close(stream)
        if not wanted.stderr or (done.returncode, done.stdout) != (6, wanted.stdout):
            return f"status {done.returncode}, {done.stdout!r}"
    return None


def files(jvm, room):
    """Commands with a file that can't be read or written, and the line that they end with."""
    file, text, none, folder = kept(jvm, room), f"{EXAMPLES}/E.j", f"{room}/none/none", room
    for bad in (none, folder):
        yield ["asm", bad, f"{room}/x"], f"read {bad}"
        yield ["dis", bad], f"read {bad}"
        yield ["run", bad], f"read {bad}"
        yield ["run", text, bad, none], f"read {bad}"
        yield ["debug", bad], f"read {bad}"
        yield ["explore", bad], f"read {bad}"
        yield ["explore", "--from", bad, text], f"read {bad}"
        yield ["explore", "--from", file["journal"], bad], f"read {bad}"
        yield ["replay", bad, text], f"read {bad}"
        yield ["replay", file["journal"], bad], f"read {bad}"
        yield ["upgrade", bad, f"{room}/x"], f"read {bad}"
    for bad in (none, folder, "/dev/full"):
        yield ["asm", text, bad], f"write {bad}"
        yield ["run", "--journal", bad, text], f"write {bad}"
        yield ["run", "--carriers", "2", "--check", "--journal", bad, text], f"write {bad}"
        yield ["upgrade", file["journal"], bad], f"write {bad}"


def tried_files(jvm, room):
    """What is wrong with commands whose files can't be read or written, or nothing."""
    for words, line in files(jvm, room):
        shown = ran([jvm, *words])
        if (shown.status, shown.output, shown.errors) != (6, b"", f"jvm: cannot {line}\n".encode()):
            return f"{' '.join(words)}: {shown}"
    return None


def inputs(jvm):
    """What is wrong with a session whose input is closed or a folder, or nothing."""
    words = [jvm, "debug", f"{EXAMPLES}/E.j"]
    folder = os.open(ROOT, os.O_RDONLY)
    for how in ({"stdin": folder}, {"preexec_fn": lambda: os.close(0)}):
        done = subprocess.run(words, stdout=subprocess.PIPE, stderr=subprocess.PIPE, timeout=60, check=False, **how)
        if (done.returncode, done.stdout, done.stderr) != (6, b"", b"jvm: cannot read -\n"):
            return f"status {done.returncode}, {done.stderr!r}"
    os.close(folder)
    return None


def tried_failures(jvm, room):
    """What was tried of failing reads and writes, each with what is wrong, or nothing."""
    loaded, why = library(room)
    for words, written, typed in commands(jvm, room):
        yield f"each read and write fails: {title(words, room)}", why or one_by_one(words, written, typed, loaded, room)
    yield "each read and write of a session fails", why or session(jvm, loaded)
    sum_, class_, journal = f"{EXAMPLES}/sum.j", f"{room}/E.class", f"{room}/sum.journal"
    subprocess.run([jvm, "run", "--journal", journal, sum_], stdout=subprocess.DEVNULL, check=True)
    for words in (["dis", class_], ["run", sum_], ["run", "--carriers", "2", sum_], ["replay", journal, sum_], ["debug", sum_],
                  ["explore", sum_], ["explore", "--split", "2", "--witnesses", room, sum_], ["explain"],
                  ["explain", "J5"], ["--help"], ["run", "--help"], ["--version"]):
        yield f"an output that can't be written: {title(['', *words], room)}", outputs([jvm, *words], b"stack 0\nquit\n")
    for words in (["asm", f"{room}/bad.j", f"{room}/x"], ["dis", sum_], ["run", "--steps", "4", sum_], ["replay", sum_, sum_],
                  ["run", "a", "--gc", "-"]):
        yield f"lines that can't be written: {title(['', *words], room)}", errors([jvm, *words])
    yield "files that can't be read or written", tried_files(jvm, room)
    yield "input that can't be read", inputs(jvm)


def main():
    words = argparse.ArgumentParser(description=__doc__.split("\n", maxsplit=1)[0])
    words.add_argument("--jvm", default=BUILT)
    given = words.parse_args()
    passed = failed = 0
    with tempfile.TemporaryDirectory() as room:
        for name, why in tried_failures(os.path.abspath(given.jvm), room):
            passed, failed = passed + (not why), failed + bool(why)
            if why:
                print(f"{name}: {why}")
    print(f"{passed} passed, {failed} failed")
    return 1 if failed else 0


if __name__ == "__main__":
    sys.exit(main())
