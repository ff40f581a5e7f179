#!/usr/bin/env python3
"""Tries `./jvm` as someone does who just got the sources: in a fresh folder, where nothing is built.

    tools/first_command.py

The folder is a clone of this checkout, so what isn't committed isn't tried; where this is no checkout, it is a copy without
what is built. A program without its proofs is built there once, and another build is begun that finds the disk full: some five
minutes of processor time.

The last line is 'N passed, M failed', with ', K skipped' where there are some.
"""
import argparse
import contextlib
import os
import re
import shutil
import signal
import subprocess
import sys
import tempfile
import time

ROOT = os.path.dirname(os.path.dirname(os.path.abspath(__file__)))
NOTICE = "jvm: this program isn't proved; ./jvm --prove proves and builds one that is"
BUILDS = f"{NOTICE}; it is made first, once, which takes a minute or two"
# what the script and what stands for a proved program call, but for the kit
COMMANDS = ("bash", "cat", "dirname", "find", "flock", "mkdir", "readlink")
# notes each call, so that the builds can be counted
PYTHON = """#!/bin/bash
echo "$*" >> {log}
exec {real} "$@"
"""
# stands for a proved program
STUB = """#!/bin/bash
echo "proved: $# words"
printf '[%s]\\n' "$@"
cat
echo "a line of errors" >&2
exit 5
"""
# a build on a busy machine, and what is no build, in seconds
LONG, SHORT = 3600, 300
# so full a disk that the kit finds no room for the program, or for itself
SIZES = ("4m", "64k")


class Skipped(Exception):
    """Why something can't be tried here."""


class Door:
    """A fresh folder, and what its `./jvm` shows."""

    def __init__(self, room):
        """Makes what stands before the path; the folder isn't there yet."""
        self.room, self.folder, self.calls = room, f"{room}/fresh", []
        self.log = f"{room}/calls of python"
        self.bin = f"{room}/bin"
        os.mkdir(self.bin)
        write(f"{self.bin}/python3", PYTHON.format(log=f"'{self.log}'", real=os.path.realpath(sys.executable)))
        self.path = f"{self.bin}{os.pathsep}{os.environ['PATH']}"

    def begun(self, *words, before=(), command="./jvm", folder=None, **environment):
        """A call that has begun; before: words that stand before the command."""
        how = {"stdin": subprocess.PIPE, "stdout": subprocess.PIPE, "stderr": subprocess.PIPE, "start_new_session": True}
        how["env"] = {**os.environ, "PATH": self.path, **environment}
        self.calls.append(subprocess.Popen([*before, command, *words], cwd=folder or self.folder, **how))
        return self.calls[-1]

    def shown(self, *words, given=b"", limit=SHORT, **how):
        """The output of a call, its lines on standard error, and its status."""
        return ended(self.begun(*words, **how), given, limit)

    def close(self):
        """Ends the calls that are left, where this is ended itself."""
        for call in self.calls:
            stopped(call)

    def builds(self):
        """How many builds were begun."""
        if not os.path.exists(self.log):
            return 0
        with open(self.log, encoding="utf-8") as file:
            return sum("checked_program.py" in line for line in file)

    def has_built(self):
        """What is in the folder of what is built."""
        return sorted(os.listdir(f"{self.folder}/out")) if os.path.isdir(f"{self.folder}/out") else []


def write(path, text):
    """Writes a script."""
    os.makedirs(os.path.dirname(path), exist_ok=True)
    with open(path, "w", encoding="utf-8") as file:
        file.write(text)
    os.chmod(path, 0o755)


def stopped(call):
    """Ends a call that hasn't ended, with all that it began."""
    if call.poll() is None:
        os.killpg(call.pid, signal.SIGTERM)
        call.wait()


def ended(call, given=b"", limit=SHORT):
    """What a call shows; one that doesn't end in time is ended."""
    try:
        out, errors = call.communicate(given, timeout=limit)
    except subprocess.TimeoutExpired:
        stopped(call)
        return "", [f"it hadn't ended after {limit} seconds"], None
    return out.decode(errors="replace"), errors.decode(errors="replace").splitlines(), call.returncode


def fresh(folder):
    """Makes the fresh folder."""
    top = subprocess.run(["git", "-C", ROOT, "rev-parse", "--show-toplevel"], capture_output=True, text=True, check=False)
    if top.returncode == 0 and os.path.samefile(top.stdout.rstrip("\n"), ROOT):
        subprocess.run(["git", "clone", "--quiet", ROOT, folder], check=True)
    else:
        shutil.copytree(ROOT, folder, ignore=shutil.ignore_patterns("out", ".git", "__pycache__"), symlinks=True)


def differs(seen, wanted):
    """How what was seen differs from what is wanted, or nothing."""
    return None if seen == wanted else f"{seen!r}, and not {wanted!r}"


# ---- before anything is built


def tried_fresh(door):
    """A fresh folder."""
    fresh(door.folder)
    yield "a fresh folder", differs(door.has_built(), [])


def without_kit(door):
    """The path without the kit."""
    folder = f"{door.room}/no kit"
    if not os.path.isdir(folder):
        os.mkdir(folder)
        for name in COMMANDS:
            os.symlink(shutil.which(name), f"{folder}/{name}")
    return folder


def tried_missing_kit(door):
    """A machine without the kit."""
    why = "jvm: the Rattle kit is missing: there is no command rt"
    for words in (["run", "examples/sum.j"], ["--prove"], ["--page", "page.html"]):
        seen = door.shown(*words, PATH=without_kit(door))
        yield f"no kit: {words[0]}", differs(seen, ("", [why], 70))
    yield "no kit: nothing is left", differs(door.has_built(), [])


def tried_no_room(door):
    """A folder that can't be written."""
    out = f"{door.folder}/out"
    write(out, "a file")
    seen = door.shown("run", "examples/sum.j")
    os.remove(out)
    yield "a file in place of out", differs(seen, ("", [f"jvm: cannot write {out}"], 70))


def tried_full_disk(door):
    """Disks that get full: the kit has no room for what it makes, or for itself. They are mounted for the call alone."""
    alone = ["unshare", "--mount"] if os.geteuid() == 0 else ["unshare", "--mount", "--map-root-user"]
    disk = f"{door.room}/disk"
    os.mkdir(disk)
    for size in SIZES:
        full = [*alone, "bash", "-c", 'mount -t tmpfs -o "size=$0" none "$1" && shift && exec "$@"', size, disk]
        name = f"a disk of {size}"
        if subprocess.run([*full, "true"], capture_output=True, check=False).returncode:
            yield name, Skipped("no disk can be mounted here")
            continue
        out, errors, status = door.shown("run", "examples/sum.j", before=full, limit=LONG, TMPDIR=disk)
        told = [re.sub(r"in /.*", "in ..", line) for line in errors]
        if size == SIZES[0]:
            why = "jvm: no space is left in .."
        else:
            why = f"jvm: cannot make {door.folder}/out/jvm: No space left on device"
        yield name, differs((out, told, status), ("", [BUILDS, why], 70))
        yield f"{name}: nothing is left", differs(door.has_built(), ["lock"])


# ---- the build


def tried_build(door):
    """Two calls at once, of which one builds."""
    before = door.builds()
    calls = [door.begun("run", "examples/sum.j") for _ in range(2)]
    for number, call in enumerate(calls, 1):
        yield f"call {number} of two at once", differs(ended(call, limit=LONG), ("-2147483648\n", [BUILDS], 0))
    yield "one build for both", differs(door.builds() - before, 1)
    yield "what is kept", differs(door.has_built(), ["jvm", "lock"])


# ---- the program without its proofs


def tried_again(door):
    """Calls once the program is there, which build nothing."""
    before, began = door.builds(), time.time()
    seen = door.shown("run", "examples/sum.j")
    took = time.time() - began
    yield f"a second call, {took:.1f} s", differs(seen, ("-2147483648\n", [NOTICE], 0))
    seen = door.shown("run", "examples/sum.j", PATH=without_kit(door))
    yield "a second call without the kit", differs(seen, ("-2147483648\n", [NOTICE], 0))
    folder = f"{door.room}/else where"
    os.makedirs(f"{folder}/own")
    os.symlink(f"{door.folder}/jvm", f"{folder}/vm")
    shutil.copy(f"{door.folder}/examples/hello.j", f"{folder}/own/my text.j")
    with open(f"{door.folder}/examples/hello.out", encoding="utf-8") as file:
        wanted = file.read().removesuffix("status 0\n")
    seen = door.shown("run", "own/my text.j", command="./vm", folder=folder)
    yield "by a symbolic link, from another folder", differs(seen, (wanted, [NOTICE], 0))
    yield "no build for these", differs(door.builds() - before, 0)


def tried_passing(door):
    """What the program is given, and what it gives."""
    out, errors, status = door.shown("explain", "F1")
    told = "F1: An instruction takes a value from an empty stack."
    yield "explain F1", differs((out.split("\n")[0], errors, status), (told, [NOTICE], 0))
    text = f"{door.room}/refused.j"
    write(text, ".class public A\n.super java/lang/Object\n.method static main()V\niaddd\n.end method\n")
    seen = door.shown("run", text)
    yield "a refused text", differs(seen, ("", [NOTICE, f"jvm: {text}: J2 at line 4"], 2))
    out, errors, status = door.shown("--bogus")
    yield "--bogus", differs((out, errors[:1], len(errors) > 1, status), ("", [NOTICE], True, 7))


# ---- the proved program


def stub(door, older_than=None):
    """Puts a program in the place of the proved one; older_than: a source that is newer."""
    path = f"{door.folder}/crates/jvm/out/jvm"
    write(path, STUB)
    if older_than:
        moment = os.stat(f"{door.folder}/{older_than}").st_mtime - 1
        os.utime(path, (moment, moment))


def tried_proved(door):
    """A proved program, which is run where no source is newer."""
    before = door.builds()
    stub(door)
    words = ["run", "two words", "", "*", "--x=$HOME"]
    wanted = "proved: 5 words\n" + "".join(f"[{word}]\n" for word in words) + "given\n"
    seen = door.shown(*words, given=b"given\n")
    yield "a proved program: words, input, errors and status", differs(seen, (wanted, ["a line of errors"], 5))
    seen = door.shown(PATH=without_kit(door))
    yield "a proved program, no words", differs(seen, ("proved: 0 words\n[]\n", ["a line of errors"], 5))
    for source in ("crates/model/src/lib.rt", "crates/model/specs/Accepted.antt"):
        stub(door, source)
        seen = door.shown("run", "examples/sum.j")
        yield f"a proved program that is older than {source}", differs(seen, ("-2147483648\n", [NOTICE], 0))
    os.remove(f"{door.folder}/crates/jvm/out/jvm")
    yield "no build for these", differs(door.builds() - before, 0)
    os.utime(f"{door.folder}/crates/model/src/lib.rt")
    seen = door.shown("run", "examples/sum.j", PATH=without_kit(door))
    yield "a source is newer than both", differs(seen, ("", ["jvm: the Rattle kit is missing: there is no command rt"], 70))


PARTS = (tried_fresh, tried_missing_kit, tried_no_room, tried_full_disk, tried_build, tried_again, tried_passing, tried_proved)


def tried(door):
    """All that is tried, each with what is wrong, or nothing."""
    for part in PARTS:
        try:
            yield from part(door)
        except Exception as error:  # a part that can't go on has failed, and the others are tried
            yield part.__doc__.split(",")[0].rstrip("."), f"{type(error).__name__}: {error}"


def main():
    """Tries all, and tells what failed."""
    argparse.ArgumentParser(description=__doc__.split("\n")[0]).parse_args()
    passed = failed = skipped = 0
    signal.signal(signal.SIGTERM, lambda number, _: sys.exit(128 + number))
    with tempfile.TemporaryDirectory() as room, contextlib.closing(Door(room)) as door:
        for name, why in tried(door):
            skips = isinstance(why, Skipped)
            passed, failed, skipped = passed + (not why), failed + (bool(why) and not skips), skipped + skips
            if why:
                print(f"first command: {name}: {'skipped: ' if skips else ''}{why}", flush=True)
    print(f"{passed} passed, {failed} failed" + (f", {skipped} skipped" if skipped else ""))
    return 1 if failed else 0


if __name__ == "__main__":
    sys.exit(main())
