#!/usr/bin/env python3
"""Copies the LLVM module that `rt ci` hands to clang for a program, while clang works on it.

    tools/catch_module.py PID CRATE OUT

For .ci/run. PID is `rt ci`, which proves a program, has `rattle` compile what was proved, and keeps no module. This looks at
processes twice a second: where clang works for the `rattle` that builds CRATE, it copies the module from clang's folder. It writes
nothing there, and changes nothing of the run. Where clang is given several, OUT is the largest, that of the whole program. OUT is
never there in part. It ends with PID, or when it is stopped.
"""
import os
import shutil
import sys
import time

from hold_back import above, processes

PAUSE = 0.5


def words_of(number):
    """A process's command line; nothing where it has ended."""
    try:
        with open(f"/proc/{number}/cmdline", encoding="utf-8", errors="replace") as file:
            return file.read().split("\0")
    except OSError:
        return []


def builds(words, crate):
    """Whether a command line is that of `rattle`, building a program and not its tests."""
    return "build" in words and f"--crate-name {crate} " in " ".join(words) and "--test" not in words


def modules(of, crate, found):
    """The modules on which clang works for a crate, below a process."""
    for number, (name, _, _) in found.items():
        if name.startswith("clang") and of in (line := [*above(number, found)]) and any(builds(words_of(it), crate) for it in line):
            yield from (f"/proc/{number}/cwd/{word}" for word in words_of(number) if word.endswith(".bc"))


def take(module, out):
    """Copies a module, if it is larger than what is there."""
    try:
        if os.path.getsize(module) > (os.path.getsize(out) if os.path.exists(out) else 0):
            shutil.copyfile(module, f"{out}.part")
            os.replace(f"{out}.part", out)
    except OSError:
        pass  # (clang has ended)


def main():
    if len(sys.argv) != 4 or not sys.argv[1].isdigit():
        print(__doc__)
        return 2
    of, crate, out = int(sys.argv[1]), sys.argv[2], sys.argv[3]
    while of in (found := processes()):
        for module in modules(of, crate, found):
            take(module, out)
        time.sleep(PAUSE)
    return 0


if __name__ == "__main__":
    sys.exit(main())
