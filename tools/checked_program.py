#!/usr/bin/env python3
"""Makes `jvm` with nothing proved, and with each check at run time that `rt try` has.

Usage: checked_program.py PROGRAM

`rt try` builds such a program, runs it once and removes it. This keeps it: `./jvm` runs it where no proved one is built.
Nothing of it is proved, so where a check fails the program stops. A minute or two of processor time. What goes wrong is one
line on standard error, with status 70. It calls parts of the kit that its authors may change.
"""
import os
import shutil
import signal
import subprocess
import sys
import tempfile
import time

from kit import linked_kit

HERE = os.path.dirname(os.path.dirname(os.path.abspath(__file__)))
# the linker, which leaves a copy of the program (it is called with no environment)
LINKER = """#!/bin/bash
{{real}} "$@" || exit
/bin/cp program {kept}.part && /bin/mv {kept}.part {kept}
"""
# the prover: `rt try` asks it for names that a check would refuse, which takes as long as all else, and no proof is wanted
PROVER = """#!/bin/bash
case "$*" in *" --start no function"*) exit 0 ;; esac
exec {real} "$@"
"""
LEAST = 64 << 20


def fail(why):
    print(f"jvm: {why}", file=sys.stderr)
    sys.exit(70)


def stopped(process):
    """Ends a process and those that it started."""
    if process.poll() is None:
        os.killpg(process.pid, signal.SIGTERM)
    process.wait()


def why_none(said, folders):
    """Why no program was made, in a line: a full disk, or what `rt` said last."""
    for folder in folders:
        if shutil.disk_usage(folder).free < LEAST:
            return f"no space is left in {folder}"
    lines = [line for line in said.decode(errors="replace").splitlines() if line.strip()]
    return f"rt made no program: {lines[-1] if lines else 'it said nothing'}"


def made_in(room):
    """The program, in a folder of its own; `rt try` is stopped once it is there."""
    kept = f"{room}/program"
    kit = linked_kit(room, {"toolchain/bin/ld.lld": LINKER.format(kept=kept), "bin/rattle": PROVER})
    words = [f"{kit}/bin/rt", "try", "--data", "hello.j=../../examples/hello.j", "--", "run", "hello.j"]
    with open(f"{room}/said", "w+b") as said:
        how = {"cwd": f"{HERE}/crates/jvm", "stdin": subprocess.DEVNULL, "stdout": said, "stderr": said, "start_new_session": True}
        ran = subprocess.Popen(words, **how)
        try:
            while not os.path.exists(kept) and ran.poll() is None:
                time.sleep(0.1)
        finally:
            stopped(ran)
        if not os.path.exists(kept):
            said.seek(0)
            fail(why_none(said.read(), [room, HERE]))
    return kept


def main():
    if len(sys.argv) != 2:
        sys.exit(__doc__)
    target = os.path.abspath(sys.argv[1])
    signal.signal(signal.SIGTERM, lambda number, _: sys.exit(128 + number))
    try:
        with tempfile.TemporaryDirectory() as room:
            began = time.time_ns()
            kept = made_in(room)
            shutil.copy2(kept, f"{target}.part")
            os.utime(f"{target}.part", ns=(began, began))  # a source that was changed meanwhile is newer
            os.replace(f"{target}.part", target)
    except OSError as error:
        fail(f"cannot make {target}: {error.strerror}")
    except KeyboardInterrupt:
        sys.exit(130)


if __name__ == "__main__":
    sys.exit(main())
