#!/usr/bin/env python3
"""Compiles `jvm` with nothing proved, so that a change can be measured before its proofs are written.

Usage: unproved.py PROGRAM

`rt try` hands clang the module of the whole program, with checks that a proof makes needless. This keeps that module, takes
the checks out, marks what the sources say of inlining, and compiles and links it as `rt` does. But `rt` drops
`inline(always)` from a function that would grow very large, and this doesn't: so PROGRAM is as fast as a proved one only
where no mark is dropped (dropped_marks.py tells where one is), and what it prints is no evidence of anything else. Some five
minutes of processor time. It calls parts of the kit that its authors may change.
"""
import os
import re
import shutil
import signal
import subprocess
import sys
import tempfile
import time

from kit import linked_kit

HERE = os.path.dirname(os.path.dirname(os.path.abspath(__file__)))
KIT = os.path.dirname(os.path.dirname(os.path.realpath(shutil.which("rt"))))
CLANG = f"{KIT}/toolchain/bin/clang"
TARGET = "x86_64-unknown-linux-gnu"
# what `rt` has clang do, but for the level
FLAGS = f"""--target={TARGET} -march=x86-64 -mllvm -no-trap-after-noreturn -ffunction-sections -fdata-sections
    -mllvm -trap-unreachable -mllvm -no-x86-call-frame-opt -mllvm -disable-machine-licm -mllvm -disable-postra-machine-licm
    -mllvm -sink-common-insts=false --no-default-config -fno-crash-diagnostics -fPIE -Wno-everything""".split()
WORDS = {"always": "alwaysinline", "never": "noinline", None: "inlinehint"}
# clang, which leaves a copy of the module that it is given (it is called with no environment, first for a part of the program,
# and then for the whole with a sanitizer)
KEEPER = """#!/bin/bash
[ -f module.bc ] && case "$*" in *-fsanitize=*) /bin/cp module.bc {room}/part.bc && /bin/mv {room}/part.bc {room}/module.bc;; esac
exec -a "$0" {{real}} "$@"
"""
# the crates of the kit whose functions stand in the loop of turns
LIBRARIES = ("core", "std", "std_alloc", "std_heap", "std_collections", "circular_buffer", "atomic_table")


def module_of_program(room):
    """The module of the whole program; `rt try` is stopped once it is there."""
    kit = linked_kit(room, {"toolchain/bin/clang": KEEPER.format(room=room)})
    words = [f"{kit}/bin/rt", "try", "--data", "hello.j=../../examples/hello.j", "--", "run", "hello.j"]
    how = {"cwd": f"{HERE}/crates/jvm", "stdout": subprocess.DEVNULL, "stderr": subprocess.DEVNULL, "start_new_session": True}
    ran = subprocess.Popen(words, **how)
    while not os.path.exists(f"{room}/module.bc") and ran.poll() is None:
        time.sleep(1)
    if ran.poll() is None:
        os.killpg(ran.pid, signal.SIGTERM)
        ran.wait()
    if not os.path.exists(f"{room}/module.bc"):
        sys.exit("rt try made no module: run it in crates/jvm to see why")
    return f"{room}/module.bc"


def marks():
    """What the sources say of inlining, by the names of functions: with the crate and the type, or with the modules."""
    found = {}
    folders = {name: f"{HERE}/crates/{name}/src" for name in os.listdir(f"{HERE}/crates")}
    folders |= {name: f"{KIT}/rattle/{name}/src" for name in LIBRARIES}
    for crate, folder in folders.items():
        for at, _, names in os.walk(folder):
            for name in names:
                modules = [it for it in os.path.relpath(f"{at}/{name}", folder)[:-3].split("/") if it not in ("mod", "lib", "main")]
                with open(f"{at}/{name}", encoding="utf-8") as file:
                    found |= marks_in(file, crate, modules)
    return found


def marks_in(lines, crate, modules):
    found, mark, kind = {}, False, None
    for line in lines:
        if attribute := re.match(r"\s*#\[inline(?:\((\w+)\))?\]", line):
            mark = attribute[1]
        elif line.startswith("impl"):
            *trait, type_name = re.sub(r"^impl(<.*?>)? ", "", line).split(" for ")
            words = re.findall(r"\w+", type_name)[:1] + [word for it in trait for word in re.findall(r"\w+", it)]
            kind = "".join(words) or None  # of an impl of a trait: the type, then the trait with its types
        elif function := re.match(r"(\s*)(?:pub(?:\(\w+\))? )?(?:const )?(?:unsafe )?fn (\w+)", line):
            if mark is not False:
                found["::".join([crate, kind, function[2]] if function[1] and kind else [crate, *modules, function[2]])] = mark
            mark = False
    return found


def marked(name, told):
    """What the sources say of inlining a function of the module, in LLVM's word, or None."""
    plain = name.split("::<")[0]
    parts = plain.split("::")
    for it in (plain, "::".join([parts[0], *parts[-2:]])):
        if it in told:
            return WORDS[told[it]]
    return None


def unchecked(line, told):
    """A line of the module without its checks, or nothing."""
    if "rattle-llvm-checks::" in line and line.lstrip().startswith("call") or line.strip() == "call void @llvm.trap()":
        return ""
    if "@llvm.memset" in line and "i8 -86" in line:  # what a variable holds before it is set
        return ""
    if "= load volatile i8, ptr @static.0," in line:  # whether the program was to end
        return line.split("=")[0] + "= add i8 0, 0\n"
    if line.startswith("attributes #"):
        return line.replace(" sanitize_address", "")
    if line.startswith("define"):
        if word := marked(re.search(r'@"?([^"(]*)', line)[1], told):
            return re.sub(r"\) (#\d+ \{)$", rf") {word} \1", line)
    return line


def main():
    if len(sys.argv) != 2:
        sys.exit(__doc__)
    with tempfile.TemporaryDirectory() as room:
        module = module_of_program(room)
        as_text = [CLANG, "-S", "-emit-llvm", "-O0", "-Xclang", "-disable-llvm-passes", "-Wno-everything", "-x", "ir", module]
        subprocess.run([*as_text, "-o", f"{room}/a.ll"], check=True)
        told = marks()
        with open(f"{room}/a.ll", errors="surrogateescape") as old, open(f"{room}/b.ll", "w", errors="surrogateescape") as new:
            new.writelines(unchecked(line, told) for line in old)
        subprocess.run([CLANG, *FLAGS, "-O3", "-c", "-x", "ir", f"{room}/b.ll", "-o", f"{room}/program.o"], check=True)
        link = [f"{KIT}/bin/rattle-link", "--target", TARGET, "--toolchain", f"{KIT}/toolchain", "-o", os.path.abspath(sys.argv[1])]
        subprocess.run([*link, f"{room}/program.o", f"{KIT}/c/libos_c.a", f"{KIT}/c/liblibc_c.a"], check=True)


if __name__ == "__main__":
    main()
