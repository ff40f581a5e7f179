#!/usr/bin/env python3
"""Builds the page: one HTML file that holds the machine, compiled to WebAssembly, and needs no server.

Usage: page.py OUT.html [--module MODULE.bc] [--keep FOLDER] [--from-gate]

Where `playground` is proved and nothing is newer, it takes the module that `rt` hands to clang for the proved program; else that
of `rt try`, of which nothing is proved, without its checks, and the page says so in its foot. The module was made for x86-64: its
text is rewritten for wasm64, compiled by the kit's clang and linked by the kit's linker with web/memory.c. --module takes a
module that is there; --keep keeps the .wasm in a folder.

--from-gate is for a checkout in which `rt ci` works or has worked, once it has proved `playground`. `rt ci` keeps of a program no
more than what was linked, so `main` is proved once more, over the libraries that it left; nothing else is, and nothing is
written into the checkout or waits for `rt ci`. Where that doesn't do, there is no page.

It prints the sizes and a checksum. It calls parts of the kit that its authors may change.
"""
import argparse
import base64
import gzip
import hashlib
import json
import os
import re
import shutil
import signal
import subprocess
import sys
import tempfile
import time

from kit import linked_kit, module_of_kit
from unproved import unchecked

HERE = os.path.dirname(os.path.dirname(os.path.abspath(__file__)))
CRATE = f"{HERE}/crates/playground"
WEB = f"{HERE}/web"
# clang, which leaves a copy of each module that it is given (it is called with no environment); a proved program's is not
# compiled once more for this machine
KEEPER = """#!/bin/bash
for it in "$@" *.bc; do
    [ "${{{{it%.bc}}}}" != "$it" ] && [ -f "$it" ] && n=$(/bin/date +%s%N) && /bin/cp "$it" {room}/$n.part && /bin/mv {room}/$n.part {room}/$n.kept && {then}
done
case "$*" in *-fsanitize=*) /bin/touch {room}/whole ;; esac
exec -a "$0" {{real}} "$@"
"""
# the prover: `rt try` asks it for names that a check would refuse, and no proof is wanted
PROVER = """#!/bin/bash
case "$*" in *" --start no function"*) exit 0 ;; esac
exec {real} "$@"
"""
TARGET = """--target=wasm64-unknown-unknown -mcpu=lime1 -mllvm -expand-div-rem-bits=64 -mllvm -expand-fp-convert-bits=64
    -ffunction-sections -fdata-sections -mllvm -trap-unreachable -mllvm -disable-machine-licm -mllvm -disable-postra-machine-licm
    -mllvm -sink-common-insts=false --no-default-config -no-canonical-prefixes -fintegrated-cc1 -fno-crash-diagnostics
    -Wno-everything""".split()
LAYOUT = "e-m:e-p:64:64-p10:8:8-p20:8:8-i64:64-i128:128-n32:64-S128-ni:1:10:20"
STACK = 4 << 20
# how long `main` and its module may take where all below is proved, in seconds
LIMIT = 1800
SCRIPTS = ("protocol", "text", "lessons", "show", "page")
PROVED = """The machine in this page is made of proved sources: what it answers is, by its contracts, what the definitions say. Not proved are the
compiler for WebAssembly, the memory and the streams under it, and the page's own scripts."""
NOT_PROVED = "The machine in this page is not proved: ./jvm --prove makes one that is."


def fail(why):
    print(f"jvm: {why}", file=sys.stderr)
    sys.exit(70)


def is_proved():
    """Whether the program is proved and built, and no source is newer."""
    program = f"{CRATE}/out/playground"
    if not os.access(program, os.X_OK):
        return False
    made = os.path.getmtime(program)
    for folder, folders, names in os.walk(f"{HERE}/crates"):
        folders[:] = [it for it in folders if it != "out" and not it.endswith("_tests")]
        for name in names:
            if name.endswith((".rt", ".antt")) and os.path.getmtime(f"{folder}/{name}") > made:
                return False
    return True


def largest_kept(room, said):
    """The module of the whole program, the largest that clang was given; said: all that the command said."""
    kept = [f"{room}/{name}" for name in os.listdir(room) if name.endswith(".kept")]
    if not kept:
        lines = said.decode(errors="replace").splitlines()
        fail(f"rt made no module: {lines[-1] if lines else 'it said nothing'}")
    return max(kept, key=os.path.getsize)


def kept_module(room, proved):
    """The module of the whole program; `rt` is stopped once it is there."""
    scripts = {"toolchain/bin/clang": KEEPER.format(room=room, then="exit 1" if proved else "true")}
    if not proved:
        scripts["bin/rattle"] = PROVER
    kit = linked_kit(room, scripts)
    stamp = f"{CRATE}/out/playground.stamp"
    if proved and os.path.exists(stamp):  # with it `rt run` compiles nothing
        shutil.move(stamp, f"{room}/stamp")
    words = [f"{kit}/bin/rt", "run" if proved else "try"]
    with open(f"{CRATE}/stdin", "rb") as given, open(f"{room}/said", "w+b") as said:
        how = {"cwd": CRATE, "stdin": given, "stdout": said, "stderr": said, "start_new_session": True}
        ran = subprocess.Popen(words, **how)
        try:
            while ran.poll() is None and (proved or not os.path.exists(f"{room}/whole")):
                time.sleep(0.2)
        finally:
            if ran.poll() is None:
                os.killpg(ran.pid, signal.SIGTERM)
            ran.wait()
        said.seek(0)
        told = said.read()
    if os.path.exists(f"{room}/stamp"):
        shutil.move(f"{room}/stamp", stamp)
    return largest_kept(room, told)


def gate_module(room):
    """The module of the whole program, whose `main` is proved here over the libraries that `rt ci` proved."""
    rt = module_of_kit("rt")
    crate = next(it for it in rt.rtlib.crates_below(f"{HERE}/crates") if it.folder == CRATE)
    for it in crate.below():
        if not os.path.isdir(it.rlib):
            fail(f"rt ci left no library {it.name}")
        # (by links: when `rt ci` ends, it puts back what stood there before)
        linked = f"{room}/rlib/{it.name}.rlib"
        shutil.copytree(it.rlib, linked, copy_function=rt.link_or_copy)
        it.rlib = linked
    kit = linked_kit(room, {"toolchain/bin/clang": KEEPER.format(room=room, then="exit 1")})
    words = [*rt.rtlib.guarded(), rt.rtlib.RATTLE, "build", *crate.words(["--jobs", "1"], keeps=False)]
    words += ["--toolchain", f"{kit}/toolchain", "--backend", "llvm", "-o", f"{room}/program.o"]
    how = {"cwd": CRATE, "stdin": subprocess.DEVNULL, "stdout": subprocess.PIPE, "stderr": subprocess.STDOUT}
    try:
        said = subprocess.run(words, timeout=LIMIT, check=False, **how).stdout
    except subprocess.TimeoutExpired:
        fail(f"rattle made no module in {LIMIT} seconds")
    if not re.search(rb"(?m)^logic=proved ", said):
        fail(f"main isn't proved over what rt ci left: {said.decode(errors='replace')[-300:].strip()}")
    return largest_kept(room, said)


def for_wasm(text):
    """The text of a module for wasm64, in place of x86-64."""
    text = re.sub(r'target datalayout = "[^"]*"', f'target datalayout = "{LAYOUT}"', text, count=1)
    text = re.sub(r'target triple = "[^"]*"', 'target triple = "wasm64-unknown-unknown"', text, count=1)
    drop = r' "(?:probe-stack|stack-probe-size|frame-pointer|target-features)"="[^"]*"'
    text = re.sub(drop, "", text)
    cpu = '"no-builtin-bcmp" "no-builtin-memcmp" "no-builtin-strlen" "target-cpu"="lime1"'
    text = re.sub(r'"target-cpu"="[^"]*"', cpu, text)
    return re.sub(r"(?m)^(attributes #\d+ = \{) \}$", r"\1 nounwind }", text)


def compiled(room, clang, module, proved, level):
    """The module as a .wasm file."""
    as_text = [clang, "--no-default-config", "-S", "-emit-llvm", "-O0", "-Xclang", "-disable-llvm-passes", "-Wno-everything"]
    subprocess.run([*as_text, "-x", "ir", module, "-o", f"{room}/a.ll"], check=True)
    with open(f"{room}/a.ll", errors="surrogateescape") as file:
        lines = file.readlines() if proved else [unchecked(line, {}) for line in file]
    with open(f"{room}/b.ll", "w", errors="surrogateescape") as file:
        file.write(for_wasm("".join(lines)))
    subprocess.run([clang, *TARGET, level, "-c", "-x", "ir", f"{room}/b.ll", "-o", f"{room}/program.o"], check=True)
    c = ["-O2", "-fwrapv", "-ffreestanding", "-nostdinc", "-c", "-x", "c", f"{WEB}/memory.c", "-o", f"{room}/memory.o"]
    subprocess.run([clang, *TARGET, *c], check=True)
    link = "wasm-ld -m wasm64 --no-entry --stack-first --gc-sections --threads=1 --strip-all --export=main --export=memory_in_use"
    words = [*link.split(), "-z", f"stack-size={STACK}", f"{room}/program.o", f"{room}/memory.o", "-o", f"{room}/machine.wasm"]
    subprocess.run(words, executable=clang, check=True)
    return f"{room}/machine.wasm"


def codes():
    """What each code means, by docs/CODES.md."""
    with open(f"{HERE}/docs/CODES.md", encoding="utf-8") as file:
        paragraphs = file.read().split("\n\n")
    found = {}
    for paragraph in paragraphs:
        if head := re.match(r"\*\*(\w+)\*\* ", paragraph):
            found[head[1]] = " ".join(line.strip() for line in paragraph[head.end():].splitlines())
    return found


def texts_of(files, folder=""):
    """Texts of examples/, by their names."""
    texts = []
    for file in files:
        with open(f"{HERE}/examples/{folder}{file}", encoding="ascii") as text:
            texts.append({"name": file, "text": text.read()})
    return texts


def examples():
    """The texts of examples/ that can be chosen, by name: each a list of files, whose first has main."""
    sets = {}
    together = {"Square": ["Square.j", "Shape.j"]}
    for name in sorted(os.listdir(f"{HERE}/examples")):
        if name.endswith(".j") and name not in ("Shape.j",):
            files = together.get(name[:-2], [name])
            sets[name[:-2]] = texts_of(files)
    for name in ("lost_update", "deadlock", "peterson", "race", "room"):
        files = ["race.j", "Left.j", "Right.j"] if name == "race" else [f"{name}.j"]
        sets[f"explore/{name}"] = texts_of(files, "explore/")
    return sets


def in_script(value):
    """A value as JSON that may stand in a script of the page."""
    return json.dumps(value, separators=(",", ":")).replace("<", "\\u003c").replace("\u2028", "\\u2028")


def written(path):
    with open(path, encoding="utf-8") as file:
        return file.read()


def sum_of(text):
    """The checksum by which the page's policy knows a script or a style."""
    return f"'sha256-{base64.b64encode(hashlib.sha256(text.encode()).digest()).decode()}'"


def page(wasm, proved):
    """The page's text."""
    with open(wasm, "rb") as file:
        packed = base64.b64encode(gzip.compress(file.read(), 9, mtime=0)).decode()
    data = {"examples": examples(), "codes": codes(), "foot": " ".join((PROVED if proved else NOT_PROVED).split())}
    style = written(f"{WEB}/page.css")
    scripts = "\n".join(written(f"{WEB}/{name}.js").replace('"use strict";\n', "", 1) for name in SCRIPTS)
    scripts = '"use strict";\n' + scripts
    policy = f"default-src 'none'; style-src {sum_of(style)}; script-src {sum_of(scripts)} 'wasm-unsafe-eval'; worker-src blob:"
    parts = {"STYLE": style, "DATA": in_script(data), "WASM": packed, "WORKER": written(f"{WEB}/worker.js"), "SCRIPTS": scripts, "POLICY": policy}
    return re.sub(r"@(STYLE|DATA|WASM|WORKER|SCRIPTS|POLICY)@", lambda found: parts[found[1]], written(f"{WEB}/page.html"))


def main():
    words = argparse.ArgumentParser(description=__doc__, formatter_class=argparse.RawDescriptionHelpFormatter)
    words.add_argument("out")
    words.add_argument("--module")
    words.add_argument("--keep")
    words.add_argument("--from-gate", action="store_true")
    words.add_argument("--level", default="-O3", help=argparse.SUPPRESS)
    given = words.parse_args()
    signal.signal(signal.SIGTERM, lambda number, _: sys.exit(128 + number))
    clang = f"{os.path.dirname(os.path.dirname(os.path.realpath(shutil.which('rt') or fail('the Rattle kit is missing'))))}/toolchain/bin/clang"
    proved = is_proved()
    if given.from_gate and not proved:
        fail("rt ci left no proved playground")
    with tempfile.TemporaryDirectory() as room:
        module = given.module or (gate_module(room) if given.from_gate else kept_module(room, proved))
        if given.keep:
            os.makedirs(given.keep, exist_ok=True)
            shutil.copy2(module, f"{given.keep}/module.bc") if module != f"{given.keep}/module.bc" else None
        wasm = compiled(room, clang, module, proved, given.level)
        if given.keep:
            shutil.copy2(wasm, f"{given.keep}/machine.wasm")
        text = page(wasm, proved).encode()
        size = os.path.getsize(wasm)
    with open(f"{given.out}.part", "wb") as file:
        file.write(text)
    os.replace(f"{given.out}.part", given.out)
    print(f"{given.out}: {len(text)} bytes, of a .wasm of {size}; {'proved' if proved else 'not proved'}")
    print(f"sha256 {hashlib.sha256(text).hexdigest()}")


if __name__ == "__main__":
    sys.exit(main())
