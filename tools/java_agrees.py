#!/usr/bin/env python3
"""Whether programs that javac compiles print on `jvm` what they print on the JVM.

Usage: java_agrees.py [--jvm PROGRAM] [NAME ..]

Each program of tools/java/programs.txt is some members and a body of `main()`. javac compiles it, without debug tables, and
its version is set to 49.0; a class `vm.Sys` with the machine's three prints stands for the machine's own under `java`. Both
run it, and the tool compares what is printed and, where an exception ends the thread, its class: on the heap that `jvm run`
has where nothing is said, with 0, 1, 7 and 40 turns of the collector after each turn of a thread, and on the smallest heap
with which the program ends so at 40. Each is run twice with a journal, which has to be the same and to replay with the
same end. Ends with status 1 where they differ, or where `jvm` ends otherwise than `java`.
PROGRAM is crates/jvm/out/jvm, which `rt run` builds, where nothing else is said.
"""
import argparse
import glob
import os
import re
import subprocess
import sys
import tempfile

from java_classes import SYS

TOOLS = os.path.dirname(os.path.abspath(__file__))
PROGRAMS = os.path.join(TOOLS, "java", "programs.txt")
BUILT = os.path.join(TOOLS, "..", "crates", "jvm", "out", "jvm")

SOURCE = """import static vm.Sys.*;
public class %s {
%s
    static void main() throws Throwable {
%s
    }
}
"""

# `java` begins here; the machine never sees it.
BEGIN = """public class Begin {
    public static void main(String[] args) throws Throwable {
        try { %s.main(); } finally { System.out.flush(); }
    }
}
"""


def programs():
    """Gives each program's name, members and body."""
    name, parts, at = None, None, 0
    with open(PROGRAMS, encoding="utf-8") as file:
        for line in file:
            if line.startswith("== "):
                if name:
                    yield name, "".join(parts[0]), "".join(parts[1])
                name, parts, at = line[3:].strip(), ([], []), 0
            elif line.rstrip() == "--":
                at = 1
            elif name:
                parts[at].append(line)
    if name:
        yield name, "".join(parts[0]), "".join(parts[1])


def as_version_49(folder):
    """Sets the version of the program's classes, and gives them, main's first."""
    files = sorted(set(glob.glob(f"{folder}/*.class")) - {f"{folder}/Begin.class"}, key=lambda it: ("$" in it, it))
    for path in files:
        with open(path, "r+b") as file:
            file.seek(6)
            file.write(b"\0\x31")
    return files


def run(words, **options):
    return subprocess.run(words, stdout=subprocess.PIPE, stderr=subprocess.PIPE, timeout=60, **options)


def compare(name, members, body, machine):
    """Returns how the two differ, or nothing."""
    with tempfile.TemporaryDirectory() as room:
        os.makedirs(f"{room}/vm")
        texts = {"vm/Sys": SYS, name: SOURCE % (name, members, body), "Begin": BEGIN % name}
        for path, text in texts.items():
            with open(f"{room}/{path}.java", "w", encoding="utf-8") as file:
                file.write(text)
        # javac's output for 8 is the oldest that needs no other class for what the programs do
        made = run(["javac", "-g:none", "-nowarn", "--release", "8", "-Xlint:-options", "Begin.java"], cwd=room)
        if made.returncode:
            return "javac: " + made.stderr.decode()
        wanted = run(["java", "-Xss512k", "-cp", room, "Begin"])
        classes = as_version_49(room)
        for turns in COLLECTOR:
            why = difference(machine, classes, wanted, ["--gc", turns])
            if why and turns == "0" and "OutOfMemoryError" in why:
                continue  # garbage fills the heap where nobody collects it
            if why:
                return f"with --gc {turns}: {why}"
        return difference(machine, classes, wanted, least_heap(machine, classes, wanted)) or stored(machine, classes, room)


def stored(machine, classes, room):
    """Returns how two journals of the same run, or a run and its replay, differ, or nothing."""
    paths = [f"{room}/first.journal", f"{room}/second.journal"]
    runs = [run([machine, "run", "--steps", "16000000", "--journal", path, *classes]) for path in paths]
    journals = []
    for path in paths:
        with open(path, "rb") as file:
            journals.append(file.read())
    if journals[0] != journals[1]:
        return "two runs have two journals"
    again = run([machine, "replay", paths[0], *classes])
    if (again.stdout, again.stderr, again.returncode) != (runs[0].stdout, runs[0].stderr, runs[0].returncode):
        return f"replayed it ended with {again.returncode}: {again.stderr.decode().strip()}"
    return None


# How many turns of the collector follow each turn of a thread.
COLLECTOR = ["0", "1", "7", "40"]


def difference(machine, classes, wanted, options):
    """Returns how a run with these options differs from java's, or nothing."""
    got = run([machine, "run", "--steps", "16000000", *options, *classes])
    thrown = re.search(rb'Exception in thread "main" ([\w.$]+)', wanted.stderr)
    ends = 1 if thrown else 0
    if got.stdout != wanted.stdout:
        return f"printed {got.stdout!r} ({got.stderr.decode().strip()}) and not {wanted.stdout!r}"
    if got.returncode != ends:
        return f"ended with {got.returncode} and not {ends}: {got.stderr.decode().strip()}"
    if thrown and thrown[1].replace(b".", b"/") not in got.stderr:
        return f"said {got.stderr.decode().strip()} where java was ended by {thrown[1].decode()}"
    return None


def least_heap(machine, classes, wanted):
    """Returns options with as few large cells, and no others, as let the program end as on java, if the first 1,024 do."""
    low, high = 1, 1024
    while low + 1 < high:
        middle = (low + high) // 2
        shape = ["--small", "0", "--medium", "0", "--large", str(middle), "--gc", "40"]
        if difference(machine, classes, wanted, shape):
            low = middle
        else:
            high = middle
    return ["--small", "0", "--medium", "0", "--large", str(high), "--gc", "40"]


def main():
    words = argparse.ArgumentParser(description=__doc__.split("\n")[0])
    words.add_argument("--jvm", default=BUILT)
    words.add_argument("names", nargs="*")
    given = words.parse_args()
    tried = failed = 0
    for name, members, body in programs():
        if given.names and name not in given.names:
            continue
        tried += 1
        why = compare(name, members, body, os.path.abspath(given.jvm))
        if why:
            failed += 1
            print(f"{name}: {why}")
    print(f"{tried - failed} agree, {failed} differ")
    return 1 if failed or not tried else 0


if __name__ == "__main__":
    sys.exit(main())
