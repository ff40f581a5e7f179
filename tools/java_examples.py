#!/usr/bin/env python3
"""Writes the class files of the Java programs in examples/java, and what they print, by `javac` and `java`.

Usage: java_examples.py [--check]

Each source there that has a `main()` without arguments is compiled as tools/java_classes.py does it, and `java` runs the
class files. They are written beside the source, and what `java` prints into NAME.out; tools/run_examples.py runs them. With
--check nothing is written, and the tool ends with status 1 where a file isn't what it would write.
"""
import glob
import os
import re
import subprocess
import sys
import tempfile

from java_agrees import BEGIN
from java_classes import SYS, checked, written

ROOT = os.path.join(os.path.dirname(os.path.abspath(__file__)), "..")
FOLDER = os.path.join(ROOT, "examples", "java")


def output_of(words, **options):
    return subprocess.run(words, stdout=subprocess.PIPE, check=True, timeout=60, **options).stdout


def made(source):
    """Gives a source's name, its class files by their names, and what it prints."""
    name = os.path.basename(source).removesuffix(".java")
    files, _, lines = checked([source])
    if lines:
        sys.exit("\n".join(lines))
    with tempfile.TemporaryDirectory() as room:
        for path, text in {"Begin": BEGIN % name, "Sys": SYS}.items():
            with open(f"{room}/{path}.java", "w", encoding="utf-8") as file:
                file.write(text)
        written(room, files)
        output_of(["javac", "-d", room, "-cp", room, f"{room}/Begin.java", f"{room}/Sys.java"])
        return name, files, output_of(["java", "-cp", room, "Begin"])


def main():
    wanted = {}
    for source in sorted(glob.glob(os.path.join(FOLDER, "*.java"))):
        with open(source, encoding="utf-8") as file:
            if not re.search(r"static void main\(\)", file.read()) or source.endswith("Mix.java"):
                continue
        name, files, printed = made(source)
        wanted.update({os.path.join(FOLDER, path + ".class"): data for path, data in files.items()})
        wanted[os.path.join(FOLDER, name + ".out")] = printed
    differ = 0
    for path, data in wanted.items():
        if os.path.exists(path):
            with open(path, "rb") as file:
                if file.read() == data:
                    continue
        differ += 1
        print(os.path.relpath(path, ROOT))
        if "--check" not in sys.argv:
            with open(path, "wb") as file:
                file.write(data)
    return 1 if differ and "--check" in sys.argv else 0


if __name__ == "__main__":
    sys.exit(main())
