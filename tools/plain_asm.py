"""The plain assembler of tools/plain, to compare `jvm asm` with, byte for byte.

Usage: plain_asm.py TEXT > CLASS        the class file of a text
       plain_asm.py --agrees JVM TEXT.. whether JVM asm writes the same
"""
import os
import shlex
import subprocess
import sys
import tempfile

from plain.programs import class_file_of
from plain.refusals import Refused


def bytes_of(path):
    with open(path, "rb") as file:
        return file.read()


def agrees(jvm, text):
    """Whether `jvm asm` writes the plain assembler's class file, or refuses the text as it does; what it says is printed."""
    with tempfile.TemporaryDirectory() as folder:
        out = os.path.join(folder, "out.class")
        done = subprocess.run([*shlex.split(jvm), "asm", text, out], capture_output=True, text=True, check=False)
        theirs = bytes_of(out) if done.returncode == 0 else done.stderr.strip()
    try:
        ours = class_file_of(bytes_of(text))
    except Refused as refused:
        ours = f"jvm: {text}: {refused}"
    print(f"{text}: {'agree' if theirs == ours else f'differ: {theirs[:200]!r}'}")
    return theirs == ours


def main():
    if len(sys.argv) > 3 and sys.argv[1] == "--agrees":
        return 0 if all([agrees(sys.argv[2], text) for text in sys.argv[3:]]) else 1
    if len(sys.argv) != 2:
        sys.exit(__doc__)
    sys.stdout.buffer.write(class_file_of(bytes_of(sys.argv[1])))
    return 0


if __name__ == "__main__":
    sys.exit(main())
