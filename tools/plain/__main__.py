"""Compares the plain reader with the rows of examples/answers.txt, or tells what it says of some files."""
import os
import sys

sys.path.insert(0, os.path.join(os.path.dirname(os.path.abspath(__file__)), ".."))

from plain import programs, rows
from plain.inputs import bytes_of


def main():
    if len(sys.argv) > 1:
        print(programs.told_of_program([(path, bytes_of(path)) for path in sys.argv[1:]]) or "accepted")
        return 0
    passed = failed = 0
    for name, why in rows.tried_reader():
        passed, failed = passed + (not why), failed + bool(why)
        if why:
            print(f"{name}: {why}")
    print(f"{passed} passed, {failed} failed")
    return 1 if failed else 0


if __name__ == "__main__":
    sys.exit(main())
