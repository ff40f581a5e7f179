#!/usr/bin/env python3
"""Writes docs/CODES.md from the meanings in crates/command_line/src/explaining.rt.

    tools/codes.py            writes the page
    tools/codes.py --check    tells whether the page is what would be written, by its status
"""

import os
import re
import sys

ROOT = os.path.join(os.path.dirname(os.path.abspath(__file__)), "..")
SOURCE = os.path.join(ROOT, "crates/command_line/src/explaining.rt")
PAGE = os.path.join(ROOT, "docs/CODES.md")
FAMILIES = [
    ("text", "J", "A text is refused"),
    ("code", "O", "The code of a class file is refused"),
    ("class_file", "C", "A class file is refused"),
    ("assembly", "A", "A text doesn't assemble"),
    ("program", "L", "The classes are no program"),
    ("world", "P", "There is no world of a program"),
    ("fault", "F", "A program is at fault"),
    ("journal", "N", "A journal is refused"),
    ("hall", "H", "Threads that carry the machine"),
    ("status", "", "Exit statuses"),
]


def meanings(source, name):
    """The numbers of a function of the source, each with the lines of its text."""
    body = re.search(rf"fn {name}_meaning\(.*?\n}}\n", source, re.S).group(0)
    found = []
    for number, text in re.findall(r'(\d+) =>\s*"((?:[^"\\]|\\.)*)"', body, re.S):
        text = re.sub(r"\\\n\s*", "", text).replace("\\n", "\n").replace('\\"', '"')
        found.append((int(number), text.strip().split("\n")))
    return found


def page():
    with open(SOURCE, encoding="utf-8") as file:
        source = file.read()
    lines = [
        "# Codes",
        "",
        "What the codes and exit statuses mean that `jvm` tells. `jvm explain CODE` says the same; this page is written from",
        "crates/command_line/src/explaining.rt by tools/codes.py.",
    ]
    for name, letter, title in FAMILIES:
        lines += ["", f"## {title}", ""]
        for number, text in meanings(source, name):
            lines += [f"**{letter}{number}** " + "  \n".join(text), ""]
        lines.pop()
    return "\n".join(lines) + "\n"


def main():
    written = page()
    if sys.argv[1:] == ["--check"]:
        with open(PAGE, encoding="utf-8") as file:
            return 0 if file.read() == written else 1
    with open(PAGE, "w", encoding="utf-8") as file:
        file.write(written)
    return 0


if __name__ == "__main__":
    sys.exit(main())
