#!/usr/bin/env python3
"""Writes the second half of a wrong body's edit: what its function doesn't need is left out, so that the gate proves or
reads a few functions for it, and not the crate.

    tools/leave_out.py CRATE [EDIT] [--try]

With no EDIT it writes that half of each of the crate's edits that have one anew, as is wanted where a file of the crate is
new, gone or begins or ends otherwise. The module of the edit's first file stays, with all that it names: modules,
definitions and lemmas, and with a type the modules whose methods of it have proofs, which stand beside the type's. Other
modules stand under cfg(test); what names one of them (a file of specs/ or proofs/) is a comment, and so are other files of
lemmas. A file that can't be one, since its first or last line stands twice in it or it names files, stays with all that it
names. Where a program's `main` asks a module that is left out for the status, that is 0. The pairs come after the line MARK,
in place of what stood there. With --try the crate without what is left out is checked, wrong body and all but the first
file's pairs, and has to be proved: else an edit may be refused for what it leaves out. It begins with what `rt check` kept,
where that is there.
"""

import os
import re
import sys
import tempfile

from kit import module_of_kit

# What stands before the last line of a file that becomes a comment, where that line closes something.
AFTER = {
    "}": ["use Rattle.std.specs.Prelude.{Some"],
    ")": ["use Rattle.std.proofs.lemmas.List.{length-append}", "ruleset left_out = (length-append"],
}

MARK = "The rest leaves out what its function doesn't need, and is written by tools/leave_out.py."


def read(path):
    with open(path, encoding="utf-8") as file:
        return file.read()


def files_below(folder, ending):
    return [f"{at}/{name}" for at, _, names in os.walk(folder) for name in sorted(names) if name.endswith(ending)]


class Parts:
    """The parts of a crate: its modules by name, and its files of definitions and lemmas by dotted path."""

    def __init__(self, folder, crate):
        self.folder, self.crate = folder, crate
        self.top = next(name for name in ("src/lib.rt", "src/main.rt") if os.path.isfile(f"{folder}/{name}"))
        self.root = read(f"{folder}/{self.top}")
        modules = re.findall(r"^(?:pub )?mod (\w+);", self.root, re.M)
        self.modules = {name: self.text_of_module(name) for name in modules}
        self.passed_on = {}
        for module, names in re.findall(r"^pub use (?:crate::)?(\w+)::(.*?);", self.root, re.M | re.S):
            self.passed_on.update({name: module for name in re.findall(r"\w+", names)})
        self.paths = {}
        for kind in ("specs", "proofs"):
            for path in files_below(f"{folder}/{kind}", ".antt"):
                inside = os.path.relpath(path, f"{folder}/{kind}")[: -len(".antt")]
                of_module = kind == "proofs" and inside.split("/")[0] in self.modules
                if inside != "Lib" and not of_module:
                    self.paths[f"{kind}.{inside.replace('/', '.')}"] = path
        self.files = {name: read(path) for name, path in self.paths.items()}

    def text_of_module(self, name):
        paths = [f"{self.folder}/{part}/{name}{end}" for part, end in (("src", ".rt"), ("proofs", ".antt"))]
        paths = [path for path in paths if os.path.isfile(path)]
        paths += files_below(f"{self.folder}/src/{name}", ".rt") + files_below(f"{self.folder}/proofs/{name}", ".antt")
        return "\n".join(read(path) for path in paths)

    def modules_in(self, text):
        named = set(re.findall(r"\bcrate::(\w+)", text))
        named |= set(re.findall(rf"Rattle\.{self.crate}\.(?:specs\.declared|specs\.contracts|proofs)\.(\w+)", text))
        for group in re.findall(r"\buse crate::\{(.*?)\};", text, re.S):
            named |= set(re.findall(r"\w+", group))
        return {self.passed_on.get(name, name) for name in named} & set(self.modules)

    def files_in(self, text):
        named = set()
        for path in re.findall(rf"(?:Rattle\.{self.crate}\.|crate::)((?:specs|proofs)(?:\.|::)[\w.:]+)", text):
            path = path.replace("::", ".").rstrip(".")
            while path and path not in self.files:
                path = path.rpartition(".")[0]
            named |= {path} - {""}
        return named

    def modules_of_methods(self, module):
        """The other modules whose methods have their proofs below this one, which has their type."""
        paths = [path.split("/")[-3:-1] for path in files_below(f"{self.folder}/proofs/{module}", ".antt")]
        apart = {(of, name) for of, name in paths if not re.search(rf"\bfn {re.escape(name)}\b", self.modules[module])}
        forms = [rf"^impl(?:<[^{{}}]*>)? {of}(?:<[^{{}}]*>)? \{{.*?\bfn {re.escape(name)}\b" for of, name in apart]
        is_there = lambda text: any(re.search(form, text, re.M | re.S) for form in forms)
        return {other for other, text in self.modules.items() if other != module and is_there(text)}

    def needed(self, first):
        """A module or a file, and all that it names."""
        found, left = set(), [first]
        while left:
            name = left.pop()
            if name not in found:
                found.add(name)
                text = self.modules[name] if name in self.modules else self.files[name]
                left += self.modules_in(text) | self.files_in(text)
                left += self.modules_of_methods(name) if name in self.modules else []
        return found

    def lost(self, kept):
        """The files that name what is left out, and lemmas that nothing kept names."""
        lost = {name for name, text in self.files.items() if name.startswith("proofs.") or self.modules_in(text) - kept} - kept
        while more := {name for name, text in self.files.items() if name not in kept | lost and self.files_in(text) & lost}:
            lost |= more
        return lost

    def kept(self, module):
        """What the module needs, and the files that can't be comments, with what they name."""
        kept = self.needed(module)
        while stuck := {name for name in self.lost(kept) if not as_comment(self.files[name])}:
            for name in stuck:
                kept |= self.needed(name)
        return kept


def as_comment(text):
    """The pairs that make a file of definitions a comment. Each line that they name stands in it once; where its last line
    is a brace or a bracket alone, that becomes the end of an import, or of a set of rules."""
    lines = text.rstrip("\n").split("\n")
    after = AFTER.get(lines[-1].strip(), [])
    ends = [lines[0], *(lines[-len(after) - 2 : -1] if after else lines[-1:])]
    if re.search(r"^(pub )?mod ", text, re.M) or any(text.count(line) != 1 for line in ends):
        return None
    return [part for pair in zip(ends, ["{-", "-}", *after]) for part in (f"old: {pair[0]}", f"new: {pair[1]}")]


def pairs(parts, kept):
    lines = [f"file: {parts.top}"]
    for line in parts.root.split("\n"):
        found = re.match(r"(?:pub )?mod (\w+);|pub use (?:crate::)?(\w+)::", line)
        name = found and (found[1] or found[2])
        if name in parts.modules and name not in kept and f"#[cfg(test)]\n{line}" not in parts.root:
            lines += [f"old: {found[0]}", f"new: #[cfg(test)] {found[0]}"]
    for call, name in re.findall(r"\(((\w+)::\w+\(.*?\))\)", parts.root):
        if name in parts.modules and name not in kept:
            lines += [f"old: {call}", "new: 0"]
    for name in sorted(parts.lost(kept)):
        lines += [f"file: {os.path.relpath(parts.paths[name], parts.folder)}", *as_comment(parts.files[name])]
    return lines


def written(folder, parts, edit):
    """Writes the edit's second half, and returns it."""
    wrong = read(edit).split(MARK)[0].rstrip("\n").split("\n")
    module = next(line for line in wrong if line.startswith("file: src/")).removeprefix("file: src/")
    rest = pairs(parts, parts.kept(re.split(r"[/.]", module)[0]))
    with open(edit, "w", encoding="utf-8") as file:
        file.write("\n".join([*wrong, MARK, *rest, ""]))
    return rest


def is_proved(folder, crate, rest):
    """Whether the crate is proved without what these pairs leave out."""
    rt = module_of_kit("rt")
    root = os.path.dirname(os.path.dirname(folder))
    os.chdir(root)
    found = next(it for it in rt.rtlib.crates_below(root) if it.name == crate)
    texts, why = rt.edited("\n".join(rest), folder)
    if why:
        print(why)
        return False
    with tempfile.TemporaryDirectory() as room:
        kept = f"{room}/kept" if os.path.isdir(f"{folder}/out/incremental") else None
        if kept:
            rt.linked(f"{folder}/out/incremental", kept)
        ran = rt.checked(found, texts, ["--jobs", "1"], kept)
    print(ran.stdout.rstrip("\n").split("\n")[-1])
    return not ran.returncode


def main():
    words = [word for word in sys.argv[1:] if word != "--try"]
    if not words:
        print(__doc__)
        return 2
    crate = words[0]
    folder = os.path.join(os.path.dirname(os.path.dirname(os.path.realpath(__file__))), "crates", crate)
    edits = [f"{folder}/must-fail/{word.removesuffix('.edit')}.edit" for word in words[1:]]
    edits = edits or [edit for edit in files_below(f"{folder}/must-fail", ".edit") if MARK in read(edit)]
    parts, failed = Parts(folder, crate), 0
    for edit in edits:
        rest = written(folder, parts, edit)
        print(os.path.basename(edit))
        if "--try" in sys.argv:
            failed += not is_proved(folder, crate, rest)
    return 1 if failed else 0


if __name__ == "__main__":
    sys.exit(main())
