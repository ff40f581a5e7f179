#!/usr/bin/env python3
"""Where an instruction stands in the code: each file and line, step by step, for whoever adds one of the same shape.

Usage: places_of.py WORD [--files]

WORD is a mnemonic, as ineg, or a name of it in code, as Ineg, Negate or negate_int; a name of several instructions gives the
places of each. With --files only the files are listed. The names are found so:

- the mnemonic itself, as a word, and the number of its opcode in the crate `opcodes` and in model/specs/Bytecode;
- its variant in `model`, from the row of the opcode in opcodes/src/tables.rt, and in Mnemonic, from jasmin/src/mnemonics.rt;
- its Operation, by the spelling (SHARED has those that several share), its RegisterStep, as loader/src/translated_operations.rt
  makes it, and each FusedStep that begins with that name;
- functions that an arm of it alone calls, and definitions and lemmas that its case alone names.

What imports give a variant in a file, an alias or a bare name, is read off the file. What it can't find: a case that is a
catch-all (`_`, or a variable), or goes by the number of a variant; a function or definition that serves a whole family, though
the arms that name it are listed; a mnemonic that is a common word (COMMON) where it isn't quoted; macros; imports are left out.
A number that happens to be the opcode's is listed as well.
"""
import glob
import os
import re
import signal
import sys
from collections import Counter

from plain.mnemonics import BARE, BRANCH, CALLS, CLASSES, FIELDS, FIRST, ON_LOCAL

ROOT = os.path.join(os.path.dirname(os.path.abspath(__file__)), "..")
OPCODES = {**BARE, **BRANCH, **ON_LOCAL, **FIELDS, **CALLS, **CLASSES, "bipush": 16, "sipush": 17, "ldc": 18, "ldc_w": 19,
           "ldc2_w": 20, "iinc": 132, "tableswitch": 170, "lookupswitch": 171, "invokeinterface": 185, "newarray": 188,
           "goto_w": 200, **{f"{name}_{n}": first + n for name, first in FIRST.items() for n in range(4)}}
# the operation that several mnemonics share
SHARED = [(r"iconst_.*|[bs]ipush|ldc(_w)?", "Iconst"), (r"lconst_.|ldc2_w", "Lconst"), (r"goto_w", "Goto"),
          (r".*switch", "Aside"), (r"invokeinterface", "Invokevirtual"), (r"([ila](?:load|store))_\d", None)]
# variants that hold a family, or say where an operand stands: the variant in them is the instruction's
FAMILIES = {"Constant", "Local", "Stack", "Number", "Branch", "Array", "Class", "Invoke", "Monitor", "Named", "FirstLocal"}
# the variants of `model` for what the table of opcodes tells by a layout
LAYOUTS = {"Byte": "Constant::Byte", "Short": "Constant::Short", "NarrowInt": "Constant::Int", "Int": "Constant::Int",
           "Long": "Constant::Long", "Load": "LocalAccess::Load", "Store": "LocalAccess::Store",
           "Increment": "LocalAccess::Increment", "TableSwitch": "Instruction::TableSwitch",
           "LookupSwitch": "Instruction::LookupSwitch", "Static": "Instruction::Static", "Field": "Instruction::Field",
           "InvokeVirtual": "Invocation::Virtual", "InvokeSpecial": "Invocation::Special", "InvokeStatic": "Invocation::Static",
           "InvokeInterface": "Invocation::Interface", "NewArray": "ArrayOperation::New"}
# a function or definition that is named more often serves others too
MANY = 20
COMMON = {"new", "return", "pop", "swap", "goto", "dup", "wide"}
STEPS = [("definitions", r"model/(specs/(Table|Arithmetic)|src/)"), ("text", r"jasmin|assembler|disasm|model/specs/Texts"),
         ("class file", r"opcodes/|classfile|pool/|model/specs/(Bytecode|ClassFiles)"),
         ("rows and lemmas of the definitions", r"model/|join/"), ("linking", r"linking|acceptance|resolve"),
         ("register code", r"register_code|loader/|plain_steps/(proofs/(Step|Memory|Register)|specs/RegisterMoves)"),
         ("steps", r"values/|plain_steps|frames|instructions/"), ("ideal run", r"ideal_run|comparison"), ("tests", r"\w+_tests/|examples/"),
         ("docs and tools", r"docs/|tools/"), ("elsewhere", r"")]


def sources():
    """The lines of each file that is looked at: of the crates, by a path from crates/, and of examples, docs and tools."""
    files = {}
    for folder, ends in (("crates", ("rt", "antt", "edit")), (".", ("txt", "j", "md", "py"))):
        for end in ends:
            for path in sorted(glob.glob(f"{ROOT}/{folder}/**/*.{end}", recursive=True)):
                name = os.path.relpath(path, f"{ROOT}/{folder}")
                if "/out/" not in name and (folder == "crates" or re.match(r"examples/|docs/|tools/", name)):
                    with open(path, encoding="utf-8") as file:
                        files[name] = file.read().split("\n")
    return files


def nodes_of(text):
    """The variants of an expression from outside, each with its enum where that is named."""
    return re.findall(r"(?:(\w+)::)?\b([A-Z]\w*|None)\b(?!::)", text)


def told_by(nodes, home=""):
    """The variants that tell an instruction: enum, variant, and the variants of its operands."""
    names = [name for _, name in nodes]
    first = next((n for n, (_, name) in enumerate(nodes) if name not in FAMILIES), None)
    if first is None:
        return []
    told = [((nodes[first][0] or home), names[first], names[first + 1:])] if nodes[first][0] or home else []
    if nodes[first][0] in ("Layout", "Named"):
        enum, name = LAYOUTS.get(names[first], "Layout::").split("::")
        told.append((enum, name, names[first + 1:]))
    return told + [(enum, name, []) for enum, name in nodes[first + 1:] if enum in ("Operator", "Conversion")]


def variants_of(word, files):
    """The opcode of a mnemonic, and the variants that stand for it, from `model` up."""
    opcode = OPCODES[word]
    row = next((line for line in files["opcodes/src/tables.rt"] if re.match(rf"\s+{opcode} => [IL]\w+::", line)), "")
    told = told_by(nodes_of(row.split("=>")[-1]))
    row = next((line for line in files["jasmin/src/mnemonics.rt"] if f'("{word}",' in line), "")
    told += told_by(nodes_of(row.split(",", 1)[-1]), "Mnemonic" if not re.search(r", (Number|Branch|.*Load\(K|.*Store\(K)", row) else "")
    operation = "".join(part.capitalize() for part in word.split("_"))
    for form, shared in SHARED:
        found = re.fullmatch(form, word)
        operation = (shared or found[1].capitalize()) if found else operation
    told.append(("Operation", operation, []))
    table = "\n".join(files["loader/src/translated_operations.rt"])
    found = re.search(rf"Operation::{operation}\b.*?=>(.*?)(?=Operation::|\n    }})", table, re.S)
    made = re.search(r"RegisterStep::(\w+)", found[1]) if found else None
    if made:
        told.append(("RegisterStep", made[1], []))
        fused = re.findall(rf"^    ({made[1]}(?:[A-Z]\w*)?)\(", "\n".join(files["register_code/src/fused_steps.rt"]), re.M)
        told += [("FusedStep", name, []) for name in fused]
    return opcode, sorted({(enum, name, tuple(operands)) for enum, name, operands in told})


def imported(lines):
    """How a file names the variants of enums: (enum, variant) by an alias and by a bare name."""
    aliases, bare = {}, {}
    for line in lines:
        for enum, alias in re.findall(r"use .*\b(\w+)\.TheVariants as «?(\w+)", line):
            aliases.setdefault(enum, []).append(alias)
        for enum, names in re.findall(r"use .*\b(\w+)(?:\.TheVariants\.|::)\{?([\w ,]+)", line):
            for name in names.split(","):
                name, _, renamed = name.strip().partition(" as ")
                bare[enum, name] = renamed or name
    return aliases, bare


def stands(code, form, operands):
    """Whether a variant in this form stands in a line, with these operands or with variables in their place."""
    for found in re.finditer(form + r"(?![\w-])", code):
        rest, fits = code[found.end():], True
        for operand in operands:
            given = re.match(r"[\s(,]*(?:«?\w+»?(?:::|\.))*«?([A-Z]\w*)", rest)
            if not given:
                break
            fits, rest = given[1] == operand, rest[given.end():]
            if not fits:
                break
        if fits:
            return True
    return False


def places(word, files):
    """The lines that name an instruction, by file, with its variants and the functions that are its own."""
    opcode, variants = variants_of(word, files)
    found, own = {}, set()
    quoted = rf'"{word}"|`{word}`' if word in COMMON else rf"(?<![\w-]){word}(?![\w-])"
    for path, lines in files.items():
        aliases, bare = imported(lines)
        forms = []
        for enum, name, operands in variants:
            ways = [rf"\b{enum}::{name}"] + [rf"\b{alias}»?\.{name}" for alias in aliases.get(enum, [])]
            ways += [rf"(?<![\w.:-]){bare[enum, name]}"] if (enum, name) in bare else []
            forms += [(way, operands) for way in ways]
            if re.search(rf"^pub enum {enum}\b", "\n".join(lines), re.M):
                forms.append((rf"^    {name}(?=[,(])", ()))
        counts = [rf"(?<![\w.^]){opcode}(?![\w.])"] if re.match(r"opcodes/|model/specs/Bytecode", path) else []
        spelled = re.compile("|".join([word, str(opcode)] + [bare.get((enum, name), name) for enum, name, _ in variants]))
        for number, line in enumerate(lines):
            if not spelled.search(line) or re.match(r"\s*(pub |ghost )*use ", line):
                continue
            code = re.sub(r"//.*|--.*", "", line)
            by_name = any(stands(code, way, operands) for way, operands in forms)
            if by_name or re.search(quoted, line) or any(re.search(count, code) for count in counts):
                found.setdefault(path, {})[number] = line
            if by_name:
                own |= called(path, lines, number, code)
    counts = Counter(name for lines in files.values() for name in re.findall(r"[\w-]+", "\n".join(lines)) if name in own)
    own = {name for name in own if counts[name] <= MANY}
    for path, lines in files.items() if own else []:
        for number, line in enumerate(lines):
            if own & set(re.findall(r"[\w-]+", line)) and not re.match(r"\s*(pub |ghost )*use ", line):
                found.setdefault(path, {})[number] = line
    return opcode, variants, own, found


def called(path, lines, number, code):
    """The functions or definitions that this line's case names, and no other case of the file."""
    if path.endswith(".rt") and "=>" in code:
        arm = code.split("=>", 1)[1]
        for line in lines[number + 1:number + 8]:
            if "=>" in line:
                break
            arm += "\n" + line
        names = set(re.findall(r"(?<!\.)\b([a-z]\w*)\(", arm)) | set(re.findall(r"self\.(\w+)\(", arm))
        whole = "\n".join(lines)
        once = {name for name in names if len(re.findall(rf"\b{name}\(", re.sub(r"fn \w+", "", whole))) == 1 and "_" in name}
        bodies = [re.search(rf"fn {name}\b.*?\n( *)\{{\n(.*?)\n\1\}}", whole, re.S) for name in once]
        return once | {name for body in bodies if body for name in re.findall(r"values::(\w+)", body[2])}
    case = re.match(r"[\w-]+ .*\)[^=]* = ([a-z][\w]+)\b", code)
    if re.search("/specs/|/proofs/", path) and case and "_" in case[1] and len(re.findall(rf"= {case[1]}\b", "\n".join(lines))) == 1:
        return {case[1]}
    return set()


def words_of(name, files):
    """The mnemonics that have this name in code: of a variant, or of a function, by the arms that call it or its callers."""
    names, arms = {name}, set()
    for _ in range(2):
        for path, lines in files.items():
            for number, line in enumerate(lines if path.endswith(".rt") else []):
                if any(re.search(rf"\b{called}\(", line.split("fn ")[0]) for called in names):
                    arms |= set(re.findall(r"(\w+)::(\w+)", line.split("=>")[0] if "=>" in line else ""))
                    above = [re.search(r"fn (\w+)", lines[n]) for n in range(number, max(number - 40, 0), -1)]
                    names |= {next((found[1] for found in above if found), name)} if not arms else set()
    told = {word: {(enum, variant) for enum, variant, _ in variants_of(word, files)[1]} for word in OPCODES}
    return [word for word, variants in told.items() if name in {v for _, v in variants}] or [
        word for word, variants in told.items() if variants & arms]


def main(word, whole):
    files = sources()
    words = [word] if word in OPCODES else words_of(word, files)
    if not words:
        sys.exit(f"no instruction is called {word}, nor has this name in code")
    for name in words:
        opcode, variants, own, found = places(name, files)
        print(f"{name}: opcode {opcode}; " + ", ".join(f"{e}::{v}" + (f"({', '.join(o)})" if o else "") for e, v, o in variants))
        print("its own: " + (", ".join(sorted(own)) or "no function or definition"))
        for step, form in STEPS:
            here = [path for path in found if re.match(form, path) and step == next(s for s, f in STEPS if re.match(f, path))]
            if here:
                print(f"\n{step}")
            for path in here:
                if not whole or step == "docs and tools" or path.startswith("examples/"):
                    print(f"  {path}: {', '.join(str(n + 1) for n in sorted(found[path]))}")
                    continue
                for number in sorted(found[path]):
                    print(f"  {path}:{number + 1}: {found[path][number].strip()[:110]}")
        print(f"\n{sum(map(len, found.values()))} lines in {len(found)} files\n")


if __name__ == "__main__":
    signal.signal(signal.SIGPIPE, signal.SIG_DFL)
    if not 2 <= len(sys.argv) <= 3 or sys.argv[1].startswith("-") or sys.argv[2:] not in ([], ["--files"]):
        sys.exit(__doc__)
    main(sys.argv[1], len(sys.argv) == 2)
