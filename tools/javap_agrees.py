"""Whether `jvm dis` and the JDK's `javap -v` say the same of class files.

Usage: javap_agrees.py JVM [FILE.class ..]

JVM is the command of the built program, as "./jvm". With no class file named, those of the Java sources in examples/java
are taken, as java_classes.py makes them for the machine, with another version and without some flags; `javap` reads these
too. So are the texts in examples, which `jvm asm` assembles. For each file these are compared: superclass, interfaces, flags;
of fields name, descriptor, flags and value; of methods name, descriptor, flags, limits, exception rows, and each instruction
with its operands, by name. Ends with status 1 where something differs.
"""
import glob
import os
import re
import shlex
import subprocess
import sys
import tempfile

import java_classes

FIELD_BITS = dict(public=1, private=2, protected=4, static=8, final=16, volatile=64, transient=128)
METHOD_BITS = dict(public=1, private=2, protected=4, static=8, final=16, synchronized=32, native=256, abstract=1024)
CLASS_BITS = dict(public=1, final=16, abstract=1024)
INTERFACE, SUPER = 0x0200, 0x0020


def output_of(words):
    done = subprocess.run(words, capture_output=True, text=True)
    if done.returncode:
        sys.exit("%s: status %d: %s" % (" ".join(words), done.returncode, done.stderr.strip()))
    return done.stdout


# ---- what `jvm dis` says


def flags_in(words, bits):
    count = 0
    while count < len(words) and words[count] in bits:
        count += 1
    return sum(bits[word] for word in words[:count]), words[count:]


def label(word):
    return int(word[1:])


def dis_instruction(words, lines):
    """An instruction as (mnemonic, operands), the lines of a switch taken from those that follow."""
    if words[0] == "wide":
        return ("wide " + words[1], words[2:])
    if words[0] == "tableswitch":
        targets, low = [], int(words[1])
        while not lines[0].startswith("default"):
            targets.append((low + len(targets), label(lines.pop(0))))
        return (words[0], targets + [label(lines.pop(0).split()[2])])
    if words[0] == "lookupswitch":
        targets = []
        while not lines[0].startswith("default"):
            key, _, target = lines.pop(0).split()
            targets.append((int(key), label(target)))
        return (words[0], targets + [label(lines.pop(0).split()[2])])
    if words[0].startswith(("if", "goto")):
        return (words[0], [label(words[1])])
    return (words[0], words[1:])


def dis_method(line, lines):
    flags, rest = flags_in(line.split()[1:], METHOD_BITS)
    name, descriptor = re.match(r"([^(]+)(\(.*)", rest[0]).groups()
    method = dict(name=name, descriptor=descriptor, flags=flags, limits=None, rows=[], code=[])
    limits = {}
    while True:
        words = lines.pop(0).split()
        if words == [".end", "method"]:
            break
        if words[0] == ".limit":
            limits[words[1]] = int(words[2])
            method["limits"] = (limits.get("stack"), limits.get("locals"))
        elif words[0] == ".catch":
            method["rows"].append((label(words[3]), label(words[5]), label(words[7]), words[1]))
        elif not (len(words) == 1 and words[0].endswith(":")):
            method["code"].append(dis_instruction(words, lines))
    return method


def by_jvm(command, path):
    lines = output_of(shlex.split(command) + ["dis", path]).splitlines()
    said = dict(interfaces=[], fields=[], methods=[])
    while lines:
        line = lines.pop(0)
        words = line.split()
        if words[0] in (".class", ".interface"):
            flags, rest = flags_in(words[1:], CLASS_BITS)
            said["name"] = rest[0]
            said["flags"] = flags | (INTERFACE | 0x0400 if words[0] == ".interface" else 0)
        elif words[0] == ".super":
            said["super"] = words[1]
        elif words[0] == ".implements":
            said["interfaces"].append(words[1])
        elif words[0] == ".field":
            flags, rest = flags_in(words[1:], FIELD_BITS)
            said["fields"].append((rest[0], rest[1], flags, int(rest[3]) if len(rest) > 2 else None))
        elif words[0] == ".method":
            said["methods"].append(dis_method(line, lines))
    return said


# ---- what `javap -v` says


def pool_in(lines):
    pool = {}
    for line in lines:
        found = re.match(r"\s+#(\d+) = (\w+)\s+(.*)$", line)
        if found:
            number, kind, rest = found.groups()
            value, _, comment = rest.partition("//")
            pool[int(number)] = (kind, value.strip(), comment.strip())
    return pool


def named(pool, number):
    kind, value, comment = pool[number]
    if kind == "Class":
        return [comment.strip('"')]
    if kind == "Integer":
        return [value]
    if kind == "Long":
        return [value.rstrip("l")]
    owner, member = comment.split(":", 1)[0].rsplit(".", 1)
    owner, member, descriptor = owner.strip('"'), member.strip('"'), comment.split(":", 1)[1]
    if kind == "Fieldref":
        return [owner + "/" + member, descriptor]
    return [owner + "/" + member + descriptor]


def javap_instruction(pool, mnemonic, rest, lines):
    if mnemonic.endswith("switch"):
        targets = []
        while True:
            words = lines.pop(0).split()
            if words == ["}"]:
                return (mnemonic, targets)
            if words[0] == "default:":
                targets.append(int(words[1]))
            else:
                targets.append((int(words[0].rstrip(":")), int(words[1])))
    operands = rest.partition("//")[0].replace(",", " ").split()
    if operands and operands[0].startswith("#"):
        operands = named(pool, int(operands[0][1:])) + operands[1:]
    elif mnemonic.startswith(("if", "goto")):
        operands = [int(operands[0])]
    if mnemonic.endswith("_w") and mnemonic not in ("ldc_w", "ldc2_w", "goto_w"):
        mnemonic = "wide " + mnemonic[:-2]
    return (mnemonic, operands)


def javap_member(name, header, pool, lines):
    descriptor = lines.pop(0).split("descriptor: ")[1].strip()
    flags = int(re.search(r"\((0x[0-9a-f]+)\)", lines.pop(0)).group(1), 16)
    if "(" not in header and header.strip() != "static {};":
        value = None
        while lines and lines[0].strip():
            found = re.match(r"\s+ConstantValue: (int|long|byte|char|short) (-?\d+)", lines.pop(0))
            value = int(found.group(2)) if found else value
        return "fields", (header.rstrip(";").split()[-1], descriptor, flags, value)
    if header.strip() == "static {};":
        called = "<clinit>"
    else:
        called = re.search(r"(\S+)\(", header).group(1)
        called = "<init>" if called == name.replace("/", ".") else called
    method = dict(name=called, descriptor=descriptor, flags=flags, limits=None, rows=[], code=[])
    while lines and lines[0].strip() and lines[0].strip() != "}":
        line = lines.pop(0)
        found = re.match(r"\s+stack=(\d+), locals=(\d+)", line)
        if found:
            method["limits"] = tuple(int(n) for n in found.groups())
        found = re.match(r"\s+(\d+): ([a-z]\w*)\s*(.*)$", line)
        if found:
            method["code"].append(javap_instruction(pool, found.group(2), found.group(3), lines))
        found = re.match(r"\s+(\d+)\s+(\d+)\s+(\d+)\s+(any|Class \S+)$", line)
        if found:
            kind = found.group(4)
            method["rows"].append(tuple(int(n) for n in found.groups()[:3]) + ("all" if kind == "any" else kind[6:].strip('"'),))
    return "methods", method


def by_javap(path):
    text = output_of(["javap", "-v", "-p", path])
    head, _, body = text.partition("\n{\n")
    pool = pool_in(head.splitlines())
    name = re.search(r"this_class: #\d+\s+// (\S+)", head).group(1)
    flags = int(re.search(r"flags: \((0x[0-9a-f]+)\)", head).group(1), 16) & ~SUPER
    said = dict(name=name, flags=flags, interfaces=[], fields=[], methods=[])
    said["super"] = re.search(r"super_class: #\d+\s+// (\S+)", head).group(1)
    word = " extends " if flags & INTERFACE else " implements "
    line = next(l for l in head.splitlines() if re.search(r"\b(class|interface) " + re.escape(name.replace("/", ".")), l))
    if word in line:
        said["interfaces"] = [n.strip().replace(".", "/") for n in line.split(word)[1].split(",")]
    lines = body.splitlines()
    while lines:
        line = lines.pop(0)
        if line.strip() and lines and "descriptor: " in lines[0]:
            kind, member = javap_member(name, line, pool, lines)
            said[kind].append(member)
    return said


# ---- both


def differences(ours, theirs):
    for key in ("name", "super", "interfaces", "flags", "fields"):
        if ours[key] != theirs[key]:
            yield "%s: %r and %r" % (key, ours[key], theirs[key])
    if len(ours["methods"]) != len(theirs["methods"]):
        yield "%d and %d methods" % (len(ours["methods"]), len(theirs["methods"]))
    for mine, other in zip(ours["methods"], theirs["methods"]):
        for key in ("name", "descriptor", "flags", "limits", "rows"):
            if mine[key] != other[key]:
                yield "%s of %s: %r and %r" % (key, mine["name"], mine[key], other[key])
        if len(mine["code"]) != len(other["code"]):
            yield "%s: %d and %d instructions" % (mine["name"], len(mine["code"]), len(other["code"]))
        for n, (i, k) in enumerate(zip(mine["code"], other["code"])):
            if i != k:
                yield "instruction %d of %s: %r and %r" % (n, mine["name"], i, k)


EXAMPLES = os.path.join(os.path.dirname(os.path.abspath(__file__)), "..", "examples")


def assembled(jvm, folder):
    files = []
    for text in sorted(glob.glob(os.path.join(EXAMPLES, "*.j"))):
        files.append(os.path.join(folder, os.path.basename(text)[:-2] + ".class"))
        output_of(shlex.split(jvm) + ["asm", text, files[-1]])
    return files


def compiled(folder):
    """The class files of the Java sources, as the machine takes them."""
    made, _ = java_classes.compiled(sorted(glob.glob(os.path.join(EXAMPLES, "java", "*.java"))))
    return java_classes.written(folder, {name: java_classes.ClassFile(data).for_the_machine() for name, data in sorted(made.items())})


def main():
    if len(sys.argv) < 2:
        sys.exit(__doc__)
    with tempfile.TemporaryDirectory() as folder:
        files = sys.argv[2:] or compiled(folder) + assembled(sys.argv[1], folder)
        wrong = 0
        for path in files:
            ours, theirs = by_jvm(sys.argv[1], path), by_javap(path)
            found = list(differences(ours, theirs))
            code = sum(len(m["code"]) for m in theirs["methods"])
            print("%s: %d fields, %d methods, %d instructions: %s" % (os.path.basename(path), len(theirs["fields"]), len(theirs["methods"]), code, "agree" if not found else "differ"))
            for difference in found:
                print("  " + difference)
            wrong += bool(found)
        print("%d files agree, %d differ" % (len(files) - wrong, wrong))
        sys.exit(1 if wrong else 0)


main()
