#!/usr/bin/env python3
"""Compiles Java sources to class files that `jvm run` takes, or says what doesn't fit.

    tools/java_classes.py OUT FILE.java ..

The machine's `javac`, any from 8 to 25, compiles the files for release 8, without
debug tables. They may call vm.Sys, which needn't be written: `import static vm.Sys.*;`
and then print(int), printl(long) and putc(int). Sources beside the files are found
where they are needed. The version of each class file is set to 49.0. Flags that the
machine doesn't know and that change nothing of what a program does are cleared: those
of what javac adds by itself, of bridge methods, of varargs and of strictfp.

Where all classes fit, they are written into the folder OUT, and the command that runs
them is printed. Else nothing is written, and each thing that doesn't fit has a line:
the member, its lines, what it uses, and often what to write in its place.
docs/JAVA.md tells which Java runs.
"""
import argparse
import os
import re
import shlex
import subprocess
import sys
import tempfile

ROOT = os.path.normpath(os.path.join(os.path.dirname(os.path.abspath(__file__)), ".."))

# The machine's prints, for `javac` and `java`: the machine has its own in place of this class.
SYS = """package vm;
public class Sys {
    private Sys() { }
    public static void print(int i) { line(Integer.toString(i)); }
    public static void printl(long l) { line(Long.toString(l)); }
    public static void putc(int c) { System.out.write(c & 255); }
    private static void line(String s) { System.out.print(s + "\\n"); }
}
"""


class Refused(Exception):
    """Why there are no classes, as the tool says it."""


# ---- javac


def javac_version(javac):
    """Gives the first number of javac's version, 8 for 1.8."""
    said = subprocess.run([javac, "-version"], stdout=subprocess.PIPE, stderr=subprocess.STDOUT, check=False).stdout
    found = re.search(rb"javac (?:1\.)?(\d+)", said)
    if not found:
        raise Refused(f"java_classes: {javac} doesn't say which javac it is")
    return int(found[1])


def run_javac(*words):
    """Gives whether javac did its work, and what it said."""
    try:
        done = subprocess.run(words, stdout=subprocess.PIPE, stderr=subprocess.STDOUT, check=False)
    except OSError:
        raise Refused(f"java_classes: there is no {words[0]}: install a JDK, from 8 to 25") from None
    return done.returncode == 0, done.stdout.decode(errors="replace")


def compile_for_8(javac, own, options, sources):
    """Compiles sources for release 8, and gives what javac said; own: the source of vm.Sys, which each such javac takes."""
    done, said = run_javac(javac, "--release", "8", *options, *sources)
    if done:
        return said
    version = javac_version(javac)
    if version < 8:
        raise Refused(f"java_classes: javac {version} is too old: take one from 8 to 25")
    if version == 8:  # it has no --release
        done, said = run_javac(javac, "-source", "8", "-target", "8", *options, *sources)
    elif not run_javac(javac, "--release", "8", *options, own)[0]:
        raise Refused(f"java_classes: javac {version} compiles nothing for release 8: take one from 8 to 25")
    if not done:
        raise Refused(said.rstrip("\n"))
    return said


def compiled(sources, javac="javac", debug="-g:none"):
    """Gives the class files that javac makes of sources, by the names of the classes, and what it said."""
    files = {}
    folders = sorted({os.path.dirname(os.path.abspath(it)) for it in sources})
    with tempfile.TemporaryDirectory() as room:
        brought, classes = os.path.join(room, "brought"), os.path.join(room, "classes")
        os.makedirs(os.path.join(brought, "vm"))
        os.mkdir(classes)
        own = os.path.join(brought, "vm", "Sys.java")
        with open(own, "w", encoding="ascii") as file:
            file.write(SYS)
        options = [debug, "-nowarn", "-Xlint:-options", "-encoding", "UTF-8", "-cp", brought, "-d", classes]
        said = compile_for_8(javac, own, [*options, "-sourcepath", os.pathsep.join([brought, *folders])], sources)
        for folder, _, names in os.walk(classes):
            for path in (os.path.join(folder, name) for name in names):
                with open(path, "rb") as file:
                    files[os.path.relpath(path, classes).replace(os.sep, "/").removesuffix(".class")] = file.read()
    files.pop("vm/Sys", None)
    return files, said


# ---- class files

UTF8, INTEGER, FLOAT, LONG, DOUBLE, CLASS, STRING, NAME_AND_TYPE = 1, 3, 4, 5, 6, 7, 8, 12
# how many bytes follow the tag of an entry of the pool, where it is no Utf8
SIZES = {3: 4, 4: 4, 5: 8, 6: 8, 7: 2, 8: 2, 9: 4, 10: 4, 11: 4, 12: 4, 15: 3, 16: 2, 17: 4, 18: 4}
KNOWN_TAGS = {UTF8, INTEGER, LONG, CLASS, 9, 10, 11, NAME_AND_TYPE}

STATIC, SYNCHRONIZED, NATIVE, INTERFACE, ABSTRACT, ENUM = 8, 0x20, 0x100, 0x200, 0x400, 0x4000
SYNTHETIC, STRICT, BRIDGE, VARARGS = 0x1000, 0x800, 0x40, 0x80
# flags that say nothing of what a program does
CLEARED_OF_CLASSES = CLEARED_OF_FIELDS = SYNTHETIC
CLEARED_OF_METHODS = SYNTHETIC | STRICT | BRIDGE | VARARGS


class Member:
    """A field or a method: its flags, name and descriptor, and of a method its code and the lines of it."""

    def __init__(self, flags, name, descriptor):
        self.flags, self.name, self.descriptor = flags, name, descriptor
        self.code, self.units, self.caught, self.lines = b"", 0, [], []

    def line_of(self, pc):
        """Gives the line of the instruction at a pc, or 0 where none is known."""
        return next((line for start, line in reversed(self.lines) if start <= pc), 0)


class ClassFile:
    """The parts of a class file that tell whether the machine takes it."""

    def __init__(self, data):
        self.data, self.at = data, 8
        self.cleared = []
        self.pool = self.read_pool()
        self.flags = self.read_flags(CLEARED_OF_CLASSES)
        self.name = self.class_at(self.u2())
        self.above = self.class_at(self.u2())
        self.interfaces = [self.class_at(self.u2()) for _ in range(self.u2())]
        self.fields = [self.read_member(CLEARED_OF_FIELDS) for _ in range(self.u2())]
        self.methods = [self.read_member(CLEARED_OF_METHODS) for _ in range(self.u2())]

    def u(self, size):
        """Gives the number in the next bytes, so many of them."""
        self.at += size
        return int.from_bytes(self.data[self.at - size : self.at], "big")

    def u2(self):
        """Gives the number in the next two bytes."""
        return self.u(2)

    def read_pool(self):
        """Gives the entries by their numbers: a Utf8's bytes, and of the others the tag and the bytes after it."""
        pool, number, count = {}, 1, self.u2()
        while number < count:
            tag = self.u(1)
            size = self.u2() if tag == UTF8 else SIZES[tag]
            pool[number] = (tag, self.data[self.at : self.at + size])
            self.at += size
            number += 2 if tag in (LONG, DOUBLE) else 1
        return pool

    def read_flags(self, unknown):
        """Gives flags, and notes where they stand and what they are without those that are unknown."""
        flags = self.u2()
        self.cleared.append((self.at - 2, flags & ~unknown))
        return flags

    def read_member(self, unknown):
        """Gives a field or a method."""
        member = Member(self.read_flags(unknown), self.text(self.u2()), self.text(self.u2()))
        for name, end in self.attributes():
            if name == "Code":
                self.read_code(member)
            self.at = end
        return member

    def attributes(self):
        """Gives the name of each attribute, and where it ends."""
        for _ in range(self.u2()):
            name, size = self.text(self.u2()), self.u(4)
            yield name, self.at + size

    def read_code(self, member):
        """Reads what a method's attribute `Code` says."""
        member.units = self.u2() + self.u2()
        size = self.u(4)
        member.code = self.data[self.at : self.at + size]
        self.at += size
        for _ in range(self.u2()):
            start, _, _, caught = (self.u2() for _ in range(4))
            if caught:
                member.caught.append((start, self.class_at(caught)))
        for name, end in self.attributes():
            if name == "LineNumberTable":
                member.lines = [(self.u2(), self.u2()) for _ in range(self.u2())]
            self.at = end

    def text(self, number):
        """Gives the text of an entry."""
        return self.pool[number][1].decode("utf-8", "replace")

    def class_at(self, number):
        """Gives a class's name, or nothing where the number is 0."""
        return self.text(int.from_bytes(self.pool[number][1], "big")) if number else ""

    def pair_at(self, number):
        """Gives the two numbers that an entry names."""
        content = self.pool[number][1]
        return int.from_bytes(content[:2], "big"), int.from_bytes(content[2:4], "big")

    def member_at(self, number):
        """Gives the class, the name and the descriptor of a field or a method that an entry names."""
        of, pair = self.pair_at(number)
        return (self.class_at(of), *(self.text(it) for it in self.pair_at(pair)))

    def for_the_machine(self):
        """Gives the class file with version 49.0, and without the flags that the machine doesn't know."""
        data = bytearray(self.data)
        data[4:8] = b"\0\0\0\x31"
        for place, flags in self.cleared:
            data[place : place + 2] = flags.to_bytes(2, "big")
        return bytes(data)


# ---- code

LDC, WIDE, NEWARRAY, INVOKEDYNAMIC, MULTIANEWARRAY = 18, 196, 188, 186, 197
TABLESWITCH, LOOKUPSWITCH, IINC = 170, 171, 132
LOADS_OF_CONSTANTS = range(18, 21)
OF_MEMBERS = range(178, 186)
OF_CLASSES = {187, 189, 192, 193}
FLOATING = {*range(11, 16), 23, 24, *range(34, 42), 48, 49, 56, 57, *range(67, 75), 81, 82, 98, 99, 102, 103, 106, 107}
FLOATING |= {110, 111, 114, 115, 118, 119, 134, 135, *range(137, 145), *range(149, 153), 174, 175}
# an instruction's bytes with its operands, where they are more than one
LENGTHS = {16: 2, 18: 2, 188: 2, 169: 2, 17: 3, 19: 3, 20: 3, 132: 3, 187: 3, 189: 3, 192: 3, 193: 3, 198: 3, 199: 3}
LENGTHS |= {it: 2 for it in (*range(21, 26), *range(54, 59))}
LENGTHS |= {it: 3 for it in (*range(153, 169), *range(178, 185))}
LENGTHS |= {197: 4, 185: 5, 186: 5, 200: 5, 201: 5}


def instructions(code):
    """Gives each instruction's pc, opcode and first operand, of one byte for `newarray` and `ldc` and else of two."""
    pc = 0
    while pc < len(code):
        opcode = code[pc]
        size = 1 if opcode in (LDC, NEWARRAY) else 2
        yield pc, opcode, int.from_bytes(code[pc + 1 : pc + 1 + size], "big")
        pc += length_at(code, pc)


def length_at(code, pc):
    """Gives how many bytes the instruction at a pc takes."""
    opcode = code[pc]
    if opcode == WIDE:
        return 6 if code[pc + 1] == IINC else 4
    if opcode not in (TABLESWITCH, LOOKUPSWITCH):
        return LENGTHS.get(opcode, 1)
    first = pc + 4 - pc % 4
    number = [int.from_bytes(code[at : at + 4], "big", signed=True) for at in (first + 4, first + 8)]
    after = 8 + 8 * number[0] if opcode == LOOKUPSWITCH else 12 + 4 * (number[1] - number[0] + 1)
    return first - pc + after


# ---- the machine's own classes

ABOVE = {
    "Throwable": "Object",
    "Exception": "Throwable",
    "Error": "Throwable",
    "RuntimeException": "Exception",
    "ArithmeticException": "RuntimeException",
    "NullPointerException": "RuntimeException",
    "ClassCastException": "RuntimeException",
    "NegativeArraySizeException": "RuntimeException",
    "ArrayStoreException": "RuntimeException",
    "IllegalMonitorStateException": "RuntimeException",
    "IndexOutOfBoundsException": "RuntimeException",
    "ArrayIndexOutOfBoundsException": "IndexOutOfBoundsException",
    "IllegalArgumentException": "RuntimeException",
    "IllegalThreadStateException": "IllegalArgumentException",
    "VirtualMachineError": "Error",
    "OutOfMemoryError": "VirtualMachineError",
    "StackOverflowError": "VirtualMachineError",
    "LinkageError": "Error",
    "ExceptionInInitializerError": "LinkageError",
    "NoClassDefFoundError": "LinkageError",
    "Thread": "Object",
}
OBJECT, THREAD, PRINTS = "java/lang/Object", "java/lang/Thread", "vm/Sys"
# each of the machine's classes and its superclass
MACHINE = {f"java/lang/{name}": f"java/lang/{above}" for name, above in ABOVE.items()} | {OBJECT: "", PRINTS: OBJECT}
METHODS = {(name, "<init>", "()V") for name in MACHINE if name != PRINTS}
METHODS |= {(THREAD, name, "()V") for name in ("run", "start", "join")}
METHODS |= {(PRINTS, "print", "(I)V"), (PRINTS, "printl", "(J)V"), (PRINTS, "putc", "(I)V")}


class Program:
    """The classes that javac made, and what they and the machine's own have."""

    def __init__(self, files):
        self.classes = {name: ClassFile(data) for name, data in sorted(files.items())}

    def has(self, name):
        """Whether there is a class of this name."""
        return name in self.classes or name in MACHINE

    def supers(self, name):
        """Gives a class and all that stand above it, each as it is met."""
        while name:
            yield name
            own = self.classes.get(name)
            for interface in own.interfaces if own else []:
                yield from self.supers(interface)
            name = own.above if own else MACHINE.get(name)

    def finds(self, name, member, descriptor):
        """Whether a member of a class is found, or a class above it isn't there."""
        for above in [name] if member == "<init>" else self.supers(name):
            own = self.classes.get(above)
            if own and any((it.name, it.descriptor) == (member, descriptor) for it in own.fields + own.methods):
                return True
            if not own and (above not in MACHINE or (above, member, descriptor) in METHODS):
                return True
        return False

    def nearest_of_machine(self, name):
        """Gives the machine's class that stands next above a class, or the class where it is the machine's."""
        while name in self.classes:
            name = self.classes[name].above
        return name

    def is_thread(self, name):
        """Whether a class extends Thread."""
        return THREAD in self.supers(name)

    def instance_fields(self, name):
        """Gives how many fields an object of a class has."""
        own = [self.classes[it] for it in self.supers(name) if it in self.classes]
        return sum(not it.flags & STATIC for above in own for it in above.fields)


# ---- what doesn't fit

NO_FLOATS = "float and double aren't part of this machine"
NO_BOOLEAN_ARRAYS = "boolean arrays aren't part of this machine; write byte[]"
NOT_ASCII = "a name or an annotation has letters that aren't ASCII"
INITIALIZED_INTERFACE = "an interface's fields are constants on this machine; keep others in a class"
NO_STRINGS = "java/lang/String isn't part of this machine"
CONCATENATION = "string concatenation (javac makes java/lang/StringBuilder of it)"
NO_STREAMS = "java/lang/System isn't part of this machine; print with vm.Sys.print(int), printl(long) or putc(int)"
NO_LAMBDAS = "lambdas and method references (javac makes invokedynamic of them); write a class"
NO_GRIDS = "new with two or more sizes (javac makes multianewarray of it); make each row by itself"
ASSERTIONS = "assertions (javac makes java/lang/AssertionError and java/lang/Class of them)"
# what is said of a class that isn't there, where it isn't `it isn't part of this machine`
FOREIGN = {
    "java/io/PrintStream": NO_STREAMS,
    "java/lang/StringBuilder": CONCATENATION,
    "java/lang/AssertionError": ASSERTIONS,
    "java/lang/Runnable": "java/lang/Runnable isn't part of this machine; extend java.lang.Thread",
    "java/lang/InterruptedException": "java/lang/InterruptedException isn't part of this machine; catch Exception",
    "java/util/Objects": "java/util/Objects isn't part of this machine (javac makes requireNonNull of outer.new Inner())",
}
BOXES = {f"java/lang/{name}" for name in ("Integer", "Long", "Short", "Byte", "Character", "Boolean", "Float", "Double")}


def foreign(name):
    """Says that a class isn't there."""
    return FOREIGN.get(name, f"{name} isn't part of this machine")


def said_of_types(program, descriptor, what):
    """Says what the machine doesn't know of a descriptor's types; what: fields, or arguments and results."""
    types = re.findall(r"\[*(?:L[^;]*;|[BCDFIJSVZ])", descriptor)
    if any(it[-1] in "FD" for it in types):
        yield NO_FLOATS
    if "Z" in types:
        yield f"boolean {what} aren't part of this machine; write int"
    if any(re.fullmatch(r"\[+Z", it) for it in types):
        yield NO_BOOLEAN_ARRAYS
    for name in re.findall(r"L([^;]*);", descriptor):
        if not program.has(name):
            yield foreign(name)


def said_of_constant(tag):
    """Says what the machine doesn't know of a constant that code loads."""
    if tag in (FLOAT, DOUBLE):
        return NO_FLOATS
    if tag == STRING:
        return NO_STRINGS
    return None if tag in (INTEGER, LONG) else "class literals aren't part of this machine"


def said_of_member(program, of, name, descriptor, following):
    """Says what is wrong with a reference to a field or a method, after which an instruction follows."""
    if of.startswith("["):
        return f"arrays have no method {name} here; copy the elements"
    if of == "java/lang/String" and name == "hashCode" and following == LOOKUPSWITCH:
        return "a switch on strings (javac makes String.hashCode and equals of it)"
    if of in BOXES and re.fullmatch(r"valueOf\(.\).*|\w+Value\(\).", name + descriptor):
        return f"boxing (javac makes {of}.{name} of it)"
    if descriptor == "Ljava/io/PrintStream;":
        return NO_STREAMS
    if not program.has(of):
        return foreign(of)
    if program.finds(of, name, descriptor):
        return None
    if name == "addSuppressed":
        return "try with resources (javac makes Throwable.addSuppressed of it); close in a finally"
    nearest = program.nearest_of_machine(of)
    if name == "<init>":
        return f"{nearest} has no constructor with arguments on this machine"
    return f"{nearest}.{name} isn't part of this machine"


def asks_for_assertions(own, opcode, operand):
    """Whether an instruction is the call with which a class asks whether assertions are made."""
    return opcode in OF_MEMBERS and own.member_at(operand)[:2] == ("java/lang/Class", "desiredAssertionStatus")


def said_of_instruction(program, own, opcode, operand, following):
    """Says what the machine doesn't know of an instruction, after which another follows, or nothing."""
    if opcode in FLOATING or (opcode == WIDE and operand >> 8 in FLOATING) or (opcode == NEWARRAY and operand in (6, 7)):
        return NO_FLOATS
    if opcode == NEWARRAY and operand == 4:
        return NO_BOOLEAN_ARRAYS
    if opcode == INVOKEDYNAMIC:
        return NO_LAMBDAS
    if opcode == MULTIANEWARRAY:
        return NO_GRIDS
    if asks_for_assertions(own, opcode, operand):
        return None  # told at the assertion
    if opcode in LOADS_OF_CONSTANTS:
        return None if asks_for_assertions(own, *following) else said_of_constant(own.pool[operand][0])
    if opcode in OF_MEMBERS:
        return said_of_member(program, *own.member_at(operand), following[0])
    if opcode in OF_CLASSES:
        name = own.class_at(operand)
        return next(said_of_types(program, name if name.startswith("[") else f"L{name};", "arrays"), None)
    return None


def said_of_code(program, own, method):
    """Says what the machine doesn't know of a method's code, each with the line of it."""
    steps = list(instructions(method.code))
    for (pc, *step), (_, *following) in zip(steps, [*steps[1:], (0, 0, 0)]):
        said = said_of_instruction(program, own, *step, following)
        if said:
            yield method.line_of(pc), said
    for start, caught in method.caught:
        if not program.has(caught):
            yield method.line_of(start), foreign(caught)


def said_of_method(program, own, method):
    """Says what the machine doesn't know of a method, its code left out."""
    flags = method.flags
    if own.flags & INTERFACE and not flags & ABSTRACT:
        yield INITIALIZED_INTERFACE if method.name == "<clinit>" else "a method of an interface has no body on this machine"
    if flags & NATIVE:
        yield "native methods aren't part of this machine"
    if flags & STATIC and flags & SYNCHRONIZED:
        yield "a static method can't be synchronized on this machine; lock an object in it"
    elif flags & SYNCHRONIZED and (method.name, method.descriptor) == ("run", "()V") and program.is_thread(own.name):
        yield "a thread's run() can't be synchronized on this machine; lock an object in it"
    if method.units > 4096:
        yield "a method has at most 4,096 locals and values on its stack on this machine"
    of_java = flags & STATIC and (method.name, method.descriptor) == ("main", "([Ljava/lang/String;)V")
    if not of_java and not flags & SYNTHETIC:  # of what javac adds that is told where it comes from
        yield from said_of_types(program, method.descriptor, "arguments and results")


def said_of_class(program, own):
    """Says what the machine doesn't know of a class, its fields and its methods: where, the line, and what."""
    if own.name in MACHINE:
        yield own.name, 0, "the machine has a class of this name"
    if not own.name.isascii():
        yield own.name, 0, NOT_ASCII
    for above in [own.above, *own.interfaces]:
        if not program.has(above):
            yield own.name, 0, foreign(above)
    if program.instance_fields(own.name) > 256:
        yield own.name, 0, "an object has at most 256 fields on this machine"
    for member in own.fields + own.methods:
        if not member.name.isascii():
            yield place_of(own, member), 0, NOT_ASCII
    for field in own.fields:
        if field.name != "$assertionsDisabled":  # told at the assertion
            for said in said_of_types(program, field.descriptor, "fields"):
                yield place_of(own, field), 0, said
    for method in own.methods:
        for said in said_of_method(program, own, method):
            yield place_of(own, method), method.line_of(0), said
        for line, said in said_of_code(program, own, method):
            yield place_of(own, method), line, said


def place_of(own, member):
    """Names a member as a message does."""
    if member.name == "<init>":
        return f"{own.name}, constructor"
    return f"{own.name}, static initializer" if member.name == "<clinit>" else f"{own.name}.{member.name}"


def said_of_enums(own):
    """Says of an enum, or of the class that javac makes of a switch on one, that it is; of another class nothing."""
    if own.above == "java/lang/Enum":
        return "enums aren't part of this machine; write static final int constants"
    if any(it.name.startswith("$SwitchMap$") for it in own.fields):
        return "a switch on an enum (javac makes this class of it)"
    return None


def said_of_main(program, first):
    """Says what is wrong with main's class, which comes first."""
    mains = [it for it in program.classes[first].methods if it.name == "main"]
    if not any(it.descriptor == "()V" and it.flags & STATIC for it in mains):
        yield f"{first}.main" if mains else first, 0, "a program begins in `static void main()`, without arguments"


def main_first(program, sources):
    """Gives the names of the classes, main's first: that of the first source that has a main() of its own."""
    names = sorted(program.classes)
    stems = [os.path.basename(it).removesuffix(".java") for it in sources]

    def rank(name):
        stem, begins = name.split("/")[-1], not any(said_of_main(program, name))
        return (not begins, stems.index(stem) if stem in stems else len(stems), name)

    first = min(names, key=rank)
    return [first, *(it for it in names if it != first)]


def said_of_pool(own):
    """Says what the machine doesn't know of a class's pool, where no member tells of it."""
    for tag, content in own.pool.values():
        if tag == UTF8 and not content.isascii():
            return NOT_ASCII
        if tag not in KNOWN_TAGS:
            return f"a constant of kind {tag} isn't part of this machine"
        if tag in (CLASS, NAME_AND_TYPE):
            name = own.text(int.from_bytes(content[-2:], "big"))
            is_type = tag == NAME_AND_TYPE or name.startswith("[")
            if is_type and {"F", "D", "Z"} & set(re.findall(r"L[^;]*;|.", name)):
                return "a local of it is an array of boolean, float or double, which aren't part of this machine"
    return None


def said_of(program, sources):
    """Gives all that doesn't fit: where, the line or 0, and what."""
    names = main_first(program, sources)
    said = list(said_of_main(program, names[0]))
    if len(names) > 256:
        said.append((names[0], 0, "a program has at most 256 classes on this machine"))
    for own in (program.classes[name] for name in names):
        enums = said_of_enums(own)
        if enums:
            said.append((own.name, 0, enums))
        elif not own.flags & ENUM:
            said += said_of_class(program, own)
    if not said:
        pools = [(own.name, 0, said_of_pool(own)) for own in program.classes.values()]
        said = [it for it in pools if it[-1]]
    return said


# ---- what the tool prints


def in_lines(said):
    """Gives a line of text for each member and what it uses, with the numbers of its lines."""
    places = {}
    for place, line, what in said:
        places.setdefault((place, what), set()).add(line)
    for (place, what), lines in places.items():
        known = sorted(lines - {0})
        where = f", line{'s' if len(known) > 1 else ''} {', '.join(map(str, known))}" if known else ""
        yield f"{place}{where}: {what}"


def checked(sources, javac="javac"):
    """Gives the class files for the machine by name, main's first, what javac said, and lines about what doesn't fit."""
    files, said = compiled(sources, javac)
    if not files:
        raise Refused("java_classes: the files have no class")
    program = Program(files)
    if said_of(program, sources):
        # once more, for the numbers of lines, which the class files don't keep
        with_lines = Program(compiled(sources, javac, "-g:lines")[0])
        return {}, said, list(in_lines(said_of(with_lines, sources)))
    return {name: program.classes[name].for_the_machine() for name in main_first(program, sources)}, said, []


def written(folder, files):
    """Writes class files into a folder, and gives their paths."""
    paths = [os.path.join(folder, *f"{name}.class".split("/")) for name in files]
    for path, data in zip(paths, files.values()):
        os.makedirs(os.path.dirname(path) or ".", exist_ok=True)
        with open(path, "wb") as file:
            file.write(data)
    return paths


def command_of(paths):
    """Gives the command that runs class files, as a shell takes it."""
    jvm = os.path.relpath(os.path.join(ROOT, "jvm"))
    jvm = os.path.join(ROOT, "jvm") if jvm.startswith("..") else os.path.join(".", jvm)
    return shlex.join([jvm, "run", *paths])


def main():
    """Does what the command line says, and gives the exit status."""
    head, _, rest = __doc__.partition("\n")
    about = "\n".join(rest.strip().split("\n")[2:])
    statuses = "Exit status: 0 all classes fit and are written, 1 some don't fit, 2 the command line, a file, or javac."
    words = argparse.ArgumentParser(
        description=f"{head}\n\n{about}", epilog=statuses, formatter_class=argparse.RawDescriptionHelpFormatter
    )
    words.add_argument("--javac", default="javac", metavar="PROGRAM", help="the compiler, javac where nothing is said")
    words.add_argument("out", metavar="OUT", help="the folder for the class files, which is made where it isn't there")
    words.add_argument("files", metavar="FILE.java", nargs="+", help="the sources, main's first")
    given = words.parse_args()
    if given.out.endswith(".java"):
        words.error("the folder OUT comes first")
    try:
        files, said, lines = checked(given.files, given.javac)
        paths = written(given.out, files)
    except Refused as why:
        print(why, file=sys.stderr)
        return 2
    except OSError as why:
        print(f"java_classes: {why.filename}: {why.strerror}", file=sys.stderr)
        return 2
    print(said, end="", file=sys.stderr)
    if lines:
        print(*lines, "nothing is written: docs/JAVA.md tells which Java runs", sep="\n", file=sys.stderr)
        return 1
    print(command_of(paths))
    return 0


if __name__ == "__main__":
    sys.exit(main())
