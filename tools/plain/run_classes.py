"""Class files, read plainly: for plain/machine.py. It trusts them: it refuses nothing."""
import struct

from plain.mnemonics import BARE, BRANCH, CALLS, CLASSES, FIELDS, FIRST, ON_LOCAL, PRIMITIVE

OBJECT, THREAD, SYS = "java/lang/Object", "java/lang/Thread", "vm/Sys"
# the machine's own classes, each after its superclass
ABOVE = {"Throwable": "Object", "Exception": "Throwable", "Error": "Throwable", "RuntimeException": "Exception",
         "ArithmeticException": "RuntimeException", "NullPointerException": "RuntimeException",
         "ClassCastException": "RuntimeException", "NegativeArraySizeException": "RuntimeException",
         "ArrayStoreException": "RuntimeException", "IllegalMonitorStateException": "RuntimeException",
         "IndexOutOfBoundsException": "RuntimeException", "IllegalArgumentException": "RuntimeException",
         "ArrayIndexOutOfBoundsException": "IndexOutOfBoundsException", "IllegalThreadStateException": "IllegalArgumentException",
         "VirtualMachineError": "Error", "LinkageError": "Error", "OutOfMemoryError": "VirtualMachineError",
         "StackOverflowError": "VirtualMachineError", "ExceptionInInitializerError": "LinkageError",
         "NoClassDefFoundError": "LinkageError", "Thread": "Object"}
STATIC, PRIVATE, SYNCHRONIZED, ABSTRACT, INTERFACE = 0x0008, 0x0002, 0x0020, 0x0400, 0x0200
NAMES = {code: name for table in (BARE, BRANCH, ON_LOCAL, FIELDS, CALLS, CLASSES) for name, code in table.items()}
NAMES.update({first + n: f"{name} {n}" for name, first in FIRST.items() for n in range(4)})
NAMES.update({16: "bipush", 17: "sipush", 18: "ldc", 19: "ldc_w", 20: "ldc2_w", 132: "iinc", 170: "tableswitch",
              171: "lookupswitch", 185: "invokeinterface", 188: "newarray", 200: "goto_w"})
CONSTANTS = {"aconst_null": ("A", None), "lconst_0": ("J", 0), "lconst_1": ("J", 1), "iconst_m1": ("I", -1)}
CONSTANTS.update({f"iconst_{n}": ("I", n) for n in range(6)})
ELEMENTS = {code: {"char": "C", "byte": "B", "short": "S", "int": "I", "long": "J"}[name] for name, code in PRIMITIVE.items()}
WIDE = 196


class Method:
    """A method: its code maps a pc to (name, operand, next pc), and is None where it has none."""

    def __init__(self, owner, flags, name, descriptor):
        self.owner, self.flags, self.name, self.descriptor = owner, flags, name, descriptor
        self.code, self.rows, self.stack, self.locals = None, [], 0, 0
        self.arguments, self.result = parts_of(descriptor)


class Class:
    """A class: its fields are (flags, name, descriptor, constant)."""

    def __init__(self, name, above, flags=0, interfaces=()):
        self.name, self.above, self.flags, self.interfaces = name, above, flags, list(interfaces)
        self.fields, self.methods = [], []

    def method(self, name, descriptor):
        found = [m for m in self.methods if (m.name, m.descriptor) == (name, descriptor)]
        return found[0] if found else None


def parts_of(descriptor):
    """The kinds of a method's arguments, and its result's letter: I, J, A or V."""
    kinds, rest = [], descriptor[1:]
    while rest[0] != ")":
        depth = len(rest) - len(rest.lstrip("["))
        size = depth + (rest.index(";", depth) + 1 - depth if rest[depth] == "L" else 1)
        kinds.append(kind_of(rest[:size]))
        rest = rest[size:]
    return kinds, "V" if rest[1:] == "V" else kind_of(rest[1:])


def kind_of(descriptor):
    return "A" if descriptor[0] in "L[" else "J" if descriptor == "J" else "I"


class Bytes:
    """Bytes that are read one after another."""

    def __init__(self, data):
        self.data, self.at = data, 0

    def take(self, form):
        self.at += struct.calcsize(">" + form)
        values = struct.unpack_from(">" + form, self.data, self.at - struct.calcsize(">" + form))
        return values[0] if len(values) == 1 else values

    def part(self, size):
        self.at += size
        return self.data[self.at - size:self.at]


def pool_of(data):
    """What each number of the pool stands for: a text, a number, a class's name, (name, descriptor), (class, name, descriptor)."""
    entries, number, count = {}, 1, data.take("H")
    while number < count:
        tag = data.take("B")
        form = {1: "H", 3: "i", 5: "q", 7: "H", 9: "HH", 10: "HH", 11: "HH", 12: "HH"}[tag]
        value = data.take(form)
        entries[number] = (tag, data.part(value).decode() if tag == 1 else value)
        number += 2 if tag == 5 else 1

    def meant(n):
        tag, value = entries[n]
        if tag == 7:
            return meant(value)
        if tag == 12:
            return meant(value[0]), meant(value[1])
        return (meant(value[0]), *meant(value[1])) if tag in (9, 10, 11) else value

    return {n: (entries[n][0], meant(n)) for n in entries}


def switch_of(data, start, name):
    """A switch's targets by their keys, and the default's."""
    data.part(-data.at % 4)
    default = start + data.take("i")
    if name == "tableswitch":
        low, high = data.take("ii")
        return {key: start + data.take("i") for key in range(low, high + 1)}, default
    pairs = [data.take("ii") for _ in range(data.take("i"))]
    return {key: start + way for key, way in pairs}, default


def operand_of(data, start, name, pool):
    """An instruction's name and operand, of which forms that do the same have one."""
    if name in CONSTANTS:
        return "push", CONSTANTS[name]
    if name in ("bipush", "sipush"):
        return "push", ("I", data.take("b" if name == "bipush" else "h"))
    if name in ("ldc", "ldc_w", "ldc2_w"):
        tag, value = pool[data.take("B" if name == "ldc" else "H")]
        return "push", ("J" if tag == 5 else "I", value)
    if " " in name:
        return name.split(" ")[0], int(name.split(" ")[1])
    if name in ON_LOCAL:
        return name, data.take("B")
    if name == "iinc":
        return name, data.take("Bb")
    if name in BRANCH or name == "goto_w":
        return name.removesuffix("_w"), start + data.take("i" if name == "goto_w" else "h")
    if name in ("tableswitch", "lookupswitch"):
        return "switch", switch_of(data, start, name)
    if name in CLASSES or name in FIELDS or name in CALLS:
        return name, pool[data.take("H")][1]
    if name == "invokeinterface":
        return name, pool[data.take("HBB")[0]][1]
    return name, ELEMENTS[data.take("B")] if name == "newarray" else None


def code_of(code, pool):
    data, found = Bytes(code), {}
    while data.at < len(code):
        start, opcode = data.at, data.take("B")
        if opcode == WIDE:
            name = NAMES[data.take("B")]
            found[start] = (name, data.take("Hh" if name == "iinc" else "H"), data.at)
        else:
            name, operand = operand_of(data, start, NAMES[opcode], pool)
            found[start] = (name, operand, data.at)
    return found


def attributes_of(data, pool):
    return {pool[data.take("H")][1]: data.part(data.take("I")) for _ in range(data.take("H"))}


def method_of(data, pool, owner):
    flags, name, descriptor = data.take("HHH")
    made = Method(owner, flags, pool[name][1], pool[descriptor][1])
    code = attributes_of(data, pool).get("Code")
    if code is not None:
        inner = Bytes(code)
        made.stack, made.locals, size = inner.take("HHI")
        made.code = code_of(inner.part(size), pool)
        rows = [inner.take("HHHH") for _ in range(inner.take("H"))]
        made.rows = [(*row[:3], pool[row[3]][1] if row[3] else None) for row in rows]
    return made


def field_of(data, pool):
    flags, name, descriptor = data.take("HHH")
    constant = attributes_of(data, pool).get("ConstantValue")
    value = pool[Bytes(constant).take("H")][1] if constant is not None and flags & STATIC else None
    return flags, pool[name][1], pool[descriptor][1], value


def class_of(bytes_):
    """The class of a class file."""
    data = Bytes(bytes_)
    data.part(8)
    pool = pool_of(data)
    flags, this, above = data.take("HHH")
    interfaces = [pool[data.take("H")][1] for _ in range(data.take("H"))]
    made = Class(pool[this][1], pool[above][1], flags, interfaces)
    made.fields = [field_of(data, pool) for _ in range(data.take("H"))]
    made.methods = [method_of(data, pool, made) for _ in range(data.take("H"))]
    return made


def built_in_classes():
    """The machine's own classes, by their names."""
    made = [Class(OBJECT, None), Class(SYS, OBJECT)]
    made += [Class(f"java/lang/{name}", f"java/lang/{above}") for name, above in ABOVE.items()]
    for it in made:
        names = [("<init>", "()V", 0)] if it.name != SYS else [
            ("print", "(I)V", STATIC), ("printl", "(J)V", STATIC), ("putc", "(I)V", STATIC)]
        names += [(name, "()V", 0) for name in ("run", "start", "join") if it.name == THREAD]
        it.methods = [Method(it, flags, name, descriptor) for name, descriptor, flags in names]
    return {it.name: it for it in made}
