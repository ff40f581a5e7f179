"""The class file of a text's class, byte by byte.

The pool holds no entry twice. The ints of `ldc` come first, so that their numbers have one byte as long as there is room; all
else follows in the order of its first use. What an entry names stands before it.
"""
import struct

from .opcodes import FORM_OF, MOST_BYTES, OPCODES, WIDE
from .refusals import Refused

MOST = 65_535
GREATEST_INT = (1 << 31) - 1


def packed(form, *numbers):
    return struct.pack(">" + form, *numbers)


def u2(number):
    """Two bytes. A number that passes them is cut: a class file with such a one is refused in the end (A3)."""
    return packed("H", number & MOST)


class Pool:
    """A constant pool that is being made."""

    def __init__(self):
        self.numbers, self.count, self.entries = {}, 1, []

    def add(self, entry):
        if entry not in self.numbers:
            self.numbers[entry] = self.count
            self.entries.append(entry)
            self.count += 2 if entry[0] == 5 else 1
        return self.numbers[entry]

    def text(self, text):
        return self.add(packed("BH", 1, len(text)) + text.encode("ascii"))

    def int(self, number):
        return self.add(packed("Bi", 3, number))

    def long(self, number):
        return self.add(packed("Bq", 5, number))

    def type(self, name):
        return self.add(b"\x07" + u2(self.text(name)))

    def member(self, tag, member):
        owner = self.type(member.owner)
        name, descriptor = self.text(member.name), self.text(member.descriptor)
        return self.add(packed("B", tag) + u2(owner) + u2(self.add(b"\x0c" + u2(name) + u2(descriptor))))


def switch(pc, it, way):
    """A switch's bytes after its pads."""
    if it.name == "tableswitch":
        low, ways, default = it.operands
        return way(default) + packed("ii", low, low + len(ways) - 1) + b"".join(way(it) for it in ways)
    found, default = it.operands
    return way(default) + packed("i", len(found)) + b"".join(packed("i", key) + way(label) for key, label in found)


def on_local(it):
    """The bytes of an instruction on a local, wide where it says so or its numbers ask for it."""
    opcode, (local, *constant) = OPCODES[it.name], it.operands
    if it.wide or local > 255 or constant and not -128 <= constant[0] <= 127:
        return packed("BBH", WIDE, opcode, local) + b"".join(packed("h", it) for it in constant)
    return packed("BB", opcode, local) + b"".join(packed("b", it) for it in constant)


def instruction(pool, pc, it, pc_of):
    """The bytes of an instruction at a pc; `pc_of` says where a label leads."""
    form, opcode = FORM_OF[it.name], packed("B", OPCODES[it.name])
    if form in ("local", "increment"):
        return on_local(it)
    if form in ("table", "pairs"):
        return opcode + bytes(-(pc + 1) % 4) + switch(pc, it, lambda label: packed("i", pc_of(label) - pc))
    if form in ("branch", "far"):
        return opcode + packed("h" if form == "branch" else "i", pc_of(it.operands[0]) - pc)
    return opcode + operand(pool, form, it.operands)


def operand(pool, form, operands):
    """The bytes of an operand that is neither a local nor a way."""
    if form == "":
        return b""
    first = operands[0]
    if form in ("byte", "short"):
        return packed("b" if form == "byte" else "h", first)
    if form == "primitive":
        return packed("B", first)
    if form == "int_w":
        return u2(pool.int(first))
    if form == "long":
        return u2(pool.long(first))
    if form in ("field", "method"):
        return u2(pool.member(9 if form == "field" else 10, first))
    if form == "interface":
        return u2(pool.member(11, first)) + packed("BB", operands[1], 0)
    return u2(pool.type(first))


def bytes_of(pool, pc, it, pc_of):
    """The bytes of any instruction. `ldc` is `ldc_w` where its int's number has two bytes."""
    if it.name == "ldc":
        number = pool.int(it.operands[0])
        return packed("BB", OPCODES["ldc"], number) if number < 256 else packed("B", OPCODES["ldc_w"]) + u2(number)
    return instruction(pool, pc, it, pc_of)


def size(pool, pc, it):
    """How many bytes an instruction has; only those of `ldc` need the pool, which holds its int already."""
    return len(bytes_of(pool if it.name == "ldc" else Pool(), pc, it, lambda label: pc))


def keys_rise(it):
    """Whether the keys of an instruction, if it is a switch, rise, and none passes the greatest int."""
    if it.name == "tableswitch":
        return it.operands[0] + len(it.operands[1]) - 1 <= GREATEST_INT
    keys = [key for key, _ in it.operands[0]] if it.name == "lookupswitch" else []
    return all(one < other for one, other in zip(keys, keys[1:]))


def places(pool, method):
    """The pc of each instruction of a method, and of its end. Refused by what is wrong with its code."""
    code, where = method.code, f"in method {method.full_name()}"
    if not all(keys_rise(it) for it in code.instructions):
        raise Refused("A4", where)
    pcs = [0]
    for it in code.instructions:
        pcs.append(pcs[-1] + size(pool, pcs[-1], it))
    if not 0 < pcs[-1] <= MOST_BYTES:
        raise Refused("A1", where)
    for pc, it in zip(pcs, code.instructions):
        if FORM_OF[it.name] == "branch" and not -32_768 <= pcs[code.labels[it.operands[0]]] - pc <= 32_767:
            raise Refused("A2", where)
    return pcs


def code_of(pool, method, pcs):
    """The bytes of a method's `Code`, after its length."""
    code = method.code
    pc_of = lambda label: pcs[code.labels[label]]
    made = b"".join(bytes_of(pool, pc, it, pc_of) for pc, it in zip(pcs, code.instructions))
    rows = []
    for row in code.rows:
        caught = pool.type(row.caught) if row.caught else 0
        rows.append(b"".join(u2(pc_of(label)) for label in row[:3]) + u2(caught))
    return packed("HHI", code.stack, code.locals, len(made)) + made + u2(len(rows)) + b"".join(rows) + u2(0)


def field(pool, it):
    head = u2(it.flags) + u2(pool.text(it.name)) + u2(pool.text(it.descriptor))
    if it.value is None:
        return head + u2(0)
    name = pool.text("ConstantValue")
    value = pool.long(it.value) if it.descriptor == "J" else pool.int(it.value)
    return head + u2(1) + u2(name) + packed("I", 2) + u2(value)


def method(pool, it, pcs):
    head = u2(it.flags) + u2(pool.text(it.name)) + u2(pool.text(it.descriptor))
    if it.code is None:
        return head + u2(0)
    name = pool.text("Code")
    code = code_of(pool, it, pcs)
    return head + u2(1) + u2(name) + packed("I", len(code)) + code


def counted(parts):
    return u2(len(parts)) + b"".join(parts)


def assemble(made):
    """The class file of a text's class."""
    pool = Pool()
    for it in (it for method in made.methods if method.code for it in method.code.instructions if it.name == "ldc"):
        pool.int(it.operands[0])
    pcs = [places(pool, it) if it.code else None for it in made.methods]
    head = u2(made.flags) + u2(pool.type(made.name)) + u2(pool.type(made.superclass))
    interfaces = [u2(pool.type(name)) for name in made.interfaces]
    fields = [field(pool, it) for it in made.fields]
    methods = [method(pool, it, at) for it, at in zip(made.methods, pcs)]
    rows = [len(it.code.rows) for it in made.methods if it.code]
    if max(pool.count, len(interfaces), len(fields), len(methods), *rows) > MOST:
        raise Refused("A3")
    body = head + counted(interfaces) + counted(fields) + counted(methods) + u2(0)
    return bytes.fromhex("cafebabe00000031") + u2(pool.count) + b"".join(pool.entries) + body
