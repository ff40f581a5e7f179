"""Instructions and their bytes (JVMS 6.5): the table of both, and how the bytes of code are read.

A form says what stands after an opcode:

byte, short        a number of one or two bytes
int, int_w, long   a pool entry, in one byte or two
local, increment   a local in one byte, for iinc with a constant; after `wide` each takes two bytes
branch, far        a way to another instruction, of two or four bytes
table, pairs       the two switches
field, method, interface, new, type    a pool entry in two bytes
primitive          the code of a type of elements
"""
import struct

from .classes import Instruction
from .refusals import Refused

FORMS = {
    "": {
        0: "nop aconst_null iconst_m1 iconst_0 iconst_1 iconst_2 iconst_3 iconst_4 iconst_5 lconst_0 lconst_1",
        26: "iload_0 iload_1 iload_2 iload_3 lload_0 lload_1 lload_2 lload_3",
        42: "aload_0 aload_1 aload_2 aload_3 iaload laload",
        50: "aaload baload caload saload",
        59: "istore_0 istore_1 istore_2 istore_3 lstore_0 lstore_1 lstore_2 lstore_3",
        75: "astore_0 astore_1 astore_2 astore_3 iastore lastore",
        83: "aastore bastore castore sastore pop pop2 dup dup_x1 dup_x2 dup2 dup2_x1 dup2_x2 swap iadd ladd",
        100: "isub lsub",
        104: "imul lmul",
        108: "idiv ldiv",
        112: "irem lrem",
        116: "ineg lneg",
        120: "ishl lshl ishr lshr iushr lushr iand land ior lor ixor lxor",
        133: "i2l",
        136: "l2i",
        145: "i2b i2c i2s lcmp",
        172: "ireturn lreturn",
        176: "areturn return",
        190: "arraylength athrow",
        194: "monitorenter monitorexit",
    },
    "byte": {16: "bipush"},
    "short": {17: "sipush"},
    "int": {18: "ldc"},
    "int_w": {19: "ldc_w"},
    "long": {20: "ldc2_w"},
    "local": {21: "iload lload", 25: "aload", 54: "istore lstore", 58: "astore"},
    "increment": {132: "iinc"},
    "branch": {
        153: "ifeq ifne iflt ifge ifgt ifle if_icmpeq if_icmpne if_icmplt if_icmpge if_icmpgt if_icmple if_acmpeq if_acmpne goto",
        198: "ifnull ifnonnull",
    },
    "far": {200: "goto_w"},
    "table": {170: "tableswitch"},
    "pairs": {171: "lookupswitch"},
    "field": {178: "getstatic putstatic getfield putfield"},
    "method": {182: "invokevirtual invokespecial invokestatic"},
    "interface": {185: "invokeinterface"},
    "new": {187: "new"},
    "primitive": {188: "newarray"},
    "type": {189: "anewarray", 192: "checkcast instanceof"},
}
WIDE = 196
WIDENED = ("local", "increment")
PRIMITIVES = {"char": 5, "byte": 8, "short": 9, "int": 10, "long": 11}
MOST_BYTES = 65_535

ROWS = [(name, first + n, form) for form, parts in FORMS.items() for first, names in parts.items() for n, name in enumerate(names.split())]
OPCODES = {name: opcode for name, opcode, _ in ROWS}
FORM_OF = {name: form for name, _, form in ROWS}
NAMES = {opcode: name for name, opcode, _ in ROWS}


class CodeFault(Exception):
    """Code is refused, by the number of its code: 1 to 5."""

    def __init__(self, number):
        super().__init__(number)
        self.number = number


class Bytes:
    """The bytes of code, taken one number after another."""

    def __init__(self, code):
        self.code, self.place = code, 0

    def number(self, form):
        """The next number, of a form of the module struct."""
        size = struct.calcsize(form)
        if self.place + size > len(self.code):
            self.place = len(self.code)
            raise CodeFault(2)
        (found,) = struct.unpack_from(form, self.code, self.place)
        self.place += size
        return found

    def u1(self):
        return self.number(">B")

    def u2(self):
        return self.number(">H")

    def s2(self):
        return self.number(">h")

    def s4(self):
        return self.number(">i")

    def pads(self):
        """The pads of a switch, up to a multiple of four."""
        while self.place % 4:
            if self.u1():
                raise CodeFault(4)


def table(code, pc):
    """The operands of a tableswitch: its least key, its ways and its default."""
    default, low, high = pc + code.s4(), code.s4(), code.s4()
    if low > high:
        raise CodeFault(4)
    return low, tuple(pc + code.s4() for _ in range(high - low + 1)), default


def pairs(code, pc):
    """Those of a lookupswitch: its pairs of key and way, and its default."""
    default, count, found = pc + code.s4(), code.s4(), []
    if count < 0:
        raise CodeFault(4)
    for _ in range(count):
        key = code.s4()
        if found and key <= found[-1][0]:
            raise CodeFault(4)
        found.append((key, pc + code.s4()))
    return tuple(found), default


def operands(code, pc, form):
    """The operands of a form, pool entries by their numbers and ways as the pcs to which they lead."""
    if form == "":
        return ()
    if form == "byte":
        return (code.number(">b"),)
    if form == "short":
        return (code.s2(),)
    if form in ("int", "local"):
        return (code.u1(),)
    if form == "increment":
        return code.u1(), code.number(">b")
    if form == "branch":
        return (pc + code.s2(),)
    if form == "far":
        return (pc + code.s4(),)
    if form in ("table", "pairs"):
        code.pads()
        return table(code, pc) if form == "table" else pairs(code, pc)
    if form == "primitive":
        kind = code.u1()
        if kind not in PRIMITIVES.values():
            raise CodeFault(1)
        return (kind,)
    number = code.u2()
    if form != "interface":
        return (number,)
    count = code.u1()
    if code.u1():
        raise CodeFault(1)
    return number, count


def instruction(code, pc):
    """The next instruction of some bytes."""
    opcode = code.u1()
    if opcode == WIDE:
        name = NAMES.get(code.u1())
        if FORM_OF.get(name) not in WIDENED:
            raise CodeFault(1)
        return Instruction(name, (code.u2(),) if name != "iinc" else (code.u2(), code.s2()), True)
    if opcode not in NAMES:
        raise CodeFault(1)
    name = NAMES[opcode]
    return Instruction(name, operands(code, pc, FORM_OF[name]))


def ways(it):
    """The pcs, or in a text the labels, to which an instruction may lead other than the next one."""
    form = FORM_OF[it.name]
    if form in ("branch", "far"):
        return it.operands
    if form == "table":
        return (*it.operands[1], it.operands[2])
    if form == "pairs":
        return (*(way for _, way in it.operands[0]), it.operands[1])
    return ()


def decoded(code):
    """The pcs and instructions of some code; CodeFault where it has none."""
    if not 0 < len(code) <= MOST_BYTES:
        raise CodeFault(5)
    left, pcs, found = Bytes(code), [], []
    while left.place < len(code):
        pcs.append(left.place)
        found.append(instruction(left, left.place))
    places = set(pcs)
    if not all(way in places for it in found for way in ways(it)):
        raise CodeFault(3)
    return pcs, found


def decoded_of(method, code):
    """The same of a method's code, refused with the method's name."""
    try:
        return decoded(code)
    except CodeFault as fault:
        raise Refused(f"O{fault.number}", f"in method {method}") from None
