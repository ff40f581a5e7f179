"""A class as plain data, whether a text or a class file says it, and the flags that go together (JVMS 4.1, 4.5, 4.6)."""
from dataclasses import dataclass, field
from typing import Any, NamedTuple

PUBLIC, PRIVATE, PROTECTED, STATIC, FINAL = 0x01, 0x02, 0x04, 0x08, 0x10
SUPER = SYNCHRONIZED = 0x20
VOLATILE, TRANSIENT, NATIVE, INTERFACE, ABSTRACT = 0x40, 0x80, 0x100, 0x200, 0x400
CLASS_FLAGS = {"public": PUBLIC, "final": FINAL, "abstract": ABSTRACT}
MEMBER_FLAGS = {"public": PUBLIC, "private": PRIVATE, "protected": PROTECTED, "static": STATIC, "final": FINAL}
FIELD_FLAGS = MEMBER_FLAGS | {"volatile": VOLATILE, "transient": TRANSIENT}
METHOD_FLAGS = MEMBER_FLAGS | {"synchronized": SYNCHRONIZED, "native": NATIVE, "abstract": ABSTRACT}


class Instruction(NamedTuple):
    """An instruction: its mnemonic, whether `wide` stands before it, and its operands."""

    name: str
    operands: tuple = ()
    wide: bool = False


class Member(NamedTuple):
    """A field or a method that an instruction names."""

    owner: str
    name: str
    descriptor: str


class Row(NamedTuple):
    """A row of an exception table; bounds and handler are labels in a text, and pcs in a class file."""

    start: Any
    end: Any
    handler: Any
    caught: str | None


@dataclass
class Code:
    """A method's code. In a text `labels` has the place of each label among the instructions; in a class file `pcs` has the pc of
    each instruction, and `length` tells how many bytes the code has."""

    stack: int | None = None
    locals: int | None = None
    instructions: list = field(default_factory=list)
    rows: list = field(default_factory=list)
    labels: dict = field(default_factory=dict)
    pcs: list = field(default_factory=list)
    length: int = 0


@dataclass
class Field:
    flags: int
    name: str
    descriptor: str
    value: int | None = None


@dataclass
class Method:
    flags: int
    name: str
    descriptor: str
    code: Code | None = None

    def has(self, flag):
        return self.flags & flag != 0

    def full_name(self):
        return f"{self.name}{self.descriptor}"


@dataclass
class Class:
    flags: int
    name: str
    superclass: str = ""
    interfaces: list = field(default_factory=list)
    fields: list = field(default_factory=list)
    methods: list = field(default_factory=list)

    def has(self, flag):
        return self.flags & flag != 0


def all_of(flags):
    """The bits of all flags of a table."""
    return sum(flags.values())


def class_flags_agree(flags):
    known = flags & ~(all_of(CLASS_FLAGS) | SUPER | INTERFACE) == 0
    abstract = flags & ABSTRACT != 0
    return known and not (flags & INTERFACE and not abstract) and not (flags & FINAL and abstract)


def field_flags_agree(flags, of_interface):
    wanted = PUBLIC | STATIC | FINAL if of_interface else 0
    return flags & ~all_of(FIELD_FLAGS) == 0 and flags & wanted == wanted


def method_flags_agree(flags, of_interface):
    wanted = PUBLIC | ABSTRACT if of_interface else 0
    never = PRIVATE | STATIC | FINAL | SYNCHRONIZED | NATIVE if flags & ABSTRACT else 0
    return flags & ~all_of(METHOD_FLAGS) == 0 and flags & wanted == wanted and flags & never == 0
