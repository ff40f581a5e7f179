"""Values, objects, and how a turn ends otherwise than by going on.

A value is ("I", n), ("J", n) or ("A", birth or None). A local may also be None, where it isn't set, or "^", the upper half of a
long.
"""
from plain.run_classes import kind_of

OUT_OF_MEMORY, STACK_OVERFLOW = 1, 2
ZERO = {"I": ("I", 0), "J": ("J", 0), "A": ("A", None)}
# what an effect answers that has moved the frames itself
STAY = object()


class Fault(Exception):
    """A fault, by its number."""


class Thrown(Exception):
    """The birth that an instruction throws."""


class Object:
    """An object of a class, with its fields, or an array of elements of a type."""

    def __init__(self, type_, fields=None, elements=None):
        self.type, self.fields, self.elements = type_, fields, elements
        self.owner, self.count, self.started = None, 0, False

    def words(self):
        return self.elements if self.fields is None else list(self.fields.values())


def array_of(element, length):
    return Object(f"[{element}", elements=[ZERO[kind_of(element)]] * length)


def wrapped(number, bits):
    return (number + 2 ** (bits - 1)) % 2**bits - 2 ** (bits - 1)


def narrowed(descriptor, value):
    """What a field or an element of a type keeps of a value."""
    if descriptor == "C":
        return "I", value[1] % 65_536
    return ("I", wrapped(value[1], {"B": 8, "S": 16}[descriptor])) if descriptor in ("B", "S") else value


def size_of(value):
    return 2 if value[0] == "J" else 1


def birth_in(entry):
    """The birth to which a value refers, if it does."""
    return entry[1] if entry and entry[0] == "A" else None


def named(descriptor):
    """The class or array type of a descriptor."""
    return descriptor[1:-1] if descriptor[0] == "L" else descriptor
