"""Class files of version 49.0 (JVMS 4), read from the first byte to the last: the first fault in their order is told.

The one thing out of order is the pool: it is read whole, then its references are tested by rising number, and then the rest is
read. A number is tested as soon as it is read. In a `Code` attribute what would pass the attribute's own end is C8, anywhere else
what would pass the file's end is C3.
"""
import struct

from . import classes, names
from .classes import Class, Code, Field, Member, Method, Row
from .opcodes import FORM_OF, decoded_of
from .refusals import Refused

UTF8, INTEGER, LONG, CLASS, FIELD, METHOD, INTERFACE_METHOD, PAIR = 1, 3, 5, 7, 9, 10, 11, 12
# the tag that the operand of an instruction wants
OPERANDS = {
    "int": INTEGER,
    "int_w": INTEGER,
    "long": LONG,
    "field": FIELD,
    "method": METHOD,
    "interface": INTERFACE_METHOD,
    "new": CLASS,
    "type": CLASS,
}


def want(holds, code):
    """The class file is refused where something doesn't hold."""
    if not holds:
        raise Refused(code)


class Bytes:
    """The bytes of a class file, taken one number after another."""

    def __init__(self, whole):
        self.whole, self.place, self.end, self.past = whole, 0, len(whole), "C3"

    def take(self, length):
        want(self.place + length <= self.end, self.past)
        self.place += length
        return self.whole[self.place - length : self.place]

    def number(self, form):
        return struct.unpack(">" + form, self.take(struct.calcsize(form)))[0]

    def u2(self):
        return self.number("H")

    def u4(self):
        return self.number("I")

    def times(self, read):
        """What is read so many times as the next number says."""
        return [read() for _ in range(self.u2())]


class Pool:
    """The entries of a constant pool by their numbers, each a tag and what stands after it."""

    def __init__(self, left):
        self.entries = {}
        self.count = left.u2()
        want(self.count, "C6")
        number = 1
        while number < self.count:
            tag, found = self.entry(left, number)
            self.entries[number] = tag, found
            number += 2 if tag == LONG else 1
        for number, (tag, found) in self.entries.items():
            self.test(tag, found)

    def entry(self, left, number):
        tag = left.number("B")
        if tag == UTF8:
            found = left.take(left.u2())
            want(all(0 < byte < 0x80 for byte in found), "C7")
            return tag, found.decode("ascii")
        if tag == INTEGER:
            return tag, left.number("i")
        if tag == LONG:
            want(number + 1 < self.count, "C6")
            return tag, left.number("q")
        if tag == CLASS:
            return tag, left.u2()
        want(tag in (FIELD, METHOD, INTERFACE_METHOD, PAIR), "C5")
        return tag, (left.u2(), left.u2())

    def has(self, number, tag):
        return self.entries.get(number, (None,))[0] == tag

    def get(self, number, tag):
        """The content of an entry, which has to be of a kind."""
        want(self.has(number, tag), "C6")
        return self.entries[number][1]

    def test(self, tag, found):
        """An entry that names others: they are there, and their texts are names and descriptors."""
        if tag == CLASS:
            text = self.get(found, UTF8)
            want(names.is_class(text) or names.is_array(text), "C7")
        elif tag == PAIR:
            name, descriptor = (self.get(number, UTF8) for number in found)
            want(names.is_field(name, descriptor) or names.is_method(name, descriptor, 0), "C7")
        elif tag in (FIELD, METHOD, INTERFACE_METHOD):
            self.get(found[0], CLASS)
            pair = self.get(found[1], PAIR)
            # a pair that names no texts is refused at its own number
            if all(self.has(number, UTF8) for number in pair):
                name, descriptor = (self.entries[number][1] for number in pair)
                want(names.is_field(name, descriptor) if tag == FIELD else names.is_method(name, descriptor, 0), "C7")

    def type(self, number):
        """The name of a class, or the descriptor of an array."""
        return self.get(self.get(number, CLASS), UTF8)

    def class_name(self, number):
        """The name of a class that is no array."""
        name = self.type(number)
        want(not name.startswith("["), "C6")
        return name

    def member(self, tag, number):
        owner, pair = self.get(number, tag)
        return Member(self.type(owner), *(self.get(it, UTF8) for it in self.get(pair, PAIR)))

    def meaning(self, it):
        """An instruction with what its operand names in place of the number."""
        form = FORM_OF[it.name]
        if form not in OPERANDS:
            return it
        number, *count = it.operands
        if form in ("int", "int_w", "long"):
            named = self.get(number, OPERANDS[form])
        elif form == "new":
            named = self.class_name(number)
        elif form == "type":
            named = self.type(number)
        else:
            named = self.member(OPERANDS[form], number)
        return it._replace(operands=(named, *count))


class Reader:
    """A class file behind its pool."""

    def __init__(self, left):
        self.left, self.pool, self.of_interface = left, Pool(left), False

    def flags(self, agree, *more):
        found = self.left.u2()
        want(agree(found, *more), "C11")
        return found

    def whole(self):
        left = self.left
        flags = self.flags(classes.class_flags_agree)
        self.of_interface = flags & classes.INTERFACE != 0
        made = Class(flags, self.class_name(), self.class_name())
        made.interfaces = left.times(self.class_name)
        made.fields = left.times(self.field)
        made.methods = left.times(self.method)
        left.times(self.skip)
        want(left.place == left.end, "C4")
        return made

    def class_name(self):
        return self.pool.class_name(self.left.u2())

    def text(self):
        return self.pool.get(self.left.u2(), UTF8)

    def length(self):
        """The length of an attribute, which ends where the file, or the `Code` around it, ends or before."""
        found = self.left.u4()
        want(self.left.place + found <= self.left.end, self.left.past)
        return found

    def skip(self, name=None):
        """An attribute that nobody looks at."""
        if name is None:
            self.text()
        self.left.take(self.length())

    def field(self):
        flags = self.flags(classes.field_flags_agree, self.of_interface)
        name = self.text()
        want(names.is_member(name), "C7")
        made = Field(flags, name, self.text())
        want(names.is_field(name, made.descriptor), "C7")
        self.left.times(lambda: self.field_attribute(made))
        return made

    def field_attribute(self, made):
        name = self.text()
        if name != "ConstantValue" or not made.flags & classes.STATIC:
            self.skip(name)
            return
        want(made.value is None, "C8")
        want(self.length() == 2, "C8")
        number = self.left.u2()
        want(len(made.descriptor) == 1, "C6")
        made.value = self.pool.get(number, LONG if made.descriptor == "J" else INTEGER)

    def method(self):
        flags = self.flags(classes.method_flags_agree, self.of_interface)
        name = self.text()
        want(names.is_method_name(name), "C7")
        made = Method(flags, name, self.text())
        want(names.is_method(name, made.descriptor, not flags & classes.STATIC), "C7")
        self.left.times(lambda: self.method_attribute(made))
        want(made.code or made.has(classes.ABSTRACT | classes.NATIVE), "C8")
        return made

    def method_attribute(self, made):
        name = self.text()
        if name != "Code":
            self.skip(name)
            return
        want(not made.code and not made.has(classes.ABSTRACT | classes.NATIVE), "C8")
        left, length = self.left, self.length()
        outer = left.end, left.past
        left.end, left.past = left.place + length, "C8"
        made.code = self.code(made)
        want(left.place == left.end, "C8")
        left.end, left.past = outer

    def code(self, made):
        left = self.left
        code = Code(left.u2(), left.u2())
        bytes_of_code = left.take(left.u4())
        code.length = len(bytes_of_code)
        code.pcs, found = decoded_of(made.full_name(), bytes_of_code)
        code.instructions = [self.pool.meaning(it) for it in found]
        code.rows = left.times(self.row)
        left.times(self.skip)
        return code

    def row(self):
        start, end, handler, number = (self.left.u2() for _ in range(4))
        return Row(start, end, handler, self.pool.type(number) if number else None)


def read(whole):
    """The class of a class file."""
    left = Bytes(whole)
    want(left.take(4) == b"\xca\xfe\xba\xbe", "C1")
    want(left.u2() == 0, "C2")
    want(left.u2() == 49, "C2")
    return Reader(left).whole()
