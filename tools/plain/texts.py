"""Texts in Jasmin's syntax, read line by line.

A text is refused by its least faulty line. A line with a byte that may not stand in a text is J8, any other line has the lowest
number of what is wrong with it. So the reader goes on past a faulty line, notes what is wrong with each, and takes the least.
"""
import re

from . import classes, names
from .classes import Class, Code, Field, Instruction, Member, Method, Row
from .opcodes import FORM_OF, PRIMITIVES, WIDENED
from .refusals import Refused

BAD_BYTE = re.compile(r"[^\t\x20-\x7e]")
COMMENT = re.compile(r"(?:^|(?<=[ \t]));.*", re.S)
OBJECT = "java/lang/Object"
# statements of a class, each with the places at which it may stand, and the place after it
ORDER = {
    ".class": ((0,), 1),
    ".interface": ((0,), 1),
    ".super": ((1,), 2),
    ".implements": ((2,), 2),
    ".field": ((2, 3), 3),
    ".method": ((2, 3, 4), 4),
}
# what a number of each form may be
BYTE, SHORT, INT, LONG = ((-(1 << bits), (1 << bits) - 1) for bits in (7, 15, 31, 63))
UNSIGNED = (0, 65_535)
RANGES = {"byte": BYTE, "short": SHORT, "int": INT, "int_w": INT, "long": LONG, "local": UNSIGNED}


class Fault(Exception):
    """A line is faulty, by the number of its code: 1 to 8."""

    def __init__(self, number):
        super().__init__(number)
        self.number = number


def want(holds, number=3):
    """The line is faulty where something doesn't hold."""
    if not holds:
        raise Fault(number)


def lines_of(text):
    """The lines of a text, without the newlines and the carriage returns before them."""
    *whole, rest = text.decode("latin-1").split("\n")
    return [line.removesuffix("\r") for line in whole] + ([rest] if rest else [])


def words_of(line):
    """The words of a line before its comment."""
    return re.findall(r"[^ \t]+", COMMENT.sub("", line))


def is_label_line(words):
    return len(words) == 1 and words[0].endswith(":") and names.is_label(words[0][:-1])


def flags_of(words, known):
    """The bits of some flags, none of which stands twice."""
    want(all(word in known for word in words) and len(set(words)) == len(words))
    return sum(known[word] for word in words)


def member_of(path, descriptor, is_good):
    """A member of a class, from `class/name` and its descriptor."""
    owner, slash, name = path.rpartition("/")
    want(slash and names.is_class(owner) and is_good(name, descriptor))
    return Member(owner, name, descriptor)


def method_of(word):
    """A method of a class, from `class/name(ARGS)RESULT`."""
    path, bracket, rest = word.partition("(")
    return member_of(path, bracket + rest, lambda name, descriptor: names.is_method(name, descriptor, 0))


class Body:
    """The lines of a method that were read: its code, the labels that it uses, and a switch that isn't finished."""

    def __init__(self, method):
        self.method, self.code = method, Code()
        self.count, self.uses, self.switch = 0, [], None

    def label_faults(self):
        """The lines with labels that aren't there, or at the code's end where they may not be."""
        for line, label, may_end in self.uses:
            if label not in self.code.labels:
                yield line, 5
            elif self.code.labels[label] == self.count and not may_end:
                yield line, 3


class Reader:
    """What was read of a text, and what was wrong with it."""

    def __init__(self):
        self.line, self.faults, self.ranges = 0, [], []
        self.place, self.made, self.body = 0, Class(0, ""), None

    def note(self, line, number):
        """A fault; the least of them is told, on one line J8 before all others."""
        self.faults.append((line, number != 8, number))

    def take(self, line):
        """A line, whatever stands in it."""
        words = words_of(line)
        number = 8 if BAD_BYTE.search(line) else 0
        try:
            self.statement(words)
        except Fault as fault:
            number = number or fault.number
        if number:
            self.note(self.line, number)
            self.go_on(words)

    def go_on(self, words):
        """A faulty line ends a switch; and one that is neither directive nor label counts as an instruction."""
        if self.body:
            self.body.switch = None
            self.body.count += not is_label_line(words) and not "".join(words[:1]).startswith(".")

    def statement(self, words):
        self.ranges = []
        if words:
            (self.in_method if self.body else self.in_class)(words)
            want(all(self.ranges), 4)

    def finish(self):
        """The end of the text."""
        if self.body:
            self.note(self.line + 1, 6)
            self.leave()
        elif self.place < 2:
            self.note(self.line + 1, 1)

    def number(self, word, bounds):
        """A number; that it is out of its range is told after all else."""
        want(names.is_number(word))
        number = int(word) if len(word) < 30 else 1 << 99
        self.ranges.append(bounds[0] <= number <= bounds[1])
        return number

    def use(self, label, may_end=False):
        want(names.is_label(label))
        self.body.uses.append((self.line, label, may_end))
        return label

    # statements of a class

    def in_class(self, words):
        places, after = ORDER.get(words[0], ((), 0))
        want(self.place in places, 1)
        self.place = after
        getattr(self, {".class": "kind", ".interface": "kind"}.get(words[0], words[0][1:]))(words)

    def kind(self, words):
        """`.class` or `.interface`."""
        want(len(words) > 1 and names.is_class(words[-1]))
        is_class = words[0] == ".class"
        flags = flags_of(words[1:-1], classes.CLASS_FLAGS if is_class else {"public": classes.PUBLIC})
        flags |= classes.SUPER if is_class else classes.INTERFACE | classes.ABSTRACT
        want(classes.class_flags_agree(flags))
        self.made = Class(flags, words[-1])

    def super(self, words):
        want(len(words) == 2 and names.is_class(words[1]))
        want(not self.made.has(classes.INTERFACE) or words[1] == OBJECT)
        self.made.superclass = words[1]

    def implements(self, words):
        want(len(words) == 2 and names.is_class(words[1]))
        self.made.interfaces.append(words[1])

    def field(self, words):
        value = None
        if len(words) > 2 and words[-2] == "=":
            *words, _, value = words
        want(len(words) > 2)
        *flags, name, descriptor = words[1:]
        flags = flags_of(flags, classes.FIELD_FLAGS)
        want(names.is_field(name, descriptor) and classes.field_flags_agree(flags, self.made.has(classes.INTERFACE)))
        if value is not None:
            want(flags & classes.STATIC and len(descriptor) == 1)
            value = self.number(value, LONG if descriptor == "J" else INT)
        self.made.fields.append(Field(flags, name, descriptor, value))

    def method(self, words):
        """`.method`, whose lines follow even where it is faulty."""
        self.body = Body(Method(0, "", ""))
        want(len(words) > 1)
        flags = flags_of(words[1:-1], classes.METHOD_FLAGS)
        name, bracket, rest = words[-1].partition("(")
        want(classes.method_flags_agree(flags, self.made.has(classes.INTERFACE)))
        want(names.is_method(name, bracket + rest, not flags & classes.STATIC))
        self.body.method = Method(flags, name, bracket + rest)
        if not flags & (classes.ABSTRACT | classes.NATIVE):
            self.body.method.code = self.body.code
        self.made.methods.append(self.body.method)

    # lines of a method

    def leave(self):
        """The method's end: now its labels are known."""
        for line, number in self.body.label_faults():
            self.note(line, number)
        self.body = None

    def in_method(self, words):
        body, first = self.body, words[0]
        if first == ".end":
            self.end(words)
        elif first == ".method":
            in_switch = body.switch
            self.leave()
            self.method(words)
            raise Fault(3 if in_switch else 6)
        elif is_label_line(words):
            self.label(words[0][:-1])
        elif first.startswith("."):
            want(first in (".limit", ".catch") and body.method.code, 1)
            getattr(self, first[1:])(words)
        else:
            self.instruction(words)

    def end(self, words):
        """`.end method`."""
        want(words == [".end", "method"])
        body = self.body
        self.leave()
        want(not body.switch)
        if body.method.code:
            want(body.code.stack is not None and body.code.locals is not None, 7)

    def label(self, label):
        """A label's line. In a switch that isn't finished it is faulty, and gives the label all the same."""
        labels = self.body.code.labels
        is_first = label not in labels
        labels.setdefault(label, self.body.count)
        want(self.body.method.code, 1)
        want(not self.body.switch)
        want(is_first, 5)

    def limit(self, words):
        kind = words[1] if len(words) > 1 else None
        if kind in ("stack", "locals"):
            want(getattr(self.body.code, kind) is None, 1)
        want(not self.body.switch and kind in ("stack", "locals") and len(words) == 3)
        setattr(self.body.code, kind, self.number(words[2], UNSIGNED))

    def catch(self, words):
        want(not self.body.switch and len(words) == 8 and words[2::2] == ["from", "to", "using"])
        caught, start, end, handler = words[1::2]
        want(names.is_class(caught) and all(names.is_label(it) for it in (start, end, handler)))
        row = Row(self.use(start, True), self.use(end, True), self.use(handler), None if caught == "all" else caught)
        self.body.code.rows.append(row)

    def instruction(self, words):
        """An instruction, or a line of a switch that isn't finished."""
        if self.body.switch:
            self.body.switch(words)
            return
        self.body.count += 1
        want(self.body.method.code, 1)
        is_wide = words[0] == "wide"
        want(not is_wide or len(words) > 1)
        name, *rest = words[is_wide:]
        want(not is_label_line(words[:1]))
        want(name in FORM_OF, 2)
        form = FORM_OF[name]
        want(not is_wide or form in WIDENED)
        if form in ("table", "pairs"):
            self.open_switch(name, rest)
        else:
            self.body.code.instructions.append(Instruction(name, self.operands(form, rest), is_wide))

    def operands(self, form, words):
        """The operands of an instruction that takes one line."""
        want(len(words) == (0 if form == "" else 2 if form in ("increment", "field", "interface") else 1))
        if form == "":
            return ()
        if form == "increment":
            return self.number(words[0], UNSIGNED), self.number(words[1], SHORT)
        if form in RANGES:
            return (self.number(words[0], RANGES[form]),)
        if form in ("branch", "far"):
            return (self.use(words[0]),)
        if form == "field":
            return (member_of(words[0], words[1], names.is_field),)
        if form == "interface":
            return method_of(words[0]), self.number(words[1], (1, 255))
        if form == "method":
            return (method_of(words[0]),)
        if form == "primitive":
            want(words[0] in PRIMITIVES)
            return (PRIMITIVES[words[0]],)
        want(names.is_class(words[0]) or form == "type" and names.is_array(words[0]))
        return (words[0],)

    # switches

    def open_switch(self, name, words):
        """The first line of a switch; what stands in it is taken by `table_line` or `pairs_line`."""
        want(len(words) == (name == "tableswitch"))
        low = tuple(self.number(word, INT) for word in words)
        found = []
        take = self.table_line if low else self.pairs_line
        self.body.switch = lambda line: take(name, low, found, line)

    def table_line(self, name, low, found, words):
        if self.default(name, low, found, words) is None:
            want(len(words) == 1)
            found.append(self.use(words[0]))

    def pairs_line(self, name, low, found, words):
        if self.default(name, low, found, words) is None:
            want(len(words) == 3 and words[1] == ":" and names.is_label(words[2]))
            found.append((self.number(words[0], INT), self.use(words[2])))

    def default(self, name, low, found, words):
        """The last line of a switch, or nothing where it is another one."""
        if len(words) != 3 or words[:2] != ["default", ":"]:
            return None
        want(found or name == "lookupswitch")
        made = Instruction(name, (*low, tuple(found), self.use(words[2])))
        self.body.code.instructions.append(made)
        self.body.switch = None
        return made


def read(text):
    """The class that a text says."""
    reader = Reader()
    for line in lines_of(text):
        reader.line += 1
        reader.take(line)
    reader.finish()
    if reader.faults:
        line, _, number = min(reader.faults)
        raise Refused(f"J{number}", f"at line {line}")
    return reader.made
