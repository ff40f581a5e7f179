"""The rules of a program (JVMS 5.3 to 5.5): which of its classes breaks one of them first.

The rules go in an order, each over all classes: L11, L1, L2, L3, L4, L5, L10, L6, L7, L8, L9. A refusal names the first class
that breaks the rule.
"""
from collections import Counter

from . import names
from .classes import ABSTRACT, FINAL, INTERFACE, NATIVE, STATIC, SYNCHRONIZED, Class, Method
from .opcodes import FORM_OF
from .refusals import Refused

OBJECT, THREAD, THROWABLE, SYSTEM = "java/lang/Object", "java/lang/Thread", "java/lang/Throwable", "vm/Sys"
# the machine's own classes, each below the one that is less indented
OWN = """
Object
 Throwable
  Exception
   RuntimeException
    ArithmeticException
    NullPointerException
    ClassCastException
    NegativeArraySizeException
    ArrayStoreException
    IllegalMonitorStateException
    IndexOutOfBoundsException
     ArrayIndexOutOfBoundsException
    IllegalArgumentException
     IllegalThreadStateException
  Error
   VirtualMachineError
    OutOfMemoryError
    StackOverflowError
   LinkageError
    ExceptionInInitializerError
    NoClassDefFoundError
 Thread
"""
MOST_CLASSES, MOST_FIELDS, MOST_FRAMES, MOST_UNITS, MOST_DIMENSIONS = 256, 256, 256, 4_096, 255


def own_classes():
    """The machine's own classes by their names."""
    made, above = {}, {}
    for line in OWN.strip().split("\n"):
        depth, name = line.count(" "), f"java/lang/{line.strip()}"
        made[name] = Class(0, name, above.get(depth - 1, ""), methods=[Method(0, "<init>", "()V")])
        above[depth] = name
    made[THREAD].methods += [Method(0, name, "()V") for name in ("run", "start", "join")]
    prints = [Method(STATIC, name, f"({kind})V") for name, kind in (("print", "I"), ("printl", "J"), ("putc", "I"))]
    return made | {SYSTEM: Class(0, SYSTEM, OBJECT, methods=prints)}


# these never change
OWN_CLASSES = own_classes()


class Program:
    """The classes of a program, in their order, with the machine's own."""

    def __init__(self, given):
        self.given = given
        self.times = Counter(it.name for it in given)
        self.own = set(OWN_CLASSES)
        self.classes = OWN_CLASSES | {it.name: it for it in given}

    def above(self, it):
        """The names of a class's superclass and superinterfaces."""
        return ([it.superclass] if it.superclass else []) + it.interfaces

    def supers(self, it):
        """A class and its superclasses, from the nearest."""
        while it:
            yield it
            it = self.classes.get(it.superclass)

    def interfaces(self, it):
        """The superinterfaces of a class: in the order of its file, each with its own before the next."""
        left, seen = it.interfaces[::-1], set()
        while left:
            name = left.pop()
            if name not in seen:
                seen.add(name)
                yield self.classes[name]
                left += self.classes[name].interfaces[::-1]

    def descends(self, name, wanted):
        return any(it.name == wanted for it in self.supers(self.classes[name]))

    # members

    def field(self, member):
        """The field that a reference means: of the class, of its superinterfaces, and then the same of its superclass."""
        for above in self.supers(self.classes[member.owner]):
            for it in (above, *self.interfaces(above)):
                for found in it.fields:
                    if (found.name, found.descriptor) == member[1:]:
                        return found
        return None

    def method(self, member):
        """The method that a reference means: of the class, of its superclasses, and then of all superinterfaces."""
        supers = list(self.supers(self.classes[member.owner]))
        places = supers[:1] if member.name == "<init>" else supers + [it for above in supers for it in self.interfaces(above)]
        for it in places:
            for found in it.methods:
                if (found.name, found.descriptor) == member[1:]:
                    return found
        return None

    def has_type(self, name):
        """Whether a class is there, or the class of an array's elements."""
        element = name.lstrip("[")
        if element == name:
            return name in self.classes
        return element in ("B", "C", "S", "I", "J") or element[1:-1] in self.classes

    def is_interface(self, name):
        return bool(self.classes[name].flags & INTERFACE)

    # instructions

    def resolves(self, it):
        """Whether what an instruction names is there, and of the right kind."""
        form = FORM_OF[it.name]
        if form == "new":
            return it.operands[0] in self.classes and not self.classes[it.operands[0]].flags & (ABSTRACT | INTERFACE)
        if form == "type":
            name = it.operands[0]
            full = it.name == "anewarray" and name.startswith("[" * MOST_DIMENSIONS)
            return self.has_type(name) and not full
        if form in ("field", "method", "interface"):
            return it.operands[0].owner in self.classes and self.finds(it, form, it.operands[0])
        return True

    def finds(self, it, form, member):
        """Whether the member is there: static or not, of a class or an interface."""
        if form == "field":
            found = self.field(member)
            return found is not None and bool(found.flags & STATIC) == it.name.endswith("static")
        if self.is_interface(member.owner) != (form == "interface") or member.name == "<clinit>":
            return False
        if member.name == "<init>" and it.name != "invokespecial":
            return False
        if form == "interface" and it.operands[1] != names.units(member.descriptor) + 1:
            return False
        found = self.method(member)
        return found is not None and bool(found.flags & STATIC) == (it.name == "invokestatic")


def codes(it):
    return [method.code for method in it.methods if method.code]


# the rules, each of a program and one of its classes: whether the class breaks it


def is_own(program, it):
    return it.name in program.own


def is_twice(program, it):
    return program.times[it.name] > 1


def lacks_one_above(program, it):
    return not all(name in program.classes for name in program.above(it))


def is_on_cycle(program, it):
    left, seen = program.above(it), set()
    while left:
        name = left.pop()
        if name == it.name:
            return True
        if name not in seen:
            seen.add(name)
            left += program.above(program.classes[name])
    return False


def is_wrong_below(program, it):
    above = program.classes[it.superclass]
    return bool(above.flags & (INTERFACE | FINAL)) or not all(program.is_interface(name) for name in it.interfaces)


def has_member_twice(program, it):
    return any(len({(one.name, one.descriptor) for one in them}) < len(them) for them in (it.fields, it.methods))


def has_refused_method(program, it):
    return any(is_refused(program, it, method) for method in it.methods)


def is_refused(program, it, method):
    """An initializer that is no plain static one, a native method, or a synchronized one that may not be so."""
    if method.name == "<clinit>":
        plain = method.has(STATIC) and method.descriptor == "()V" and method.code and not method.has(SYNCHRONIZED)
        return not plain
    runs = method.full_name() == "run()V" and program.descends(it.name, THREAD)
    return method.has(NATIVE) or method.has(SYNCHRONIZED) and (method.has(STATIC) or runs)


def has_no_such(program, it):
    instructions = all(program.resolves(one) for code in codes(it) for one in code.instructions)
    return not instructions or not all(program.has_type(row.caught) for code in codes(it) for row in code.rows if row.caught)


def has_bad_row(program, it):
    for code in codes(it):
        pcs = set(code.pcs)
        for row in code.rows:
            placed = row.start < row.end and row.start in pcs and row.end in pcs | {code.length} and row.handler in pcs
            if not placed or row.caught and (row.caught.startswith("[") or not program.descends(row.caught, THROWABLE)):
                return True
    return False


def passes_limit(program, it):
    fields = sum(not field.flags & STATIC for above in program.supers(it) for field in above.fields)
    methods = any(method.code and not fits(method) for method in it.methods)
    one_too_many = len(program.given) > MOST_CLASSES and it is program.given[MOST_CLASSES]
    return fields > MOST_FIELDS or methods or one_too_many


def fits(method):
    needed = names.units(method.descriptor) + (not method.has(STATIC))
    return needed <= method.code.locals and method.code.locals + method.code.stack <= MOST_UNITS


def main_of(it):
    """A class's static `main()V` with code."""
    return next((method for method in it.methods if method.full_name() == "main()V" and method.has(STATIC) and method.code), None)


def has_no_main(program, it):
    return it is program.given[0] and not main_of(it)


RULES = [
    ("L11", is_own),
    ("L1", is_twice),
    ("L2", lacks_one_above),
    ("L3", is_on_cycle),
    ("L4", is_wrong_below),
    ("L5", has_member_twice),
    ("L10", has_refused_method),
    ("L6", has_no_such),
    ("L7", has_bad_row),
    ("L8", passes_limit),
    ("L9", has_no_main),
]


def load(given):
    """The program of some classes, at least one."""
    program = Program(given)
    for code, breaks in RULES:
        for it in given:
            if breaks(program, it):
                raise Refused(code, f"in class {it.name}")
    return program


def initializer(it):
    return next((method for method in it.methods if method.name == "<clinit>"), None)


def open_world(program):
    """Whether the frames with which main opens fit a thread: main's, and those of the initializers of its class and the classes
    above it that are not initialised at the start. Refused where they don't."""
    above = list(program.supers(program.given[0]))
    while above and (above[-1].name in program.own or not initializer(above[-1])):
        above.pop()
    codes_of_frames = [main_of(program.given[0]).code, *(initializer(it).code for it in above if initializer(it))]
    units = sum(code.locals + code.stack for code in codes_of_frames)
    if len(above) + 1 > MOST_FRAMES or units > MOST_UNITS:
        raise Refused("P4")
