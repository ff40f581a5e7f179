"""Changes of class files that keep them well-formed a step further: indices, lengths with their bytes, ways, bounds, limits."""
import struct

from . import class_files, opcodes
from .refusals import Refused

# names and descriptors, good ones and others
WORDS = """I J B S C [I [[LE; LE; LQ; F V Z [V LE L; ()V (I)V (J)I ([I)J (LE;I)LE; ()F (V)V ( )V () E A main x f run Code ConstantValue
java/lang/Object java/lang/Error java/lang/Thread vm/Sys <init> <clinit> <main> 9x a//b [E""".split()
EDGES = (0, 1, 2, 3, 127, 128, 255, 256, 4_095, 4_096, 4_097, 32_767, 32_768, 65_534, 65_535)


class Parts:
    """Where the numbers of a class file stand, as far as it is one."""

    def __init__(self, whole):
        self.whole, self.place = whole, 0
        # entries by number, with tag, start and end; places of indices with their size and the tag wanted; and places of lengths
        # and counts, of flags, of limits, of ways with their size, pc and all pcs, of bounds with all pcs, of keys
        self.entries, self.indices, self.lengths, self.flags, self.limits = {}, [], [], [], []
        self.ways, self.bounds, self.keys = [], [], []
        # codes: the places of the attribute's length and of the code's, the code's start, and its pcs; and members: start and end
        self.codes, self.members = [], []
        try:
            self.walk()
        except (IndexError, struct.error, Refused):
            pass

    def number(self, size):
        form = {1: ">B", 2: ">H", 4: ">I"}[size]
        (found,) = struct.unpack_from(form, self.whole, self.place)
        self.place += size
        return found

    def length(self, size):
        self.lengths.append((self.place, size))
        return self.number(size)

    def index(self, tag):
        self.indices.append((self.place, 2, tag))
        return self.number(2)

    def walk(self):
        self.place = 8
        count = self.length(2)
        number = 1
        while number < count:
            number += self.entry(number)
        self.flags.append(self.place)
        self.place += 2
        for _ in range(2):
            self.index(class_files.CLASS)
        for _ in range(self.length(2)):
            self.index(class_files.CLASS)
        for _ in range(2):
            counted = self.place
            for _ in range(self.length(2)):
                self.member(counted)
        self.attributes()

    def entry(self, number):
        start = self.place
        tag = self.number(1)
        if tag == class_files.UTF8:
            length = self.length(2)
            self.place += length
        elif tag in (class_files.INTEGER, class_files.LONG):
            self.place += 4 if tag == class_files.INTEGER else 8
        elif tag == class_files.CLASS:
            self.index(class_files.UTF8)
        else:
            pair = (class_files.UTF8, class_files.UTF8) if tag == class_files.PAIR else (class_files.CLASS, class_files.PAIR)
            for wanted in pair:
                self.index(wanted)
        self.entries[number] = tag, start, self.place
        return 2 if tag == class_files.LONG else 1

    def member(self, counted):
        start = self.place
        self.flags.append(start)
        self.place += 2
        self.index(class_files.UTF8)
        self.index(class_files.UTF8)
        self.attributes()
        self.members.append((counted, start, self.place))

    def attributes(self):
        for _ in range(self.length(2)):
            name = self.text(self.index(class_files.UTF8))
            at = self.place
            end = self.length(4) + self.place
            if name == b"Code":
                self.code(at)
            elif name == b"ConstantValue":
                self.index(class_files.INTEGER)
            self.place = end

    def text(self, number):
        _, start, end = self.entries.get(number, (0, 0, 0))
        return self.whole[start + 3 : end]

    def code(self, at):
        self.limits += [self.place, self.place + 2]
        self.place += 4
        code_at, length = self.place, self.length(4)
        start = self.place
        pcs, found = opcodes.decoded_of("", self.whole[start : start + length])
        self.codes.append((at, code_at, start, [*pcs, length]))
        for pc, it in zip(pcs, found):
            self.operand(start, pc, it, range(length + 1))
        self.place = start + length
        for _ in range(self.length(2)):
            self.bounds += [(self.place + 2 * n, range(length + 2)) for n in range(3)]
            self.place += 6
            self.index(class_files.CLASS)
        self.attributes()

    def operand(self, start, pc, it, targets):
        """The places of an instruction's operand."""
        form, place = opcodes.FORM_OF[it.name], start + pc + 1
        if form in class_files.OPERANDS:
            self.indices.append((place, 1 if form == "int" else 2, class_files.OPERANDS[form]))
        elif form in ("branch", "far"):
            self.ways.append((place, 2 if form == "branch" else 4, pc, targets))
        elif form in ("table", "pairs"):
            place += -(pc + 1) % 4
            numbers = [place + 4 * n for n in range(3 + len(it.operands[1]) if form == "table" else 2 + 2 * len(it.operands[0]))]
            ways = [numbers[0], *(numbers[3:] if form == "table" else numbers[3::2])]
            self.ways += [(at, 4, pc, targets) for at in ways]
            self.keys += [at for at in numbers if at not in ways]


def put(whole, place, size, number):
    """The bytes with a number at a place."""
    return whole[:place] + (number % (1 << 8 * size)).to_bytes(size, "big") + whole[place + size :]


def number_at(whole, place, size):
    return int.from_bytes(whole[place : place + size], "big")


def index_of_kind(parts, rng):
    """An index to another entry of the kind that is wanted."""
    place, size, tag = rng.choice(parts.indices)
    number = rng.choice([number for number, entry in parts.entries.items() if entry[0] == tag])
    return f"index at {place} to {number}", put(parts.whole, place, size, number)


def any_index(parts, rng):
    place, size, _ = rng.choice(parts.indices)
    number = rng.randrange(max(parts.entries, default=0) + 3)
    return f"index at {place} to {number}", put(parts.whole, place, size, number)


def entries_exchanged(parts, rng):
    """Two constants of one kind exchanged."""
    one = rng.choice(list(parts.entries))
    tag, *span = parts.entries[one]
    other = rng.choice([number for number, entry in parts.entries.items() if entry[0] == tag])
    (start, end), (first, last) = sorted([tuple(span), parts.entries[other][1:]])
    whole = parts.whole
    if start == first:
        return "nothing", whole
    made = whole[:start] + whole[first:last] + whole[end:first] + whole[start:end] + whole[last:]
    return f"entries {one} and {other} exchanged", made


def another_text(parts, rng):
    """A name or a descriptor for another, with its length."""
    number = rng.choice([number for number, entry in parts.entries.items() if entry[0] == class_files.UTF8])
    word = rng.choice(WORDS + [parts.text(number).decode("latin-1")[:-1], parts.text(number).decode("latin-1") + "I"])
    _, start, end = parts.entries[number]
    entry = b"\x01" + struct.pack(">H", len(word)) + word.encode("latin-1")
    return f"entry {number} to {word}", parts.whole[:start] + entry + parts.whole[end:]


def text_by_one(parts, rng):
    """A text's length by one, and its bytes too, or only one of both."""
    number = rng.choice([number for number, entry in parts.entries.items() if entry[0] == class_files.UTF8])
    _, start, end = parts.entries[number]
    kept = parts.text(number)[: rng.choice((-1, None))]
    kept += rng.choice((b"", b"a"))
    length = rng.choice((len(kept), len(kept) + 1, max(len(kept) - 1, 0)))
    entry = b"\x01" + struct.pack(">H", length) + kept
    return f"entry {number} of {length} bytes, {kept.decode('latin-1')}", parts.whole[:start] + entry + parts.whole[end:]


def limit(parts, rng):
    """A limit of a method by one, or another one."""
    place = rng.choice(parts.limits)
    number = rng.choice((number_at(parts.whole, place, 2) + rng.choice((-1, 1)), rng.choice(EDGES)))
    return f"limit at {place} to {number}", put(parts.whole, place, 2, number)


def way(parts, rng):
    """A way of a branch or a switch to any pc."""
    place, size, pc, targets = rng.choice(parts.ways)
    target = rng.choice(targets)
    return f"way at {place} to pc {target}", put(parts.whole, place, size, target - pc)


def bound(parts, rng):
    """A bound of an exception row, or its handler, to any pc."""
    place, targets = rng.choice(parts.bounds)
    target = rng.choice(targets)
    return f"bound at {place} to {target}", put(parts.whole, place, 2, target)


def each_pc(whole):
    """Each way of a branch or a switch to each pc, and each bound and handler of an exception row to each."""
    parts = Parts(whole)
    for place, size, pc, targets in parts.ways:
        for target in targets:
            yield f"way at {place} to pc {target}", put(whole, place, size, target - pc)
    for place, targets in parts.bounds:
        for target in targets:
            yield f"bound at {place} to {target}", put(whole, place, 2, target)


def flag(parts, rng):
    place, bit = rng.choice(parts.flags), rng.randrange(12)
    return f"bit {bit} of the flags at {place}", put(parts.whole, place, 2, number_at(parts.whole, place, 2) ^ 1 << bit)


def length_by_one(parts, rng):
    place, size = rng.choice(parts.lengths)
    number = number_at(parts.whole, place, size) + rng.choice((-1, 1))
    return f"length at {place} to {number}", put(parts.whole, place, size, number)


def key(parts, rng):
    """A bound, a count or a key of a switch."""
    place = rng.choice(parts.keys)
    number = number_at(parts.whole, place, 4) + rng.choice((-1, 1, 2, 1 << 31))
    return f"key at {place} to {number % (1 << 32)}", put(parts.whole, place, 4, number)


def with_code(parts, code, first, last, put_in):
    """Other bytes in place of some of a code, with both lengths."""
    at, code_at, start, _ = code
    more = len(put_in) - (last - first)
    whole = parts.whole
    for place in (at, code_at):
        whole = put(whole, place, 4, number_at(whole, place, 4) + more)
    return whole[: start + first] + put_in + whole[start + last :]


def opcode(parts, rng):
    """The opcode of an instruction to another one."""
    _, _, start, pcs = rng.choice(parts.codes)
    pc, byte = rng.choice(pcs[:-1]), rng.choice((*opcodes.NAMES, opcodes.WIDE, rng.randrange(256)))
    return f"opcode at pc {pc} to {byte}", put(parts.whole, start + pc, 1, byte)


def instruction_left_out(parts, rng):
    code = rng.choice(parts.codes)
    n = rng.randrange(len(code[3]) - 1)
    pc, following = code[3][n], code[3][n + 1]
    return f"the instruction at pc {pc} left out", with_code(parts, code, pc, following, b"")


def instruction_added(parts, rng):
    """One byte more, which is an instruction, or an instruction once more."""
    code = rng.choice(parts.codes)
    n = rng.randrange(len(code[3]) - 1)
    pc, following = code[3][n], code[3][n + 1]
    again = parts.whole[code[2] + pc : code[2] + following]
    added = rng.choice((bytes([rng.randrange(256)]), again))
    return f"{added.hex()} at pc {pc} added", with_code(parts, code, pc, pc, added)


def row_added(parts, rng):
    """A row of the exception table more."""
    code = rng.choice(parts.codes)
    start, pcs = code[2], code[3]
    numbers = [rng.choice(pcs) for _ in range(3)] + [rng.choice((0, rng.randrange(max(parts.entries, default=0) + 1)))]
    count = number_at(parts.whole, start + pcs[-1], 2) + 1
    row = struct.pack(">HHHHH", count, *numbers)
    made = with_code(parts, code, pcs[-1], pcs[-1] + 2, row)
    # the code's own length stays
    return f"a row {numbers} added", put(made, code[1], 4, pcs[-1])


def member_again(parts, rng):
    """A field or a method left out, or once more."""
    counted, start, end = rng.choice(parts.members)
    times = rng.choice((0, 2))
    count = number_at(parts.whole, counted, 2) - 1 + times
    made = put(parts.whole, counted, 2, count)
    return f"the member at {start} {times} times", made[:start] + made[start:end] * times + made[end:]


# the changes, each with the parts that it needs
CHANGES = [
    (index_of_kind, "indices"),
    (index_of_kind, "indices"),
    (any_index, "indices"),
    (entries_exchanged, "entries"),
    (another_text, "entries"),
    (another_text, "entries"),
    (text_by_one, "entries"),
    (limit, "limits"),
    (way, "ways"),
    (bound, "bounds"),
    (flag, "flags"),
    (length_by_one, "lengths"),
    (key, "keys"),
    (opcode, "codes"),
    (instruction_left_out, "codes"),
    (instruction_added, "codes"),
    (row_added, "codes"),
    (member_again, "members"),
]


def changed(whole, rng):
    """What was changed, and what came of it."""
    parts = Parts(whole)
    able = [change for change, needs in CHANGES if getattr(parts, needs)]
    try:
        return rng.choice(able)(parts, rng) if able else ("nothing", whole)
    except (IndexError, struct.error):
        return "nothing", whole
