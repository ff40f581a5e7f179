"""What `jvm` tells of texts, class files, programs and journals, row by row (examples/answers.txt), for run_examples.py.

Each row is of a kind, which says what files are made of it:

text, assembled    A text, of which a bar ends a line, and a line H, I, M, Z, A, S, G or N stands for those of LINES; it is
                   assembled. `read` says that it is a text, whatever the assembler tells of it; after `ends` and `at 8` stand
                   bytes of the class file.
pool, byte of E, field of A, code of E, operand of E, pads of E, method of E
                   Class files of the two with these names, which are disassembled.
program, reference Classes, as in crates/program_tests/src/texts.rt, which are run; `accepted` says that no rule refuses them.
main of 4          The lines of a main on a stack of so many units, whose locals 0 and 1 hold two objects, a and b, at first. It is
                   run, beside the ideal run too, and tells the values on its stack, the top one first (of a switch the value
                   that a way returns with), or how it fails.
journal, replay    A journal that is upgraded, or replayed on a main that prints a sum.
"""
import os
import re
import subprocess

from plain.programs import told_of_journal

ROWS = os.path.join(os.path.dirname(os.path.abspath(__file__)), "..", "examples", "answers.txt")
END = "return\n.end method\n"
CLASS = "{} E\n.super java/lang/Object"
LINES = {
    "H": CLASS.format(".class"),
    "I": CLASS.format(".interface"),
    "M": CLASS.format(".class") + "\n.method static main()V\n.limit stack 1\n.limit locals 0",
    "Z": END,
    # a main over a superclass that isn't there, a switch over the two greatest ints, and a class with two methods
    "A": ".class public A\n.super B\n.method public static main()V\n.limit stack 2\n.limit locals 0",
    "S": "ldc 2147483646\ntableswitch 2147483646\nX\nX\ndefault : X\nX:\nreturn",
    "G": ".class A\n.super java/lang/Object\n.method static m0()V\n.limit stack 2\n.limit locals 0",
    "N": ".method static m1()V\n.limit stack 2\n.limit locals 0",
    # heads of journals: of version 2 with two workers, and of version 1
    "T": "JVMJ 2\nheap 2 0 0\nlimits 9 0\nworkers 2",
    "O": "JVMJ 1\nheap 2 0 0\nlimits 9 0",
}
# a class E over java/lang/Object with the method `public static main()V`, whose code is one return: 100 bytes
E_OPENING = "cafebabe 0000 0031"
E_ENTRIES = "01000145 070001 0100106a6176612f6c616e672f4f626a656374 070003 0100046d61696e 010003282956 010004436f6465"
E_CLASS = "0021 0002 0004 0000 0000"
E_METHODS = "0001 0009 0005 0006 0001 0007 0000000d 0000 0000 00000001 b1 0000 0000"
# where E with a byte 0 or ff is a class file: flags of the class and of the method, the limits, and nop for return
FREE = {60, 72, 85, 86, 87, 88, 93}
# a class A over O, up to the flags of its one field `x I`, which is deprecated and has a value
A_FRONT = """cafebabe 0000 0031 000a 01000141 070001 0100014f 070003 01000178 01000149
    01000d436f6e7374616e7456616c7565 0300000007 01000a44657072656361746564 0021 0002 0004 0000 0001"""
# the entries after E's that code names: an Integer 8, a Long 9, a field `main I` 13, and methods `main()V` of a class 15 and of
# an interface 16
NAMED = "03 00000007 05 0000000000000007 01 0001 49 0c 0005 000b 09 0002 000c 0c 0005 0006 0a 0002 000e 0b 0002 000e"
PADS = {"": 0x15, "00": 0x16, "0000": 0x17, "000000": 0x18}
BEFORE = "class E|main:|"
BEHIND = """|return|end; class A|.field public x I|.field static s I|code 1 0 public m()V|code 0 0 public static f()V|\
code 1 0 public <init>()V; class B < A|.implements I; interface I|.field public static final c I|\
.method public abstract i(J)V|end; class abstract V|code 1 0 public <init>()V"""
# a class with two objects in static fields, which the locals hold too, and the end of a main whose stack is another one
OBJECTS = """.class public E
.super java/lang/Object
.field public static a LE;
.field public static b LE;
.method public static main()V
.limit stack {}
.limit locals 3
new E
putstatic E/a LE;
new E
putstatic E/b LE;
getstatic E/a LE;
astore 0
getstatic E/b LE;
astore 1
"""
OTHERWISE = "BAD:\niconst_m1\ninvokestatic vm/Sys/putc(I)V\nreturn\n.end method\n"
FAILURES = {"throws": "thread 0 ended by java/lang/ArithmeticException", "F": "fault {} in thread 0"}
SUM = f"{LINES['A'].replace('super B', 'super java/lang/Object')}\nldc 2147483647\niconst_1\niadd\ninvokestatic vm/Sys/print(I)V\n{END}"
# one journal in both versions, which a plain reader cuts and changes
JOURNALS = [
    b"JVMJ 1\nheap 2 0 0\nlimits 9 0\n0 d\nc o\n255 n\n7 f\nend 4\n",
    b"JVMJ 2\nheap 2 0 0\nlimits 9 0\nworkers 3\n0 d 0\nc o 1\n255 n 2\n7 f 0\nend 4\n",
]


def rows():
    """The rows: kind, what is given, and what is reported."""
    with open(ROWS, encoding="ascii") as file:
        for section in file.read().split("\n== ")[1:]:
            head, *lines = section.rstrip("\n").split("\n")
            for line in lines:
                if line and not line.startswith("# "):
                    given, _, told = line.partition(" =>")
                    yield head.split(":")[0], given, told.strip(" ")


def repeated(text):
    """The text with `{3*x}` written out, from the inside out."""
    piece = re.compile(r"\{(\d+)\*([^{}]*)\}")
    while found := piece.search(text):
        parts = (found[2].replace("#+", str(number + 1)).replace("#", str(number)) for number in range(int(found[1])))
        text = text[: found.start()] + "".join(parts) + text[found.end() :]
    return text


def lines_of(given):
    """The bytes of a text whose lines have bars between them."""
    text = "\n".join(LINES.get(line, line) for line in repeated(given).split("|"))
    return text.encode().decode("unicode_escape").encode("latin-1")


def e_with(count="8", entries="", methods=E_METHODS):
    return f"{E_OPENING} 00{int(count):02x} {E_ENTRIES} {entries} {E_CLASS} {methods} 0000"


def with_code(count, entries, code, tail="0000 0000"):
    """E with this code, and this after it in its attribute."""
    size, after = (len(bytes.fromhex(it)) for it in (code, tail))
    attribute = f"0007 {8 + size + after:08x} 0000 0000 {size:08x} {code} {tail}"
    return e_with(count, entries, f"0001 0009 0005 0006 0001 {attribute}")


def with_byte(place, byte):
    made = bytearray.fromhex(e_with())
    made[int(place)] = byte
    return made.hex()


def class_files(kind, given, told):
    """The class files of a row, in hexadecimal digits, each with what is reported for it."""
    parts = [repeated(part.strip(" ")) for part in given.split("|")]
    if kind == "pool":
        yield f"{E_OPENING} {given}", told
    elif kind == "byte of E":
        place, byte = given.split(" ")
        yield with_byte(place, int(byte, 16)), told
    elif kind == "field of A":
        yield f"{A_FRONT} {parts[0]} 0005 0006 0002 0009 00000000 0007 {parts[1]} {parts[2]} 0000 0000", told
    elif kind == "code of E":
        yield with_code(*parts), told
    elif kind == "operand of E":
        for number in range(18):
            yield with_code("17", NAMED, f"{parts[0]} 00{number:02x} {parts[1]}"), "read" if str(number) in told.split(" ") else "C6"
    elif kind == "pads of E":
        for pads, way in PADS.items():
            code = f"{given} 1208 aa {pads} {way:08x} 7ffffffe 7fffffff {way:08x} {way:08x} b1"
            yield with_code("9", "03 7ffffffe", code), "read" if pads == told else None
    elif kind == "method of E":
        yield e_with(*parts), told


def text_of(line):
    """What a line of a class stands for; see crates/program_tests/src/texts.rt."""
    word, _, rest = line.partition(" ")
    if word in ("class", "interface"):
        name, _, above = rest.partition(" < ")
        return f".{word} {name}\n.super {above or 'java/lang/Object'}\n"
    if word == "code":
        local, stack, method = rest.split(" ", 2)
        return f".method {method}\n.limit locals {local}\n.limit stack {stack}\nnop\n{END}"
    if word == "main":
        return text_of("code 0 0 public static main()V")
    if word == "main:":
        return ".method public static main()V\n.limit locals 3\n.limit stack 6\n"
    return ".end method\n" if word == "end" else f"{line}\n"


def reported_by(value, printed):
    """The lines that tell whether a value is at the top of the stack, and take it off; what they print is added."""
    if value == "null":
        return "ifnonnull BAD\n"
    if value in ("a", "b"):
        return f"getstatic E/{value} LE;\nif_acmpne BAD\n"
    printed.append(f"{value.rstrip('L')}\n")
    return f"invokestatic vm/Sys/{'printl(J)V' if value.endswith('L') else 'print(I)V'}\n"


def classes_of(given):
    """The texts of a row of classes."""
    return ["".join(text_of(line) for line in row.split("|")).encode() for row in repeated(given).split("; ")]


def around(reference):
    """The row of classes of a reference: a main that makes it, and classes to which it may lead."""
    return f"{BEFORE}{reference}{BEHIND}"


def has_bytes(made, wanted):
    """Whether a class file that was made has the wanted bytes."""
    word, _, rest = wanted.partition(" ")
    if word == "at":
        place, digits = rest.split(" ", 1)
        return made[int(place) :].startswith(bytes.fromhex(digits))
    return word == "assembled" or made.endswith(bytes.fromhex(rest))


class Folder:
    """A folder in which `jvm` is called."""

    def __init__(self, jvm, path):
        self.jvm, self.path = jvm, path
        os.mkdir(path)

    def put(self, name, content):
        with open(os.path.join(self.path, name), "wb") as file:
            file.write(content)

    def read(self, name):
        with open(os.path.join(self.path, name), "rb") as file:
            return file.read()

    def shown(self, *words):
        """The output, and what is reported on standard error, nothing where the command ends well."""
        done = subprocess.run([self.jvm, *words], cwd=self.path, stdout=subprocess.PIPE, stderr=subprocess.PIPE, timeout=120)
        return done.stdout.decode("latin-1"), done.stderr.decode().rstrip("\n") if done.returncode else ""

    def told(self, *words):
        return self.shown(*words)[1]

    def text(self, given, wanted):
        """What is wrong with the answer to a text, or nothing."""
        self.put("a.j", lines_of(given))
        answer = self.told("asm", "a.j", "a.class")
        if wanted == "read":
            return answer if answer.startswith("jvm: a.j: J") else None
        if not wanted.startswith(("ends ", "at ", "assembled")):
            return None if answer == f"jvm: a.j: {wanted}" else answer or "assembled"
        return answer or (None if has_bytes(self.read("a.class"), wanted) else self.read("a.class").hex())

    def class_file(self, digits, wanted):
        """The same of a class file; with nothing wanted it is refused, whatever is reported."""
        self.put("a.class", bytes.fromhex(digits))
        answer = self.told("dis", "a.class")
        right = bool(answer) if wanted is None else answer == ("" if wanted == "read" else f"jvm: a.class: {wanted}")
        return None if right else answer or "read"

    def program(self, given, wanted):
        names = []
        for number, text in enumerate(classes_of(given)):
            names.append(f"{number}.j")
            self.put(names[-1], text)
        answer = self.told("run", *names)
        if wanted == "accepted":
            return None if answer == "" or answer.startswith("jvm: fault F") else answer
        return None if answer == f"jvm: load: {wanted}" else answer or "accepted"

    def main(self, units, given, wanted):
        """The same of a main's lines on a stack of so many units."""
        failure = FAILURES.get(wanted) or (FAILURES["F"].format(wanted) if re.fullmatch(r"F\d+", wanted) else None)
        lines, printed = given.replace("|", "\n") + "\n", []
        if failure is None:
            units, values = units + 1, wanted.split(" ") if wanted else []
            seen = "".join(reported_by(value, printed) for value in values)
            lines = lines.replace("return\n", f"{seen}return\n") if "return\n" in lines else f"{lines}{seen}return\n"
        text = f"{OBJECTS.format(units)}{lines}{OTHERWISE}"
        self.put("a.j", text.encode())
        ran = [self.shown("run", *how, "a.j") for how in ([], ["--gc", "0", "--check"])]
        return None if ran == 2 * [("".join(printed), f"jvm: {failure}" if failure else "")] else f"{ran}"

    def journal(self, given, wanted):
        self.put("in", lines_of(given))
        answer = self.told("upgrade", "in", "out")
        if wanted.startswith("becomes "):
            return answer or (None if self.read("out") == lines_of(wanted.removeprefix("becomes ")) else self.read("out").decode())
        return None if answer == ("" if wanted == "read" else f"jvm: journal {wanted}") else answer or "read"

    def replay(self, given, wanted):
        self.put("in", lines_of(given))
        self.put("sum.j", SUM.encode())
        answer = self.told("replay", "in", "sum.j")
        return None if answer == ("" if wanted == "replayed" else f"jvm: journal {wanted}") else answer or "replayed"

    def row(self, kind, given, wanted):
        """What is wrong with the answers to a row, or nothing."""
        if kind in ("text", "assembled"):
            return self.text(given, wanted)
        if kind in ("program", "reference"):
            return self.program(given if kind == "program" else around(given), wanted)
        if kind in ("journal", "replay"):
            return getattr(self, kind)(given, wanted)
        if kind.startswith("main of "):
            return self.main(int(kind.removeprefix("main of ")), given, wanted)
        answers = [self.class_file(digits, told) for digits, told in class_files(kind, given, wanted)]
        return next((why for why in answers if why), None) if answers else "no such kind"


def tried_journals(folder):
    """Each front of two journals, and each with another byte at a place, beside a plain reader."""
    for whole in JOURNALS:
        changed = [whole, *(whole[:place] for place in range(len(whole)))]
        for place in range(len(whole)):
            changed += [whole[:place] + byte + whole[place + 1 :] for byte in (b"\0", b"\xff")]
        for journal in changed:
            folder.put("in", journal)
            wanted, answer = told_of_journal(journal) or "", folder.told("upgrade", "in", "out")
            if answer != (wanted and f"jvm: {wanted}"):
                return f"{journal}: {answer or 'read'} where a plain reader tells {wanted or 'nothing'}"
    return None


def tried_bytes(folder):
    """E with another byte, 0 or ff, at each place: one of both is a class file where the place is free."""
    for place in range(100):
        same = bytes.fromhex(e_with())
        read = [folder.class_file(with_byte(place, byte), "read") is None for byte in (0, 255) if same[place] != byte]
        if any(read) != (place in FREE):
            return f"a byte at {place}"
    return None


def tried_answers(jvm, room):
    """What was tried of the answers, each with what is wrong, or nothing."""
    folder = Folder(os.path.abspath(jvm), f"{room}/answers")
    for kind, given, wanted in rows():
        yield f"answer: {kind}: {given[:80]}", folder.row(kind, given, wanted)
    yield "each front of a journal, and each with another byte", tried_journals(folder)
    yield "each byte of a class file", tried_bytes(folder)
