"""Large inputs: each ends with its answer, in time and memory that are linear in what was given."""
import os
import struct
import subprocess
import sys
import tempfile
from typing import NamedTuple

import answers

MOST = 65_535
MEGABYTE = 1_000_000
E_CLASS = bytes.fromhex(answers.e_with())
HEAD = ".class public E\n.super java/lang/Object\n.method public static main()V\n.limit stack 1\n.limit locals 0\n"
END = ".end method\n"
# what a process may take: so many seconds and bytes, and so many more for what it is given, and for a million pieces of work that
# isn't counted by bytes
SECONDS, SECONDS_A_MEGABYTE, SECONDS_A_MILLION = 2.0, 0.5, 3.0
MEMORY, MEMORY_A_BYTE, MEMORY_A_PIECE = 64 * MEGABYTE, 16, 32
# a process of little memory that runs a command, whose greatest memory is then its own
MEASURE = """
import os, sys
told = os.open(os.devnull, os.O_WRONLY)
process = os.posix_spawn(sys.argv[1], sys.argv[1:], {}, file_actions=[(os.POSIX_SPAWN_DUP2, told, 1)])
_, status, used = os.wait4(process, 0)
print(os.waitstatus_to_exitcode(status), used.ru_utime + used.ru_stime, used.ru_maxrss)
"""


class Large(NamedTuple):
    """What is given: files by their names, a command, and what is to be reported, or nothing; and how many rows of selection tables
    it makes, which its bytes don't count."""

    name: str
    files: dict
    words: list
    told: str | None
    pieces: int = 0


def entry(text):
    return b"\x01" + struct.pack(">H", len(text)) + text.encode()


def u2(*numbers):
    return struct.pack(f">{len(numbers)}H", *numbers)


def utf8(pool, text):
    """The number of a text in a pool that is being made."""
    return pool.setdefault(entry(text), len(pool) + 1)


def type_of(pool, name):
    return pool.setdefault(b"\x07" + u2(utf8(pool, name)), len(pool) + 1)


def full_code(pool):
    """A method's code with as many bytes, rows and attributes as there may be."""
    code = bytes(MOST - 1) + b"\xb1"
    rows = b"".join(u2(pc, MOST, pc, 0) for pc in range(MOST))
    info = u2(0, 0) + struct.pack(">I", MOST) + code + u2(MOST) + rows + u2(MOST) + attributes(pool)
    return struct.pack(">HI", utf8(pool, "Code"), len(info)) + info


def attributes(pool):
    """As many empty attributes as there may be."""
    return (u2(utf8(pool, "Nothing")) + bytes(4)) * MOST


def full_class():
    """A class file with every count at its greatest: of pool entries, interfaces, fields, methods, attributes, bytes of code and
    rows. No two of its fields or methods are the same."""
    pool = {}
    head = u2(0x0421, type_of(pool, "E"), type_of(pool, "java/lang/Object"))
    interfaces = u2(MOST) + u2(type_of(pool, "I")) * MOST
    names = [utf8(pool, f"m{n}") for n in range(256)]
    types = [utf8(pool, "[" * (n // 2) + "IJ"[n % 2]) for n in range(256)]
    results = [utf8(pool, f"()L{'a' * (n + 1)};") for n in range(256)]
    pairs = [(name, n) for name in names for n in range(256)]
    fields = b"".join(u2(0x0009, name, types[n], 0) for name, n in pairs[:MOST])
    methods = b"".join(u2(0x0401, name, results[n], 0) for name, n in pairs[: MOST - 1])
    main = u2(0x0009, utf8(pool, "main"), utf8(pool, "()V"), 1) + full_code(pool)
    rest = u2(MOST) + fields + u2(MOST) + main + methods + u2(MOST) + attributes(pool)
    while len(pool) < MOST - 1:
        utf8(pool, f"more{len(pool)}")
    return bytes.fromhex("cafebabe00000031") + u2(MOST) + b"".join(pool) + head + interfaces + rest


def small_class(flags, name, above, interfaces=(), methods=lambda pool: (0, b"")):
    """A class file with interfaces and methods."""
    pool = {}
    head = u2(flags, type_of(pool, name), type_of(pool, above), len(interfaces))
    head += u2(*(type_of(pool, it) for it in interfaces))
    count, found = methods(pool)
    rest = u2(0, count) + found + u2(0)
    return bytes.fromhex("cafebabe00000031") + u2(len(pool) + 1) + b"".join(pool) + head + rest


def main_alone(pool):
    code = u2(utf8(pool, "Code")) + bytes.fromhex("0000000d 0000 0000 00000001 b1 0000 0000")
    return 1, u2(0x0009, utf8(pool, "main"), utf8(pool, "()V"), 1) + code


def many_methods(pool):
    """A main and 65,534 other methods."""
    names = [utf8(pool, f"m{n}") for n in range(256)]
    results = [utf8(pool, f"()L{'a' * (n + 1)};") for n in range(256)]
    pairs = [(name, result) for name in names for result in results][: MOST - 1]
    return MOST, main_alone(pool)[1] + b"".join(u2(0x0401, *pair, 0) for pair in pairs)


def many_below():
    """Classes below one with many methods: each has a selection table with a row for each of them."""
    files = {"c0": small_class(0x0421, "E", "java/lang/Object", (), many_methods)}
    files.update({f"c{n}": small_class(0x0421, f"E{n}", "E") for n in range(1, 256)})
    return Large("65,535 methods, and 255 classes below theirs", files, ["run", *files], None, 256 * MOST)


def many_above():
    """Interfaces each of which names the next one many times."""
    files = {"c": small_class(0x0021, "E", "java/lang/Object", (), main_alone)}
    for n in range(128):
        above = [f"I{n + 1}"] * 10_000 if n < 127 else []
        files[f"i{n}"] = small_class(0x0601, f"I{n}", "java/lang/Object", above)
    return Large("128 interfaces, each naming the next one 10,000 times", files, ["run", *files], None)


def labels():
    """A text with 65,535 labels, before as many instructions; from each a row of the exception table leads to the code's end."""
    rows = "".join(f".catch all from L{n} to End using L{n}\n" for n in range(MOST))
    lines = "".join(f"L{n}:\nnop\n" for n in range(MOST - 1))
    return f"{HEAD}{rows}{lines}L{MOST - 1}:\nreturn\nEnd:\n{END}".encode()


def nested_switch():
    """A text with one switch over 16,370 labels that all stand at one place."""
    ways = "".join(f"L{n}\n" for n in range(16_370))
    places = "".join(f"L{n}:\n" for n in range(16_370))
    return f"{HEAD}iconst_0\ntableswitch 0\n{ways}default : L0\n{places}return\n{END}".encode()


def texts(size):
    """Texts of so many bytes."""
    name = b"a" * size
    lines = HEAD.encode() + b"return\n" + END.encode()
    yield "a text of one line, a word", name, "a.j: J1 at line 1"
    yield "a text of one line, a class's name", b".class " + name, "a.j: J3 at line 1"
    yield "a text of one line, many words", b".class" + b" a" * (size // 2), "a.j: J3 at line 1"
    yield "a comment of one line before a class", b";" + name + b"\n" + lines, None
    yield "a label of one line", lines.replace(b"return", name + b":\nreturn"), None
    yield "lines with nothing in them", b"\n" * size, f"a.j: J1 at line {size + 1}"


def class_files(size):
    """Class files of so many bytes, or with numbers that promise more than there is."""
    nothing = E_CLASS[:-2] + u2(1, 7) + struct.pack(">I", size) + bytes(size)
    yield "an attribute that is skipped", nothing, None
    yield "an attribute of 4 GiB that isn't there", E_CLASS[:-2] + u2(1, 7) + b"\xff" * 4, "a.class: C3"
    yield "a pool of 65,534 entries that aren't there", E_CLASS[:8] + b"\xff\xff" + E_CLASS[10:], "a.class: C5"
    yield "bytes after the end", E_CLASS + bytes(size), "a.class: C4"
    yield "every count at its greatest", full_class(), None


def journals(size):
    """Journals that promise more rows than they have, and that have as many as there may be."""
    head = b"JVMJ 2\nheap 2 0 0\nlimits 16777215 0\nworkers 1\n"
    yield "16,777,215 rows promised, ten there", head + b"0 d 0\n" * 10 + b"end 16777215\n", "journal N4"
    yield "ten rows and no end", head + b"0 d 0\n" * 10, "journal N4"
    yield "16,777,215 rows", head + b"0 d 0\n" * 16_777_215 + b"end 16777215\n", None
    yield "a row of one line", head + b"0" * size, "journal N3 at row 1"


def many_classes():
    """Ten thousand class files on one command line, all different, and all alike."""
    different = {"c0": E_CLASS}
    for n in range(1, 10_000):
        name = f"E{n:04}"
        different[f"c{n}"] = E_CLASS.replace(entry("E"), entry(name))
    yield Large("10,000 class files", different, ["run", *different], "load: L8 in class E0256")
    yield Large("one class file 10,000 times", {"c": E_CLASS}, ["run"] + ["c"] * 10_000, "load: L1 in class E")


def all_large(size):
    """All of them, with texts and class files of so many bytes."""
    for name, text, told in texts(size):
        yield Large(name, {"a.j": text}, ["asm", "a.j", "out"], told)
    for name, text in (("65,535 labels and rows", labels()), ("a switch over 16,370 labels", nested_switch())):
        yield Large(name, {"a.j": text}, ["asm", "a.j", "out"], None)
        yield Large(f"{name}, run", {"a.j": text}, ["run", "a.j"], None)
    for name, whole, told in class_files(size):
        yield Large(name, {"a.class": whole}, ["dis", "a.class"], told)
    interface = b".interface I\n.super java/lang/Object\n"
    yield Large("every count at its greatest, run", {"a.class": full_class(), "i": interface}, ["run", "a.class", "i"], None)
    for name, text, told in journals(size):
        yield Large(name, {"in": text}, ["upgrade", "in", "out"], told)
    yield from many_classes()
    yield many_below()
    yield many_above()


def measured(jvm, folder, it):
    """What is reported, the status, and the seconds and the bytes of memory that it took."""
    for name, content in it.files.items():
        with open(os.path.join(folder, name), "wb") as file:
            file.write(content)
    words = [sys.executable, "-S", "-c", MEASURE, jvm, *it.words]
    done = subprocess.run(words, cwd=folder, stdout=subprocess.PIPE, stderr=subprocess.PIPE, check=True)
    status, seconds, memory = done.stdout.split()
    return done.stderr.decode().rstrip("\n").removeprefix("jvm: ") or None, int(status), float(seconds), 1024 * int(memory)


def wrong(it, told, status, seconds, memory):
    """What is wrong with an answer, or nothing."""
    size = sum(len(it.files[name]) for name in it.words if name in it.files)
    if told != it.told or status != (2 if it.told else 0):
        return f"it says {told}, status {status}, where {it.told} is right"
    if seconds > SECONDS + (SECONDS_A_MEGABYTE * size + SECONDS_A_MILLION * it.pieces) / 1_000_000:
        return f"it takes {seconds:.1f} seconds for {size} bytes"
    if memory > MEMORY + MEMORY_A_BYTE * size + MEMORY_A_PIECE * it.pieces:
        return f"it takes {memory} bytes of memory for {size} bytes"
    return None


def tried(jvm, megabytes):
    """What was tried, each with what is wrong, or nothing; what each took is printed."""
    for it in all_large(megabytes * MEGABYTE):
        with tempfile.TemporaryDirectory() as folder:
            told, status, seconds, memory = measured(jvm, folder, it)
        size = sum(len(it.files[name]) for name in it.words if name in it.files)
        print(f"large: {it.name}: {size} bytes, {seconds:.2f} seconds, {memory // 1_000_000} MB")
        yield f"large: {it.name}", wrong(it, told, status, seconds, memory)
