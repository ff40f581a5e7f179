"""Changes of the empty main E whose answers were worked out by hand: what the plain reader says of them, and what `jvm` does."""
import os
import subprocess
import tempfile

import answers

from . import programs

TEXT = b"""\
.class public E
.super java/lang/Object
.method public static main()V
.limit stack 0
.limit locals 0
return
.end method
"""
JOURNAL = "JVMJ 1\nheap 2 0 0\nlimits 1000000 65536\n0 d\nend 1\n"
# a byte of the class file, what it becomes, and what `run` reports
BYTES = [
    (7, 0x00, "E.class: C2"),
    (9, 0x00, "E.class: C6"),
    (9, 0xFF, "E.class: C5"),
    (72, 0x00, "load: L8 in class E"),
    (72, 0xFF, "E.class: C11"),
    (86, 0xFF, None),
    (93, 0x00, "fault F5 in thread 0"),
    (93, 0xFF, "E.class: O1 in method main()V"),
    (99, 0xFF, "E.class: C3"),
]
# the rows of the run whose `return` is a `nop`
FAULTY = b"JVMJ 2\nheap 2 0 0\nlimits 1000000 65536\nworkers 1\n0 d 0\n0 f 0\nend 2\n"
# a piece of the journal, another one, and what `replay` reports
PIECES = [
    ("heap 2 0 0", "heap 2 0", "journal N2"),
    ("0 d", "0  d", "journal N3 at row 1"),
    ("end 1", "end 2", "journal N4"),
    ("0 d", "1 d", "journal N5 at row 1"),
    ("0 d", "0 o", "journal N5 at row 1"),
    ("0 d", "0 d", None),
]
HEAP = "--small 2 --medium 0 --large 0 --gc 0".split(" ")


class Room:
    """A folder in which `jvm` is called."""

    def __init__(self, jvm, path):
        self.jvm, self.path = jvm, path

    def put(self, name, content):
        with open(os.path.join(self.path, name), "wb") as file:
            file.write(content)

    def told(self, *words):
        """What is reported on standard error, without the program's name, or nothing."""
        done = subprocess.run([self.jvm, *words], cwd=self.path, capture_output=True, timeout=60, check=False)
        return done.stderr.decode().rstrip("\n").removeprefix("jvm: ") or None


def wrong(wanted, *told):
    """What was reported otherwise, or nothing."""
    return next((f"{it} where {wanted} is right" for it in told if it != wanted), None)


def tried_bytes(room):
    whole = bytes.fromhex(answers.e_with())
    for place, byte, wanted in BYTES:
        made = whole[:place] + bytes([byte]) + whole[place + 1 :]
        room.put("E.class", made)
        told = room.told("run", *HEAP, "--journal", "journal", "E.class")
        reads = programs.told_of_program([("E.class", made)])
        # a fault is what the program does, and no reader tells it
        is_fault = wanted is not None and wanted.startswith("fault")
        yield f"byte {place} of E to {byte:02x}", wrong(wanted, told) or wrong(None if is_fault else wanted, reads)
        if is_fault:
            with open(os.path.join(room.path, "journal"), "rb") as file:
                yield "the rows of E without its return", wrong(FAULTY, file.read())


def tried_text(room):
    for place, byte in enumerate(TEXT):
        for other in (0x00, 0xFF):
            made = TEXT[:place] + bytes([other]) + TEXT[place + 1 :]
            room.put("E.j", made)
            wanted = f"E.j: J8 at line {TEXT[:place].count(10) + 1}"
            yield f"byte {place} of E.j, {byte:02x}, to {other:02x}", wrong(wanted, room.told("asm", "E.j", "out"), programs.told_of_text("E.j", made))


def tried_journals(room):
    room.put("E.j", TEXT)
    for piece, other, wanted in PIECES:
        room.put("journal", JOURNAL.replace(piece, other).encode())
        yield f"E's journal with `{other}`", wrong(wanted, room.told("replay", "journal", "E.j"))


def tried(jvm):
    """What was tried, each with what is wrong, or nothing."""
    with tempfile.TemporaryDirectory() as path:
        room = Room(jvm, path)
        yield from tried_bytes(room)
        yield from tried_text(room)
        yield from tried_journals(room)
