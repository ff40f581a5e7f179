#!/usr/bin/env python3
"""How many instructions of the processor each instruction of the profile takes, in each mode, as a table.

Usage: step_costs.py [--jvm PROGRAM] [--jobs N] [--markdown] [WORD ..]

For each one there is a loop of some additions that also pushes its operands from locals, carries it out, and pops what it leaves into
locals. Counted by valgrind's callgrind, as in row_instructions.py: a long run of the loop less a short one. From the count of one
round, that of the loop with the additions alone is taken away, and for each load and store half of what a loop with both takes more.
What is left is the instruction's, or that of the few rows which its name lists: a call with its return, a monitor that is entered and
left, a throw with its catch.

Columns: one thread and four, `--gc 0` and `--gc 1` (where the collector's turns are counted too). WORD: of those instructions alone.
PROGRAM is crates/jvm/out/jvm, which `rt run` builds, where nothing else is said.
"""
import argparse
import concurrent.futures
import os
import re
import subprocess
import sys
import tempfile
from typing import NamedTuple

BUILT = os.path.join(os.path.dirname(os.path.abspath(__file__)), "..", "crates", "jvm", "out", "jvm")
SHORT, LONG = 4_000, 24_000
# so many additions, of four rows each, stand in each loop, since a loop of very few rows is made otherwise than others
ADDITIONS = 3
ADDITION = "iload 0\niload 0\niadd\nistore 20"
STEP_LIMIT = 4  # the status of a run that its limit of steps ends
MODES = [(threads, gc) for threads in (1, 4) for gc in (0, 1)]

# locals: 0 an int, 2 a long, 4 an object of class C, 5 its monitor's like, 6 a Throwable; arrays by their letter; from 20 on what is popped
LOADS = {"I": "iload 0", "J": "lload 2", "A": "aload 4", "T": "aload 6", "N": "aload 7", "0": "iconst_0"}
STORES = {"I": "istore 20", "J": "lstore 22", "A": "astore 24"}
ARRAYS = {"b": 8, "c": 9, "s": 10, "i": 11, "l": 12, "a": 13}
LOADS.update({f"[{letter}": f"aload {number}" for letter, number in ARRAYS.items()})

TEXT = """.class public C
.super java/lang/Thread
.implements P
.field static i I
.field static l J
.field static a LC;
.field f I
.field g J
.field h LC;
.method public <init>()V
.limit stack 1
.limit locals 1
aload_0
invokespecial java/lang/Thread/<init>()V
return
.end method
.method public static nothing()V
.limit stack 0
.limit locals 0
return
.end method
.method public static int()I
.limit stack 1
.limit locals 0
iconst_1
ireturn
.end method
.method public static long()J
.limit stack 2
.limit locals 0
lconst_1
lreturn
.end method
.method public static null()LC;
.limit stack 1
.limit locals 0
aconst_null
areturn
.end method
.method public virtual()V
.limit stack 0
.limit locals 1
return
.end method
.method private special()V
.limit stack 0
.limit locals 1
return
.end method
.method public synchronized locked()V
.limit stack 0
.limit locals 1
return
.end method
.method public run()V
.limit stack 0
.limit locals 1
invokestatic C/loop()V
return
.end method
.method public static loop()V
.limit stack 12
.limit locals 30
iconst_1
istore 0
lconst_1
lstore 2
new C
dup
invokespecial C/<init>()V
astore 4
new java/lang/RuntimeException
dup
invokespecial java/lang/RuntimeException/<init>()V
astore 6
aconst_null
astore 7
{arrays}
Top:
{additions}
{body}
goto Top
{handler}
.end method
.method public static main()V
.limit stack 2
.limit locals 0
{starts}
invokestatic C/loop()V
return
.end method
"""
INTERFACE = """.interface public P
.super java/lang/Object
.method public abstract virtual()V
.end method
"""
START = "new C\ndup\ninvokespecial C/<init>()V\ninvokevirtual java/lang/Thread/start()V"
NEW_ARRAYS = {"b": "newarray byte", "c": "newarray char", "s": "newarray short", "i": "newarray int", "l": "newarray long", "a": "anewarray C"}


class Row(NamedTuple):
    """A row of the table: its name, what it pops and pushes, its lines, and how many rows of a run these are. Where it throws,
    the loop goes on in a handler, at which the exception is popped."""

    name: str
    pops: tuple
    pushes: tuple
    lines: str
    rows: int = 1
    throws: bool = False


def rows():
    """The instructions, each with its lines."""
    yield Row("nop", (), (), "nop")
    for word in ("iconst_1", "bipush 100", "sipush 1000", "ldc 100000", "ldc_w 100000"):
        yield Row(word, (), ("I",), word)
    for word in ("lconst_1", "ldc2_w 5", "ldc2_w 1000000000000"):
        yield Row(word, (), ("J",), word)
    yield Row("aconst_null", (), ("A",), "aconst_null")
    yield Row("iinc", (), (), "iinc 0 1")
    yield Row("iinc, wide", (), (), "iinc 0 1000")
    for word in "iadd isub imul idiv irem iand ior ixor ishl ishr iushr".split():
        yield Row(word, ("I", "I"), ("I",), word)
    for word in "ladd lsub lmul ldiv lrem land lor lxor".split():
        yield Row(word, ("J", "J"), ("J",), word)
    for word in "lshl lshr lushr".split():
        yield Row(word, ("J", "I"), ("J",), word)
    for word in "ineg i2b i2c i2s".split():
        yield Row(word, ("I",), ("I",), word)
    yield Row("lneg", ("J",), ("J",), "lneg")
    yield Row("i2l", ("I",), ("J",), "i2l")
    yield Row("l2i", ("J",), ("I",), "l2i")
    yield Row("lcmp", ("J", "J"), ("I",), "lcmp")
    for word, pops, pushes in (("pop", "I", ""), ("pop2", "II", ""), ("dup", "I", "II"), ("dup_x1", "II", "III"), ("dup_x2", "III", "IIII"),
                               ("dup2", "II", "IIII"), ("dup2_x1", "III", "IIIII"), ("dup2_x2", "IIII", "IIIIII"), ("swap", "II", "II"),
                               ("pop2", "J", ""), ("dup2", "J", "JJ"), ("dup2_x1", "IJ", "JIJ"), ("dup2_x2", "JJ", "JJJ"), ("dup_x2", "JI", "IJI")):
        name = f"{word}, a long" if "J" in pops else word
        yield Row(name, tuple(pops), tuple(pushes), word)
    for word in "ifeq ifne iflt ifge ifgt ifle".split():
        yield Row(word, ("I",), (), f"{word} Next\nNext:")
    for word in "if_icmpeq if_icmpne if_icmplt if_icmpge if_icmpgt if_icmple".split():
        yield Row(word, ("I", "I"), (), f"{word} Next\nNext:")
    for word in "if_acmpeq if_acmpne".split():
        yield Row(word, ("A", "A"), (), f"{word} Next\nNext:")
    for word in "ifnull ifnonnull".split():
        yield Row(word, ("A",), (), f"{word} Next\nNext:")
    yield Row("goto", (), (), "goto Next\nNext:")
    yield Row("goto_w", (), (), "goto_w Next\nNext:")
    yield Row("tableswitch", ("I",), (), "tableswitch 0\nNext\nNext\ndefault : Next\nNext:")
    yield Row("lookupswitch", ("I",), (), "lookupswitch\n1 : Next\n100 : Next\ndefault : Next\nNext:")
    for name, kind, descriptor in (("i", "I", "I"), ("l", "J", "J"), ("a", "A", "LC;")):
        yield Row(f"getstatic {descriptor}", (), (kind,), f"getstatic C/{name} {descriptor}")
        yield Row(f"putstatic {descriptor}", (kind,), (), f"putstatic C/{name} {descriptor}")
    for name, kind, descriptor in (("f", "I", "I"), ("g", "J", "J"), ("h", "A", "LC;")):
        yield Row(f"getfield {descriptor}", ("A",), (kind,), f"getfield C/{name} {descriptor}")
        yield Row(f"putfield {descriptor}", ("A", kind), (), f"putfield C/{name} {descriptor}")
    for letter in ARRAYS:
        kind = {"l": "J", "a": "A"}.get(letter, "I")
        yield Row(f"{letter}aload", (f"[{letter}", "0"), (kind,), f"{letter}aload")
        yield Row(f"{letter}astore", (f"[{letter}", "0", kind), (), f"{letter}astore")
    yield Row("arraylength", ("[i",), ("I",), "arraylength")
    yield Row("new", (), ("A",), "new C")
    yield Row("newarray int", ("I",), ("A",), "newarray int")
    yield Row("anewarray C", ("I",), ("A",), "anewarray C")
    yield Row("checkcast", ("A",), ("A",), "checkcast C")
    yield Row("instanceof", ("A",), ("I",), "instanceof C")
    yield Row("instanceof, an interface", ("A",), ("I",), "instanceof P")
    yield Row("athrow, and its catch", ("T",), (), "athrow", throws=True)
    yield Row("idiv by 0, and its catch", ("I", "0"), (), "idiv\npop", throws=True)
    yield Row("getfield of null, and its catch", ("N",), (), "getfield C/f I\npop", throws=True)
    yield Row("monitorenter, monitorexit", ("A", "A"), (), "monitorenter\nmonitorexit", rows=2)
    yield Row("invokestatic, return", (), (), "invokestatic C/nothing()V", rows=2)
    yield Row("invokestatic, iconst_1, ireturn", (), ("I",), "invokestatic C/int()I", rows=3)
    yield Row("invokestatic, lconst_1, lreturn", (), ("J",), "invokestatic C/long()J", rows=3)
    yield Row("invokestatic, aconst_null, areturn", (), ("A",), "invokestatic C/null()LC;", rows=3)
    yield Row("invokevirtual, return", ("A",), (), "invokevirtual C/virtual()V", rows=2)
    yield Row("invokespecial, return", ("A",), (), "invokespecial C/special()V", rows=2)
    yield Row("invokeinterface, return", ("A",), (), "invokeinterface P/virtual()V 1", rows=2)
    yield Row("invokevirtual synchronized, return", ("A",), (), "invokevirtual C/locked()V", rows=2)


EMPTY = Row("the additions alone", (), (), "")
PAIRS = [Row(f"a load and a store, {kind}", (kind,), (kind,), "", 0) for kind in STORES]


def body_of(row):
    """The lines of the loop, and of its handler."""
    pushed = [LOADS[kind] for kind in row.pops]
    popped = [STORES[kind] for kind in reversed(row.pushes)]
    lines = [*pushed, *filter(None, row.lines.split("\n")), *popped]
    if not row.throws:
        return lines, []
    return ["From:", *lines, "To:"], ["Caught:", "pop", "goto Top", ".catch all from From to To using Caught"]


def text_of(row, threads):
    lines, handler = body_of(row)
    arrays = [f"iconst_1\n{NEW_ARRAYS[letter]}\nastore {number}" for letter, number in ARRAYS.items()]
    starts = "\n".join([START] * (threads - 1)) or "nop"
    additions = "\n".join([ADDITION] * ADDITIONS)
    return TEXT.format(arrays="\n".join(arrays), additions=additions, body="\n".join(lines), handler="\n".join(handler), starts=starts)


def rows_of(row):
    """How many rows of a thread a round of the loop makes: the additions, its own, those that push and pop, and the way back."""
    own = row.rows if row.lines else 0
    return 4 * ADDITIONS + len(row.pops) + own + len(row.pushes) + (1 if row.throws else 0) + 1


def counted(words, room):
    ran = ["valgrind", "--tool=callgrind", f"--callgrind-out-file={room}/counts", *words]
    done = subprocess.run(ran, stdout=subprocess.DEVNULL, stderr=subprocess.PIPE, check=False)
    told = done.stderr.decode(errors="replace")
    if done.returncode != STEP_LIMIT:
        sys.exit(f"{' '.join(words)}: status {done.returncode}\n{told}")
    return int(re.search(r"Collected : (\d+)", told)[1])


def of_round(jvm, row, threads, gc):
    """The processor's instructions of one round of a row's loop."""
    with tempfile.TemporaryDirectory() as room:
        for name, text in (("C.j", text_of(row, threads)), ("P.j", INTERFACE)):
            with open(f"{room}/{name}", "w", encoding="utf-8") as file:
                file.write(text)
        words = [jvm, "run", "--gc", str(gc), "--small", "2000", "--medium", "100", f"{room}/C.j", f"{room}/P.j", "--steps"]
        few, many = (counted([*words, str(steps)], room) for steps in (SHORT, LONG))
    # with a collector's turn after each, half of the rows are threads'
    return (many - few) / ((LONG - SHORT) / (1 + gc)) * rows_of(row)


class Costs:
    """What rounds take in one mode, from which what their instructions take is reckoned."""

    def __init__(self, jvm, threads, gc):
        self.jvm, self.threads, self.gc = jvm, threads, gc
        self.empty = self.round(EMPTY)
        self.half = {row.pops[0]: (self.round(row) - self.empty) / 2 for row in PAIRS}

    def round(self, row):
        return of_round(self.jvm, row, self.threads, self.gc)

    def of(self, row):
        kinds = [kind if kind in self.half else "I" if kind == "0" else "A" for kind in (*row.pops, *row.pushes)]
        return self.round(row) - self.empty - sum(self.half[kind] for kind in kinds)


def main():
    parser = argparse.ArgumentParser(description=__doc__.split("\n")[0])
    parser.add_argument("--jvm", default=BUILT)
    parser.add_argument("--jobs", type=int, default=os.cpu_count() or 1)
    parser.add_argument("--markdown", action="store_true", help="the table as docs/SPEED.md has it")
    parser.add_argument("words", nargs="*", metavar="WORD")
    given = parser.parse_args()
    chosen = [row for row in rows() if not given.words or row.name.split()[0].rstrip(",") in given.words]
    heads = [f"{threads} thread{'s' if threads > 1 else ''}, --gc {gc}" for threads, gc in MODES]
    line = "| {:<36} | " + " | ".join(["{:>18}"] * len(MODES)) + " |" if given.markdown else "{:<36}" + "{:>20}" * len(MODES)
    print(line.format("instruction", *heads))
    if given.markdown:
        print("|---" * (1 + len(MODES)) + "|")
    with concurrent.futures.ThreadPoolExecutor(given.jobs) as pool:
        costs = list(pool.map(lambda mode: Costs(given.jvm, *mode), MODES))
        made = pool.map(lambda row: [it.of(row) for it in costs], chosen)
        for row, found in zip(chosen, made):
            print(line.format(row.name, *(f"{count:.0f}" for count in found)), flush=True)
    return 0


if __name__ == "__main__":
    sys.exit(main())
