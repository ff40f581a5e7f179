"""Writes large Jasmin texts, for measuring `jvm asm` and `jvm dis`.

Usage: texts.py methods N | branches N | numbers N | switch N

methods: N methods of a loop each, with labels, a local, a call and a field. branches: one method of N branches to N labels
of their own. numbers: one method that loads N different numbers by ldc_w, in methods of 10,000. switch: a lookupswitch of N
keys, each with its label.
"""
import sys

HEAD = ".class public Large\n.super java/lang/Object\n"


def method(name, stack, local_count, lines):
    return [".method public static %s" % name, ".limit stack %d" % stack, ".limit locals %d" % local_count, *lines, ".end method"]


def methods(count):
    yield ".field static sum I"
    for n in range(count):
        loop = ["iconst_0", "istore_0", "Next:", "iload_0", "sipush %d" % (n % 30000), "if_icmpge Done", "getstatic Large/sum I"]
        loop += ["iload_0", "iadd", "putstatic Large/sum I", "iinc 0 1", "goto Next", "Done:"]
        loop += ["getstatic Large/sum I", "invokestatic vm/Sys/print(I)V", "return"]
        yield from method("m%d()V" % n, 2, 1, loop)


def branches(count):
    lines = []
    for n in range(count):
        lines += ["iconst_0", "ifeq L%d" % n, "L%d:" % n]
    yield from method("main()V", 1, 0, lines + ["return"])


def numbers(count):
    for first in range(0, count, 10000):
        lines = []
        for n in range(first, min(first + 10000, count)):
            lines += ["ldc_w %d" % (100000 + n), "pop"]
        yield from method("m%d()V" % first, 1, 0, lines + ["return"])


def switch(count):
    lines = ["iconst_0", "lookupswitch"] + ["%d : L%d" % (3 * n, n) for n in range(count)] + ["default : End"]
    for n in range(count):
        lines += ["L%d:" % n, "nop"]
    yield from method("main()V", 1, 0, lines + ["End:", "return"])


KINDS = dict(methods=methods, branches=branches, numbers=numbers, switch=switch)

if len(sys.argv) != 3 or sys.argv[1] not in KINDS:
    sys.exit(__doc__)
sys.stdout.write(HEAD + "\n".join(KINDS[sys.argv[1]](int(sys.argv[2]))) + "\n")
