"""Writes texts of many classes, for measuring how long a program takes to load.

Usage: classes.py N FOLDER [fields]

Each class has 250 static methods; with `fields` it has in their place 250 static fields, and a method that reads each field
of the class before it once (the first class reads those of the last). The first class has main besides, which returns at
once.
"""
import os
import sys

METHOD = ".method static %s()V\n.limit stack 0\n.limit locals 0\nreturn\n.end method\n"
HEAD = ".class C%d\n.super java/lang/Object\n"


def methods(number):
    names = ["m%d_%d" % (number, method) for method in range(250)] + ["main"] * (number == 0)
    return HEAD % number + "".join(METHOD % name for name in names)


def fields(number, count):
    declared = "".join(".field static f%d_%d I\n" % (number, field) for field in range(250))
    other = (number - 1) % count
    reads = "".join("getstatic C%d/f%d_%d I\npop\n" % (other, other, field) for field in range(250))
    main = METHOD % "main" if number == 0 else ""
    limits = ".method static reads()V\n.limit stack 1\n.limit locals 0\n"
    return HEAD % number + declared + main + limits + reads + "return\n.end method\n"


if len(sys.argv) not in (3, 4) or sys.argv[3:] not in ([], ["fields"]):
    sys.exit(__doc__)
count, folder = int(sys.argv[1]), sys.argv[2]
os.makedirs(folder, exist_ok=True)
for number in range(count):
    with open(os.path.join(folder, "C%03d.j" % number), "w") as file:
        file.write(fields(number, count) if sys.argv[3:] else methods(number))
