#!/usr/bin/env python3
"""Writes a large class file, for measuring how reading and writing grow.

    class_files.py KIND N FILE

KIND is one of
    names    N classes in the pool, N interfaces and N times `new` in code, all of one name of 65,535 bytes
    pairs    N names and types in the pool, and N references to methods, all of one name of 60,000 bytes and a descriptor
             of 60,000 bytes
    methods  N methods of one name, whose code is a return
    code     N methods with 65,535 bytes of code: `getstatic`, `ldc`, `iadd`, `putstatic`, `goto` and a return
    pool     N texts in the pool, each with its class
    uses     N times `new` and `pop` of one class with a name of 65,535 bytes, 16,000 in a method
    fields   N fields, each with a name of its own
    statics  N static fields (21,000 at most, since each takes three entries of the pool), each with a name of its own and
             read three times by code, 16,000 reads in a method; the first method is main, which returns
    long     one static field with a name of 65,535 bytes, which code reads N times
"""
import struct
import sys


def u1(n):
    return struct.pack(">B", n)


def u2(n):
    return struct.pack(">H", n)


def u4(n):
    return struct.pack(">I", n)


class Pool:
    def __init__(self):
        self.entries = []

    def add(self, *parts):
        self.entries.append(b"".join(parts))
        return len(self.entries)

    def text(self, text):
        return self.add(u1(1), u2(len(text)), text)

    def class_of(self, text):
        return self.add(u1(7), u2(self.text(text)))

    def bytes(self):
        return u2(len(self.entries) + 1) + b"".join(self.entries)


def code(name, descriptor, attribute, body):
    """A static method with this code."""
    info = u2(2) + u2(0) + u4(len(body)) + body + u2(0) + u2(0)
    return u2(0x0009) + u2(name) + u2(descriptor) + u2(1) + u2(attribute) + u4(len(info)) + info


def class_file(pool, this, above, interfaces, fields, methods):
    return b"".join(
        [b"\xca\xfe\xba\xbe\x00\x00\x00\x31", pool.bytes(), u2(0x0021), u2(this), u2(above)]
        + [u2(len(interfaces))]
        + [u2(number) for number in interfaces]
        + [u2(len(fields))]
        + fields
        + [u2(len(methods))]
        + methods
        + [u2(0)]
    )


class Parts:
    """A class E over Object, to which a kind adds interfaces, fields and methods."""

    def __init__(self):
        self.pool = Pool()
        self.this = self.pool.class_of(b"E")
        self.above = self.pool.class_of(b"java/lang/Object")
        self.name, self.descriptor = self.pool.text(b"main"), self.pool.text(b"()V")
        self.attribute = self.pool.text(b"Code")
        self.interfaces, self.fields, self.methods = [], [], []

    def method(self, name, body):
        self.methods.append(code(name, self.descriptor, self.attribute, body))

    def bytes(self):
        return class_file(self.pool, self.this, self.above, self.interfaces, self.fields, self.methods)


def names(e, n):
    long = e.pool.text(b"a" * 65_535)
    first = e.pool.add(u1(7), u2(long))
    for _ in range(n - 1):
        e.pool.add(u1(7), u2(long))
    e.interfaces = [first] * n
    for start in range(0, n, 21_844):
        e.method(e.name, (b"\xbb" + u2(first)) * min(21_844, n - start) + b"\xb1")


def pairs(e, n):
    long = e.pool.text(b"m" * 60_000)
    kinds = e.pool.text(b"()" + b"[" * 3 + b"L" + b"c" * 59_993 + b";")
    pair = e.pool.add(u1(12), u2(long), u2(kinds))
    for _ in range(n - 1):
        e.pool.add(u1(12), u2(long), u2(kinds))
    for _ in range(n):
        e.pool.add(u1(10), u2(e.this), u2(pair))


def methods(e, n):
    for _ in range(n):
        e.method(e.name, b"\xb1")


def long_code(e, n):
    seven = e.pool.add(u1(3), u4(7))
    x = e.pool.add(u1(12), u2(e.pool.text(b"x")), u2(e.pool.text(b"I")))
    field = e.pool.add(u1(9), u2(e.this), u2(x))
    block = b"\xb2" + u2(field) + b"\x13" + u2(seven) + b"\x60" + b"\xb3" + u2(field) + b"\xa7\x00\x03"
    body = block * (65_534 // len(block))
    body = body + b"\x00" * (65_534 - len(body)) + b"\xb1"
    for _ in range(n):
        e.method(e.name, body)


def pool(e, n):
    for number in range(n):
        e.pool.class_of(b"some/package/C%d" % number)


def uses(e, n):
    used = e.pool.class_of(b"a" * 65_535)
    for start in range(0, n, 16_000):
        body = (b"\xbb" + u2(used) + b"\x57") * min(16_000, n - start) + b"\xb1"
        e.method(e.pool.text(b"m%d" % len(e.methods)), body)


def fields(e, n):
    kind = e.pool.text(b"I")
    for number in range(n):
        e.fields.append(u2(0x0008) + u2(e.pool.text(b"f%d" % number)) + u2(kind) + u2(0))


def read(e, numbers):
    """A main that returns, and methods that read the static fields of these numbers, 16,000 reads in a method."""
    e.method(e.name, b"\xb1")
    for start in range(0, len(numbers), 16_000):
        body = b"".join(b"\xb2" + u2(field) + b"\x57" for field in numbers[start : start + 16_000]) + b"\xb1"
        e.method(e.pool.text(b"m%d" % len(e.methods)), body)


def static(e, name, kind):
    """A static field: the number of a reference to it."""
    name = e.pool.text(name)
    e.fields.append(u2(0x0008) + u2(name) + u2(kind) + u2(0))
    return e.pool.add(u1(9), u2(e.this), u2(e.pool.add(u1(12), u2(name), u2(kind))))


def statics(e, n):
    kind = e.pool.text(b"I")
    read(e, [static(e, b"f%d" % number, kind) for number in range(n)] * 3)


def long(e, n):
    read(e, [static(e, b"a" * 65_535, e.pool.text(b"I"))] * n)


KINDS = {
    "names": names,
    "pairs": pairs,
    "methods": methods,
    "code": long_code,
    "pool": pool,
    "uses": uses,
    "fields": fields,
    "statics": statics,
    "long": long,
}


if len(sys.argv) != 4 or sys.argv[1] not in KINDS:
    raise SystemExit(__doc__)
parts = Parts()
KINDS[sys.argv[1]](parts, int(sys.argv[2]))
with open(sys.argv[3], "wb") as file:
    file.write(parts.bytes())
