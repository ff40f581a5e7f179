"""The programs of bench.py: by name the members, a unit of the work, whose number is i, and what it takes.

The first six are what the machine was made quick for. The others are of kinds that users will meet; nothing is tuned to one of them.
"""
from typing import NamedTuple

OURS, ONE_THREAD, FOUR_THREADS = "ours", "one thread", "four threads"


class Program(NamedTuple):
    """A program: its group, its members, a unit of its work, and how many objects a unit makes at most."""

    group: str
    members: str
    unit: str
    objects: int = 0


PROGRAMS = {
    "int loop": Program(OURS, "", "for (int k = 0; k < 100; k++) { s = s * 31 + k ^ s >>> 3; if ((s & 1) == 0) s += i; }"),
    "long arithmetic": Program(
        OURS,
        "static long l = 1;",
        "long x = l; for (int k = 0; k < 100; k++) { x = x * 31L + i ^ x >>> 3; if ((x & 1L) == 0L) x += i; } l = x; s = (int) l;",
    ),
    "sieve": Program(
        OURS,
        """static byte[] sieve = new byte[240];
    static int primes() {
        byte[] passed = sieve; int count = 0;
        for (int n = 0; n < 240; n++) passed[n] = 0;
        for (int n = 2; n < 240; n++) {
            if (passed[n] == 0) { count++; for (int m = n + n; m < 240; m += n) passed[m] = 1; }
        }
        return count;
    }""",
        "s += primes();",
    ),
    "recursion": Program(OURS, "static int fib(int n) { return n < 2 ? n : fib(n - 1) + fib(n - 2); }", "s += fib(12);"),
    "dispatch": Program(
        OURS,
        """interface Shape { int area(int x); }
    static class Square implements Shape { public int area(int x) { return x * x; } }
    static class Strip implements Shape { public int area(int x) { return x; } }
    static class Twice extends Strip { public int area(int x) { return x + x; } }
    static Square square = new Square(); static Strip strip = new Strip(); static Twice twice = new Twice();
    static int both(Shape a, Strip b, int x) { return a.area(x) + b.area(x); }""",
        """Square a = square; Strip b = strip; Twice c = twice;
        for (int k = 0; k < 100; k++) s += both(a, c, k) + both(b, b, k) + both(c, c, k);""",
    ),
    "allocation": Program(
        OURS,
        "static class Node { Node next; int value; Node(Node next, int value) { this.next = next; this.value = value; } }",
        """Node list = null; for (int k = 0; k < 8; k++) list = new Node(list, k);
        while (list != null) { s += list.value; list = list.next; }""",
        8,
    ),
    "trees": Program(
        ONE_THREAD,
        """static class Tree { Tree left, right; int key; Tree(int key) { this.key = key; } }
    static Tree put(Tree at, int key) {
        if (at == null) return new Tree(key);
        if (key < at.key) at.left = put(at.left, key); else if (key > at.key) at.right = put(at.right, key);
        return at;
    }
    static int sum(Tree at) { return at == null ? 0 : at.key + sum(at.left) + sum(at.right); }""",
        "Tree root = null; int key = i; for (int k = 0; k < 12; k++) { key = key * 37 + 11 & 255; root = put(root, key); } s += sum(root);",
        12,
    ),
    "exceptions": Program(
        ONE_THREAD,
        """static class Odd extends RuntimeException { int at; Odd(int at) { this.at = at; } }
    static int deep(int n, int k) { if (n == 0) { if ((k & 1) == 1) throw new Odd(k); return k; } return deep(n - 1, k) + 1; }""",
        """for (int k = 0; k < 20; k++) {
            try { s += deep(4, k); } catch (Odd odd) { s -= odd.at; }
            try { s += s / (k & 3); } catch (ArithmeticException none) { s++; } finally { s ^= k; }
        }""",
        # an exception is made for every other k, and one by the machine for every fourth
        15,
    ),
    "interfaces and casts": Program(
        ONE_THREAD,
        """interface Visitor { int visit(Object it); }
    static class Count implements Visitor {
        public int visit(Object it) { return it instanceof Count ? 1 : it instanceof int[] ? ((int[]) it).length : ((Leaf) it).size(); }
    }
    static class Leaf { int size; Leaf(int size) { this.size = size; } int size() { return size; } }
    static Object[] all = { new Count(), new int[3], new Leaf(5), new int[7], new Leaf(9) }; static Visitor visitor = new Count();""",
        "Visitor v = visitor; for (int k = 0; k < 20; k++) for (int n = 0; n < all.length; n++) s += v.visit(all[n]);",
    ),
    "synchronized method": Program(
        ONE_THREAD,
        "int n; synchronized int next(int k) { n += k; return n; } static Bench one = new Bench();",
        "Bench it = one; for (int k = 0; k < 50; k++) s += it.next(k);",
    ),
    "synchronized block": Program(
        ONE_THREAD,
        "static Object lock = new Object();",
        "Object it = lock; for (int k = 0; k < 50; k++) { synchronized (it) { s += k; } s ^= s << 1; }",
    ),
    "long and static fields": Program(
        ONE_THREAD,
        "static long total; static int steps; long own; static Bench one = new Bench();",
        "Bench it = one; for (int k = 0; k < 50; k++) { it.own += k; total ^= it.own; steps++; s += steps; } s += (int) total;",
    ),
    "long constants": Program(
        ONE_THREAD,
        "static long seed = 1;",
        "long x = seed; for (int k = 0; k < 50; k++) { x = x * 6364136223846793005L + 1442695040888963407L; s += (int) (x >>> 33); } seed = x;",
    ),
    "long arrays": Program(
        ONE_THREAD,
        "static long[] sums = new long[64];",
        "long[] it = sums; for (int k = 1; k < 64; k++) it[k] = it[k - 1] + (k ^ i); s += (int) it[63];",
    ),
    "sorting": Program(
        ONE_THREAD,
        """static class Item { int key; Item(int key) { this.key = key; } int compareTo(Item other) { return key - other.key; } }
    static Item[] items = new Item[24];
    static { for (int k = 0; k < items.length; k++) items[k] = new Item(k * 37 % 24); }
    static void sort(Item[] it) {
        for (int k = 1; k < it.length; k++) {
            Item held = it[k]; int at = k;
            while (at > 0 && it[at - 1].compareTo(held) > 0) { it[at] = it[at - 1]; at--; }
            it[at] = held;
        }
    }""",
        "for (int k = 0; k < items.length; k++) items[k].key = (items[k].key * 5 + i) % 24; sort(items); s += items[i % 24].key;",
    ),
    "byte strings": Program(
        ONE_THREAD,
        """static byte[] text = new byte[64]; static byte[] other = new byte[64];
    static int hash(byte[] it) { int h = 0; for (int k = 0; k < it.length; k++) h = h * 31 + it[k]; return h; }
    static int same(byte[] a, byte[] b) { for (int k = 0; k < a.length; k++) if (a[k] != b[k]) return 0; return 1; }
    static void copy(byte[] from, byte[] to) { for (int k = 0; k < from.length; k++) to[k] = from[k]; }""",
        "text[i & 63] = (byte) i; copy(text, other); if (same(text, other) == 1) s += hash(other);",
    ),
    "switches": Program(
        ONE_THREAD,
        """static int act(int op, int x) {
        switch (op) { case 0: return x + 1; case 1: return x * 3; case 2: return x ^ 5; case 3: return -x; default: return x; }
    }
    static int rare(int op, int x) { switch (op) { case 10: return x + 2; case 500: return x - 2; case 9000: return x ^ 9; default: return x; } }""",
        "for (int k = 0; k < 30; k++) s = rare(k * 25, act(k & 7, s));",
    ),
    "four int loops": Program(FOUR_THREADS, "", "for (int k = 0; k < 100; k++) { s = s * 31 + k ^ s >>> 3; if ((s & 1) == 0) s += i; }"),
    "four with calls": Program(
        FOUR_THREADS, "static int fib(int n) { return n < 2 ? n : fib(n - 1) + fib(n - 2); }", "s += fib(10);"
    ),
    "four with fields and arrays": Program(
        FOUR_THREADS,
        "static class Cell { int n; int[] of = new int[16]; }",
        "Cell it = new Cell(); for (int k = 0; k < 50; k++) { it.n += k; it.of[k & 15] += it.n; s += it.of[k + 3 & 15]; }",
        2,
    ),
    "four and one lock": Program(
        FOUR_THREADS,
        "static Object lock = new Object(); static int shared;",
        "for (int k = 0; k < 20; k++) { synchronized (lock) { shared++; } s += k ^ i; }",
    ),
    "four with garbage": Program(
        FOUR_THREADS,
        "static class Node { Node next; int value; Node(Node next, int value) { this.next = next; this.value = value; } }",
        """Node list = null; for (int k = 0; k < 8; k++) list = new Node(list, k);
        while (list != null) { s += list.value; list = list.next; }""",
        8,
    ),
}

ALONE = """public class Bench {
    %s
    static int s = 1;
    static void units(int n) { for (int i = 0; i < n; i++) unit(i); }
    static void unit(int i) { int s = Bench.s; %s Bench.s = s; }
    static void main() { units(%d); vm.Sys.print(s); }
}
"""

# four threads that work while main waits for them; each prints nothing, and what main prints hangs on no order of theirs
TOGETHER = """public class Bench extends Thread {
    %s
    int s = 1, n;
    Bench(int n) { this.n = n; }
    static int unit(int i, int s) { %s return s; }
    public void run() { for (int i = 0; i < n; i++) s = unit(i, s); }
    static void main() throws InterruptedException {
        Bench[] all = new Bench[4];
        for (int k = 0; k < 4; k++) { all[k] = new Bench(%d); all[k].start(); }
        int s = 0;
        for (int k = 0; k < 4; k++) { all[k].join(); s += all[k].s; }
        vm.Sys.print(s);
    }
}
"""


def source(program, units):
    """The text of class Bench that does so many units, in four threads so many each."""
    return (TOGETHER if program.group == FOUR_THREADS else ALONE) % (program.members, program.unit, units)
