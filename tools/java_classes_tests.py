#!/usr/bin/env python3
"""Tries tools/java_classes.py on small Java sources: those that fit, and one or more for each of its messages.

    tools/java_classes_tests.py [--jvm PROGRAM] [--javac PROGRAM] [NAME ..]

A source that fits is written with no message; what it prints on `java` stands here, and with --jvm `jvm run` has to print
it too. Of one that doesn't fit the messages stand here, each whole, and with --jvm the machine has to refuse its classes,
but for those that only name a class that isn't there. NAME chooses among the sources. The last line is 'N passed, M failed'.
"""
import argparse
import os
import shlex
import subprocess
import sys
import tempfile

from java_agrees import BEGIN
from java_classes import SYS, Program, compiled

TOOL = os.path.join(os.path.dirname(os.path.abspath(__file__)), "java_classes.py")
LAST = "nothing is written: docs/JAVA.md tells which Java runs\n"

MANY = "".join(f"static class C{n} {{ public int hashCode() {{ return 5; }} }} " for n in range(255))
# name, the members of Main, and what it prints
FIT = [
    ("plain", "static void main() { vm.Sys.print(1); vm.Sys.printl(1L << 40); vm.Sys.putc(65); }", "1\n1099511627776\nA"),
    ("imported", "static void main() { print(2); }", "2\n"),
    ("locals of type boolean", "static void main() { boolean b = 1 < 2; b &= !b | true; if (b) print(3); }", "3\n"),
    ("main of java beside main", "public static void main(String[] a) { main(); } static void main() { print(4); }", "4\n"),
    (
        "members of inner classes",
        "private int n = 5; class In { private int k = n++; } In in() { return new In(); }"
        " static void main() { Main m = new Main(); print(m.in().k); print(m.n); }",
        "5\n6\n",
    ),
    (
        "private constructors and statics of nested classes",
        "private static int s = 1; static class In { private In() { s += 6; } }"
        " static void main() { new In(); s++; print(s); }",
        "8\n",
    ),
    (
        "anonymous and local classes, and what they keep",
        "interface F { int on(int a); } static void main() { final int k = 3; final int[] c = {4};"
        " F f = new F() { public int on(int a) { return a * k + c[0]; } }; class L { int f() { return c[0] - k; } }"
        " print(f.on(10)); print(new L().f()); }",
        "34\n1\n",
    ),
    (
        "generics with a bridge",
        "static class Box<T> { T it; Box(T t) { it = t; } T get() { return it; } }"
        " static class Own extends Box<Main> { Own(Main m) { super(m); } Main get() { n++; return it; } } static int n;"
        " static void main() { Box<Main> b = new Own(new Main()); print(b.get() == null ? 0 : n); }",
        "1\n",
    ),
    (
        "varargs, strictfp and for each",
        "static strictfp int sum(int... all) { int s = 0; for (int a : all) s += a; return s; }"
        " static void main() { print(sum()); print(sum(1, 2, 3)); }",
        "0\n6\n",
    ),
    ("constants of an interface", "interface I { int A = 6; long B = A + 1L; } static void main() { printl(I.A * I.B); }", "42\n"),
    ("two files", "static void main() { print(new Other().seven()); }", "7\n"),
    ("both switches", "static void main() { for (int i = 0; i < 4; i++) print(Other.dense(i) + Other.sparse(i * 999)); }", "2\n1\n3\n9\n"),
    (
        "threads",
        "static int n; static class T extends Thread { public void run() { synchronized (lock) { n += 5; } } }"
        " static final Object lock = new Object(); static void main() throws InterruptedException {"
        " T a = new T(), b = new T(); a.start(); b.start(); a.join(); b.join(); print(n); }",
        "10\n",
    ),
    (
        "exceptions with numbers",
        "static class No extends Exception { int n; No(int n) { this.n = n; } }"
        " static void main() { try { throw new No(8); } catch (No e) { print(e.n); } finally { print(9); } }",
        "8\n9\n",
    ),
    (
        "a method of its own named like one of Object",
        "public int hashCode() { return 11; } static void main() { print(new Main().hashCode()); }",
        "11\n",
    ),
    ("as many classes as there may be", MANY + "static void main() { print(new C254().hashCode()); }", "5\n"),
    ("as many fields as there may be", "int " + ", ".join(f"f{n}" for n in range(256)) + "; static void main() { print(new Main().f255); }", "0\n"),
    ("grids, row by row", "static void main() { int[][] g = {{1, 2}, new int[3]}; print(g[0][1] + g[1].length); }", "5\n"),
]
OTHER = """public class Other {
    int seven() { return 7; }
    static int dense(int n) { switch (n) { case 0: return 2; case 1: return 1; case 2: return 3; default: return 9; } }
    static int sparse(int n) { switch (n) { case 100000: return 1; case -5: return 2; default: return 0; } }
}
"""

# name, the members of Main, the first of them in line 3, and the messages; none of them has a main but those that say so
MAIN = "static void main() { }"
PRINTS = "print with vm.Sys.print(int), printl(long) or putc(int)"
UNFIT = [
    (
        "println",
        "static void main() {\nint i = 2;\nSystem.out.println(1);\nSystem.out.println(i);\n}",
        [f"Main.main, lines 5, 6: java/lang/System isn't part of this machine; {PRINTS}"],
    ),
    (
        "strings",
        MAIN + "\nstatic class Account {\nString name;\nvoid call() {\nname = \"a\";\n}\n}",
        [
            "Main$Account.name: java/lang/String isn't part of this machine",
            "Main$Account.call, line 7: java/lang/String isn't part of this machine",
        ],
    ),
    ("a constant string", MAIN + "static final String S = \"s\";", ["Main.S: java/lang/String isn't part of this machine"]),
    (
        "concatenation",
        "static void main() { }\nstatic Object f(int n) {\nreturn \"n\" + n;\n}",
        [
            "Main.f, line 5: string concatenation (javac makes java/lang/StringBuilder of it)",
            "Main.f, line 5: java/lang/String isn't part of this machine",
        ],
    ),
    (
        "a switch on strings",
        MAIN + "\nstatic int f(String s) {\nswitch (s) { case \"a\": return 1; default: return 2; }\n}",
        [
            "Main.f, line 5: java/lang/String isn't part of this machine",
            "Main.f, line 5: a switch on strings (javac makes String.hashCode and equals of it)",
        ],
    ),
    (
        "floating point",
        MAIN + "\nstatic class Account {\ndouble rate;\nint f(int n) {\nreturn (int) (n * 1.5f);\n}\nfloat g() { return 0; }\n}",
        [
            "Main$Account.rate: float and double aren't part of this machine",
            "Main$Account.f, line 7: float and double aren't part of this machine",
            "Main$Account.g, line 9: float and double aren't part of this machine",
        ],
    ),
    (
        "floating point in a local alone",
        "static void main() {\nlong a = 5;\na *= 1.5;\ndouble[] d = new double[2];\n}",
        ["Main.main, lines 5, 6: float and double aren't part of this machine"],
    ),
    (
        "a local of an array that is only null",
        "static void main() { boolean[] b = null; for (int i = 0; i < 2; i++) print(i); }",
        ["Main: a local of it is an array of boolean, float or double, which aren't part of this machine"],
    ),
    (
        "booleans",
        MAIN + "\nboolean done;\nstatic final boolean YES = true;\nstatic boolean[] all;\nstatic boolean f() { return true; }"
        "\nvoid g(boolean b) { f(); }\nint[] h() { boolean[] b = {true}; return null; }",
        [
            "Main.done: boolean fields aren't part of this machine; write int",
            "Main.YES: boolean fields aren't part of this machine; write int",
            "Main.all: boolean arrays aren't part of this machine; write byte[]",
            "Main.f, line 7: boolean arguments and results aren't part of this machine; write int",
            "Main.g, line 8: boolean arguments and results aren't part of this machine; write int",
            "Main.h, line 9: boolean arrays aren't part of this machine; write byte[]",
        ],
    ),
    (
        "a lambda and a method reference",
        MAIN + "\ninterface F { int on(int a); }\nstatic F f() {\nreturn a -> a + 1;\n}\nstatic F g = Main::h;\n"
        "static int h(int n) { return n; }",
        [
            "Main.f, line 6: lambdas and method references (javac makes invokedynamic of them); write a class",
            "Main, static initializer, line 8: lambdas and method references (javac makes invokedynamic of them); write a class",
        ],
    ),
    (
        "an enum, whose uses aren't told besides",
        MAIN + "\nenum Colour { RED, BLUE { int n() { return 2; } }; int n() { return 1; } }\nstatic int f(Colour c) {"
        "\nreturn c.ordinal() + Colour.values().length;\n}",
        ["Main$Colour: enums aren't part of this machine; write static final int constants"],
    ),
    (
        "a switch on an enum",
        MAIN + "\nstatic int f(Thread.State s) {\nswitch (s) { case NEW: return 1; default: return 2; }\n}",
        [
            "Main.f, line 5: java/lang/Thread$State isn't part of this machine",
            "Main$1: a switch on an enum (javac makes this class of it)",
        ],
    ),
    (
        "assertions",
        MAIN + "\nstatic void f(int n) {\nassert n > 0;\n}",
        ["Main.f, line 5: assertions (javac makes java/lang/AssertionError and java/lang/Class of them)"],
    ),
    (
        "an array of arrays in one go",
        MAIN + "\nstatic int[][] f() {\nreturn new int[2][3];\n}",
        ["Main.f, line 5: new with two or more sizes (javac makes multianewarray of it); make each row by itself"],
    ),
    (
        "class literals",
        MAIN + "\nstatic void f() {\nsynchronized (Main.class) { }\n}",
        ["Main.f, line 5: class literals aren't part of this machine"],
    ),
    (
        "boxing",
        MAIN + "\nstatic Object f(int n) {\nInteger i = n;\nreturn i + 1 > 2 ? i : null;\n}\nstatic int g() {"
        "\nreturn Math.max(Integer.parseInt(null), 3);\n}",
        [
            "Main.f, line 5: boxing (javac makes java/lang/Integer.valueOf of it)",
            "Main.f, line 6: boxing (javac makes java/lang/Integer.intValue of it)",
            "Main.g, line 9: java/lang/Integer isn't part of this machine",
            "Main.g, line 9: java/lang/Math isn't part of this machine",
        ],
    ),
    (
        "methods that can't be",
        MAIN + "\nnative void f();\nstatic synchronized void g() {\n}\nstatic class T extends Thread {\n"
        "public synchronized void run() {\n}\n}",
        [
            "Main.f: native methods aren't part of this machine",
            "Main.g, line 6: a static method can't be synchronized on this machine; lock an object in it",
            "Main$T.run, line 9: a thread's run() can't be synchronized on this machine; lock an object in it",
        ],
    ),
    (
        "interfaces with code",
        MAIN + "\ninterface I {\nObject LOCK = new Object();\ndefault int f() {\nreturn 1;\n}\n"
        "static int g() {\nreturn 2;\n}\n}",
        [
            "Main$I.f, line 7: a method of an interface has no body on this machine",
            "Main$I.g, line 10: a method of an interface has no body on this machine",
            "Main$I, static initializer, line 5: an interface's fields are constants on this machine; keep others in a class",
        ],
    ),
    (
        "main of java alone",
        "public static void main(String[] args) { }",
        ["Main.main: a program begins in `static void main()`, without arguments"],
    ),
    ("main that isn't static", "void main() { }", ["Main.main: a program begins in `static void main()`, without arguments"]),
    ("no main", "static int n;", ["Main: a program begins in `static void main()`, without arguments"]),
    (
        "a Runnable, and threads of it",
        MAIN + "\nstatic class R implements Runnable { public void run() { } }\nstatic void f() {\nnew Thread(new R()).start();"
        "\ntry {\nThread.sleep(5);\n} catch (InterruptedException e) {\n}\n}",
        [
            "Main.f, line 6: java/lang/Thread has no constructor with arguments on this machine",
            "Main.f, line 8: java/lang/Thread.sleep isn't part of this machine",
            "Main.f, line 8: java/lang/InterruptedException isn't part of this machine; catch Exception",
            "Main$R: java/lang/Runnable isn't part of this machine; extend java.lang.Thread",
        ],
    ),
    (
        "methods of Object, of an exception and of an array",
        MAIN + "\nstatic int f(Object o, Main m, int[] a) {\nreturn o.hashCode() + m.hashCode();\n}\nstatic Object g(int[] a) {"
        "\nreturn a.clone();\n}\nstatic void h(Main m) {\nthrow new RuntimeException(new Error());\n}",
        [
            "Main.f, line 5: java/lang/Object.hashCode isn't part of this machine",
            "Main.g, line 8: arrays have no method clone here; copy the elements",
            "Main.h, line 11: java/lang/RuntimeException has no constructor with arguments on this machine",
        ],
    ),
    (
        "private booleans of another class, and a lambda with one",
        MAIN + "\nstatic class In { private boolean b; }\nstatic void f(In i) {\ni.b = !i.b;\n}\ninterface P { boolean p(In i); }"
        "\nstatic P p() { return i -> i.b; }",
        [
            "Main.p, line 9: lambdas and method references (javac makes invokedynamic of them); write a class",
            "Main$In.b: boolean fields aren't part of this machine; write int",
            "Main$P.p: boolean arguments and results aren't part of this machine; write int",
        ],
    ),
    (
        "what a thread lacks that has an interface too",
        MAIN + "\ninterface I { }\nstatic class T extends Thread implements I { }\nstatic void f(T t) {\nt.interrupt();\n}",
        ["Main.f, line 7: java/lang/Thread.interrupt isn't part of this machine"],
    ),
    (
        "an inner class made of another object",
        MAIN + "\nclass In { int n = k; }\nint k;\nstatic In f(Main m) {\nreturn m.new In();\n}",
        ["Main.f, line 7: java/util/Objects isn't part of this machine (javac makes requireNonNull of outer.new Inner())"],
    ),
    (
        "names and casts of classes that aren't there",
        MAIN + "\nstatic Comparable<Main> c;\nstatic int f(Object o) {\nreturn o instanceof Number[] ? 1 : 0;\n}"
        "\nstatic Object g(Object o) {\nreturn new java.util.ArrayList[3];\n}",
        [
            "Main.c: java/lang/Comparable isn't part of this machine",
            "Main.f, line 6: java/lang/Number isn't part of this machine",
            "Main.g, line 9: java/util/ArrayList isn't part of this machine",
        ],
    ),
    (
        "arrays of booleans and floats, named by instructions",
        MAIN + "\nstatic Object f(Object o) {\nreturn o instanceof boolean[] ? new float[3][] : null;\n}",
        [
            "Main.f, line 5: boolean arrays aren't part of this machine; write byte[]",
            "Main.f, line 5: float and double aren't part of this machine",
        ],
    ),
    (
        "a method that exceptions lack",
        MAIN + "\nstatic void f() throws Throwable {\nthrow new Error().initCause(null);\n}",
        ["Main.f, line 5: java/lang/Error.initCause isn't part of this machine"],
    ),
    (
        "a resource that is closed",
        MAIN + "\nstatic class R implements AutoCloseable {\npublic void close() { }\n}\nstatic void f() {\n"
        "try (R r = new R()) {\nprint(1);\n}\n}",
        [
            "Main.f, line 8: try with resources (javac makes Throwable.addSuppressed of it); close in a finally",
            "Main$R: java/lang/AutoCloseable isn't part of this machine",
        ],
    ),
    (
        "other methods of System",
        MAIN + "\nstatic long f() {\nreturn System.nanoTime();\n}",
        ["Main.f, line 5: java/lang/System isn't part of this machine"],
    ),
    ("letters", MAIN + "int gr\u00f6\u00dfe;", ["Main.gr\u00f6\u00dfe: a name or an annotation has letters that aren't ASCII"]),
    (
        "too many fields",
        MAIN + "\nint " + ", ".join(f"f{n}" for n in range(257)) + ";",
        ["Main: an object has at most 256 fields on this machine"],
    ),
    (
        "too many classes",
        MAIN + "\n" + " ".join(f"static class C{n} {{ }}" for n in range(256)),
        ["Main: a program has at most 256 classes on this machine"],
    ),
    (
        "too many locals",
        MAIN + "\nstatic int f() {\nint " + ", ".join(f"i{n} = {n}" for n in range(4096)) + ";\nreturn i4095;\n}",
        ["Main.f, line 5: a method has at most 4,096 locals and values on its stack on this machine"],
    ),
]
# what only the tool tells of: the machine doesn't look for a class that a descriptor names
NAMED_ALONE = ("a class in a descriptor alone", MAIN + "\nRunnable r;", ["Main.r: java/lang/Runnable isn't part of this machine; extend java.lang.Thread"])


def in_room(room, members):
    """Writes a test's sources into a folder, and gives their paths."""
    texts = {"Main": f"import static vm.Sys.*;\npublic class Main {{\n{members}\n}}\n"}
    if "Other." in members or "Other(" in members:
        texts["Other"] = OTHER
    for name, text in texts.items():
        with open(os.path.join(room, f"{name}.java"), "w", encoding="utf-8") as file:
            file.write(text)
    return [os.path.join(room, "Main.java")]


def shown(words):
    done = subprocess.run(words, stdout=subprocess.PIPE, stderr=subprocess.PIPE, timeout=120, check=False)
    return done.stdout.decode(), done.stderr.decode(), done.returncode


def compile_begin(folder):
    """Compiles into a folder what `java` needs besides the classes of a test."""
    for name, text in {"Begin": BEGIN % "Main", "Sys": SYS, "Main": "class Main { static void main() { } }"}.items():
        with open(os.path.join(folder, f"{name}.java"), "w", encoding="ascii") as file:
            file.write(text)
    subprocess.run(["javac", "-d", ".", "Begin.java", "Sys.java", "Main.java"], cwd=folder, check=True)


def differs(got, prints):
    """How a run differs from one that prints this and ends well, or nothing."""
    return None if got == (prints, "", 0) else f"printed {got[0]!r}, {got[1]!r}, status {got[2]}, and not {prints!r}"


def tried_fit(tests, jvm, javac):
    """What was tried of sources that fit, each with what is wrong, or nothing."""
    with tempfile.TemporaryDirectory() as begin:
        compile_begin(begin)
        for name, members, prints in tests:
            with tempfile.TemporaryDirectory() as room:
                out = os.path.join(room, "out")
                said, errors, status = shown([TOOL, "--javac", javac, out, *in_room(room, members)])
                words = shlex.split(said)
                right = words[1:3] == ["run", os.path.join(out, "Main.class")] and not os.path.exists(os.path.join(out, "vm"))
                yield name, None if right and not errors and status == 0 else f"{said}{errors}status {status}"
                yield f"{name}, on java", differs(shown(["java", "-cp", f"{out}:{begin}", "Begin"]), prints)
                if jvm:
                    yield f"{name}, on the machine", differs(shown([jvm, *words[1:]]), prints)


def tried_unfit(tests, jvm, javac):
    """The same of those that don't fit."""
    for name, members, messages in tests:
        with tempfile.TemporaryDirectory() as room:
            out, sources = os.path.join(room, "out"), in_room(room, members)
            got = shown([TOOL, "--javac", javac, out, *sources])
            wanted = ("", "".join(f"{it}\n" for it in messages) + LAST, 1)
            yield name, None if got == wanted and not os.path.exists(out) else f"{got[0]}{got[1]}status {got[2]}"
            if jvm:
                said, errors, status = shown([jvm, "run", *unfit_classes(room, sources, javac)])
                refused = status == 2 and not said
                yield f"{name}, on the machine", None if refused != (name == NAMED_ALONE[0]) else f"status {status}: {errors}"


def unfit_classes(room, sources, javac):
    """Writes the class files as if they fitted, and gives their paths, main's first."""
    paths = []
    for name, own in Program(compiled(sources, javac)[0]).classes.items():
        paths.append(os.path.join(room, f"{name}.class"))
        with open(paths[-1], "wb") as file:
            file.write(own.for_the_machine())
    return paths


# a javac 8, as far as it can be had: it takes no --release, and its four words for it mean the same
EIGHT = """case "$1" in
-version) echo javac 1.8.0_402 >&2;;
--release) echo invalid flag: --release; exit 2;;
*) test "$1 $2 $3 $4" = "-source 8 -target 8" || exit 2; shift 4; exec %s --release 8 "$@";;
esac"""


def command(path, text):
    """Writes a program that stands for javac, and gives its path."""
    with open(path, "w", encoding="ascii") as file:
        file.write(f"#!/bin/sh\n{text}\n")
    os.chmod(path, 0o755)
    return path


def tried_refusals(javac):
    """What was tried of command lines and of compilers, each with what is wrong, or nothing."""
    with tempfile.TemporaryDirectory() as room:
        (source,), out = in_room(room, MAIN), os.path.join(room, "out")
        old = command(f"{room}/old", 'case "$*" in -version) echo javac 1.7.0_80 >&2;; *) exit 2;; esac')
        eight = command(f"{room}/eight", EIGHT % javac)
        new = command(f"{room}/new", 'case "$*" in -version) echo javac 29;; *) exit 2;; esac')
        with open(f"{room}/Wrong.java", "w", encoding="ascii") as file:
            file.write("class Wrong {\n    static void main() { prin(1); }\n}\n")
        rows = [
            ("no javac", ["--javac", "/no/javac", out, source], "java_classes: there is no /no/javac: install a JDK, from 8 to 25\n"),
            ("an old javac", ["--javac", old, out, source], "java_classes: javac 7 is too old: take one from 8 to 25\n"),
            ("a new javac", ["--javac", new, out, source], "java_classes: javac 29 compiles nothing for release 8: take one from 8 to 25\n"),
            ("what javac refuses", ["--javac", javac, out, f"{room}/Wrong.java"], "Wrong.java:2: error: cannot find symbol"),
            ("no file", ["--javac", javac, out, f"{room}/None.java"], "error: file not found"),
            ("no folder", [source], "the following arguments are required: FILE.java"),
            ("the folder last", [source, out], "the folder OUT comes first"),
            ("a folder that can't be", ["--javac", javac, f"{source}/out", source], f"java_classes: {source}/out: Not a directory\n"),
        ]
        for name, words, wanted in rows:
            said, errors, status = shown([TOOL, *words])
            right = status == 2 and not said and wanted in errors and not os.path.exists(out)
            yield name, None if right else f"{said}{errors}status {status}"
        said, errors, status = shown([TOOL, "--javac", eight, out, source])
        yield "javac 8", None if (errors, status) == ("", 0) and os.path.exists(f"{out}/Main.class") else f"{errors}status {status}"


def tried_folders(javac):
    """The same of packages, of two files, and of the command that is printed, from the repository's top and elsewhere."""
    top = os.path.normpath(os.path.join(os.path.dirname(TOOL), ".."))
    with tempfile.TemporaryDirectory() as room:
        for name, text in {"B": "package a.b; class B extends C { static void main() { } }", "C": "package a.b; class C { }"}.items():
            with open(os.path.join(room, f"{name}.java"), "w", encoding="ascii") as file:
                file.write(text)
        words = [TOOL, "--javac", javac]
        for names in (["B", "C"], ["C", "B"]):
            done = subprocess.run([*words, "o", *(f"{it}.java" for it in names)], cwd=room, stdout=subprocess.PIPE, check=False)
            right = done.stdout.decode() == f"{top}/jvm run o/a/b/B.class o/a/b/C.class\n"
            yield f"two files of a package, {names[0]} first", None if right else done.stdout.decode()
        sources = [f"{room}/B.java", f"{room}/C.java"]
        done = subprocess.run([*words, f"{room}/p q", *sources], cwd=top, stdout=subprocess.PIPE, check=False)
        right = done.stdout.decode() == f"./jvm run '{room}/p q/a/b/B.class' '{room}/p q/a/b/C.class'\n"
        yield "from the repository's top", None if right else done.stdout.decode()
        with open(f"{room}/Error.java", "w", encoding="ascii") as file:
            file.write("package java.lang; public class Error { static void main() { } }")
        got = shown([*words, f"{room}/r", f"{room}/Error.java"])
        right = got == ("", "java/lang/Error: the machine has a class of this name\n" + LAST, 1)
        yield "a class of the machine's own", None if right else f"{got}"


def main():
    """Tries all, and gives the exit status."""
    words = argparse.ArgumentParser(description=__doc__.split("\n", maxsplit=1)[0])
    words.add_argument("--jvm", help="a built jvm, to run on it what fits, and show it what doesn't")
    words.add_argument("--javac", default="javac")
    words.add_argument("names", metavar="NAME", nargs="*", help="the sources to try, all where nothing is said")
    given = words.parse_args()
    how = (os.path.abspath(given.jvm) if given.jvm else None, given.javac)
    fit, unfit = ([it for it in tests if not given.names or it[0] in given.names] for tests in (FIT, [*UNFIT, NAMED_ALONE]))
    others = [] if given.names else [tried_refusals(given.javac), tried_folders(given.javac)]
    passed = failed = 0
    for tried in [tried_fit(fit, *how), tried_unfit(unfit, *how), *others]:
        for name, why in tried:
            passed, failed = passed + (not why), failed + bool(why)
            if why:
                print(f"{name}: {why}")
    print(f"{passed} passed, {failed} failed")
    return 1 if failed or not passed else 0


if __name__ == "__main__":
    sys.exit(main())
