"""Whether the loader and the JVM say the same of fields, methods, selection and the layout of objects.

Usage: relations_agree.py [SEED ..]

For each seed (by default 1 to 10) a set of Java sources is made up: classes over classes and interfaces over interfaces,
with fields that hide others, static fields of interfaces, overridden and overloaded methods, static ones, and private
ones of one name. `javac` compiles them, and their version is set to 49.0. Both sides print, for each class and each field
and method that some class declares, where it is found (JVMS 5.4.3), which method is selected for an object (6.5,
invokevirtual), and the fields of an object: tools/relations/Relations.java asks the running JVM, tools/relations/main.rt.in
the crates `classfile` and `resolve`. Ends with status 1 where a line differs.
"""
import glob
import os
import random
import shutil
import subprocess
import sys
import tempfile

TOOLS = os.path.dirname(os.path.abspath(__file__))
CRATES = os.path.join(TOOLS, "..", "crates")
ARGUMENTS = ["", "int a", "long a", "int a, long b", "C0 a"]


def output_of(words, **options):
    done = subprocess.run(words, capture_output=True, text=True, **options)
    if done.returncode:
        sys.exit("%s: status %d: %s" % (" ".join(words), done.returncode, done.stderr.strip()[-2000:]))
    return done.stdout


# ---- Java sources


class Sources:
    """Classes C0, C1, .. and interfaces I0, I1, ..; a method returns the number of its class."""

    def __init__(self, seed):
        self.random = random.Random(seed)
        self.wanted = {}  # the abstract methods of each class or interface, with those that it inherits
        self.public = {}  # the public methods that each class has a body for, with those that it inherits
        self.texts = {}
        for n in range(8):
            self.interface(n)
        for n in range(16):
            self.class_of(n)

    def some(self, names, most):
        return self.random.sample(names, self.random.randint(0, min(most, len(names))))

    def methods(self, letter, most):
        pairs = [(letter + str(k), arguments) for k in range(3) for arguments in ARGUMENTS]
        return self.some(pairs, most)

    def interface(self, n):
        name, above = "I%d" % n, self.some(["I%d" % k for k in range(n)], 3)
        lines = ["int f%d = %d;" % (k, n) for k in self.some(range(4), 2)]
        lines += ["long g%d = %dL;" % (k, n) for k in self.some(range(2), 1)]
        own = self.methods("m", 2)
        lines += ["int %s(%s);" % method for method in own]
        self.wanted[name] = set(own).union(*(self.wanted[i] for i in above))
        head = "interface " + name + (" extends " + ", ".join(above) if above else "")
        self.texts[name] = "%s {\n    %s\n}\n" % (head, "\n    ".join(lines))

    def class_of(self, n):
        name, above = "C%d" % n, None
        if n and self.random.random() < 0.9:
            above = "C%d" % self.random.randrange(max(0, n - 3), n)
        interfaces = self.some(["I%d" % k for k in range(8)], 3)
        public = set(self.public.get(above, set()))
        lines = []
        for k in self.some(range(4), 3):
            lines.append("%s f%d;" % (self.random.choice(["int", "static int", "long", "C0", "static int[][]"]), k))
        for k in self.some(range(2), 1):
            lines.append("%s g%d;" % (self.random.choice(["long", "static long"]), k))
        own = set(self.methods("m", 5))
        wanted = self.wanted.get(above, set()).union(*(self.wanted[i] for i in interfaces))
        if self.random.random() < 0.7:
            own |= wanted - public
        hidden = {method for method in self.methods("p", 4) if method not in public}
        shown = {method for method in self.methods("p", 2) if method not in hidden}
        lines += ["public int %s(%s) { return %d; }" % (method + (n,)) for method in sorted(own | shown)]
        lines += ["private int %s(%s) { return %d; }" % (method + (n,)) for method in sorted(hidden)]
        lines += ["static int %s(%s) { return %d; }" % (method + (n,)) for method in self.methods("s", 3)]
        self.public[name] = public | own | shown
        self.wanted[name] = wanted - self.public[name]
        head = ("abstract " if self.wanted[name] else "") + "class " + name
        head += (" extends " + above if above else "") + (" implements " + ", ".join(interfaces) if interfaces else "")
        self.texts[name] = "%s {\n    %s\n}\n" % (head, "\n    ".join(lines))


def compiled(seed, folder):
    sources = Sources(seed).texts
    for name, text in sources.items():
        with open(os.path.join(folder, name + ".java"), "w") as file:
            file.write(text)
    words = ["javac", "--release", "8", "-g:none", "-Xlint:-options", "-d", folder]
    output_of(words + [os.path.join(folder, name + ".java") for name in sources])
    files = sorted(glob.glob(os.path.join(folder, "*.class")))
    for path in files:
        with open(path, "r+b") as file:
            file.seek(6)
            file.write(bytes([0, 49]))
    return files


# ---- both sides


def java_side(top, folder):
    opened = ["--add-opens", "java.base/java.lang.invoke=ALL-UNNAMED", "--add-opens", "java.base/java.lang=ALL-UNNAMED"]
    return output_of(["java"] + opened + ["-cp", top + ":" + folder, "Relations", folder]).splitlines()


def loader_side(crate, files):
    return output_of(["rt", "try", "--"] + files, cwd=crate).splitlines()


def crate_in(folder):
    """A folder with the repository's crates and one more, the program in tools/relations/main.rt.in."""
    shutil.copytree(CRATES, os.path.join(folder, "crates"), ignore=shutil.ignore_patterns("out", "must-fail"))
    os.makedirs(os.path.join(folder, "crates", "relations", "src"))
    with open(os.path.join(CRATES, "..", "crates.txt")) as file:
        listed = file.read()
    with open(os.path.join(folder, "crates.txt"), "w") as file:
        file.write(listed + "relations: model classfile resolve bitflags indexmap\n")
    crate = os.path.join(folder, "crates", "relations")
    shutil.copy(os.path.join(TOOLS, "relations", "main.rt.in"), os.path.join(crate, "src", "main.rt"))
    return crate


def main():
    seeds = [int(word) for word in sys.argv[1:]] or range(1, 11)
    wrong = 0
    with tempfile.TemporaryDirectory() as top:
        crate = crate_in(os.path.join(top, "repository"))
        output_of(["javac", "-d", top, os.path.join(TOOLS, "relations", "Relations.java")])
        for seed in seeds:
            folder = os.path.join(top, str(seed))
            os.mkdir(folder)
            files = compiled(seed, folder)
            theirs, ours = set(java_side(top, folder)), set(loader_side(crate, files))
            for line in sorted(theirs ^ ours):
                print("%s: %s" % ("java" if line in theirs else "ours", line))
            print("seed %d: %d classes, %d lines, %d differ" % (seed, len(files), len(theirs), len(theirs ^ ours)))
            wrong += len(theirs ^ ours)
    sys.exit(1 if wrong else 0)


main()
