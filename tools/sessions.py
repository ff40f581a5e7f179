"""Sessions at a terminal (examples/sessions.txt), and what else is tried of `jvm`'s commands, for run_examples.py."""
import contextlib
import os
import pty
import re
import resource
import select
import subprocess
import time

ROOT = os.path.join(os.path.dirname(os.path.abspath(__file__)), "..")
SESSIONS = os.path.join(ROOT, "examples", "sessions.txt")
CODES = os.path.join(ROOT, "docs", "CODES.md")
DEBUGGER = os.path.join(ROOT, "docs", "DEBUGGER.md")
EXPLORE = os.path.join(ROOT, "docs", "EXPLORE.md")
# command lines that clap takes for none, or answers itself, and their statuses
BY_CLAP = [
    ("asm a.j", 7), ("dis", 7), ("dis a b", 7), ("run --small many a.j", 7), ("walk a.j", 7),
    ("debug --gc 1 a.j", 7), ("debug --carriers 2 a.j", 7), ("debug --journal j a.j", 7), ("debug --small many a.j", 7),
    ("explore --gc 1 a.j", 7), ("explore --small 4 a.j", 7), ("explore --states many a.j", 7), ("explore --split many a.j", 7),
    ("explore a.j --from", 7), ("explore --help", 0), ("debug --help", 0), ("--help", 0), ("--version", 0),
]
# words that are no codes
NO_CODES = ["", "J", "J0", "J05", "C12", "L13", "X1", "9", "j5", "F 1"]
# runs by several carriers of a session's text, and how their journals begin
CARRIED = [
    ("the empty main ends", "--carriers 4 --small 4", "heap 4 16 4\nlimits 1000000 65536\nworkers 5\n"),
    ("the same: threads that are stuck", "--carriers 4 --small 4", "heap 4 16 4\nlimits 1000000 65536\nworkers 5\n"),
    ("ten thousand objects", "--carriers 2 --steps 20000", "heap 64 16 4\nlimits 20000 65536\nworkers 3\n"),
]
# a program without end, which takes long beside the ideal run on a large heap
LONG = [".class A", ".super java/lang/Object", ".method static main()V", ".limit stack 0", ".limit locals 0", "L:", "goto L", ".end method"]
LONG_CHECK = ["--check", "--small", "60000", "--medium", "4000", "--large", "1000"]
# too little for the stacks of nine threads, and enough for the program
LITTLE_MEMORY = 40_000_000


def shown(words, folder, **how):
    """What a terminal in this folder shows of a command: its output, its lines of standard error, and its status."""
    done = subprocess.run(words, cwd=folder, stdout=subprocess.PIPE, stderr=subprocess.PIPE, timeout=120, **how)
    return done.stdout + done.stderr + f"status {done.returncode}\n".encode()


def bytes_in(folder, name):
    """The bytes of a file, or nothing where there is none."""
    path = os.path.join(folder, name)
    if not os.path.isfile(path):
        return None
    with open(path, "rb") as file:
        return file.read()


def all_of(lines):
    """The lines that some lines of a session stand for."""
    for line in lines:
        times = re.fullmatch(r"(\d+) times (.*)", line)
        yield from [times[2]] * int(times[1]) if times else [line]


def bytes_of(lines, is_hex):
    """The bytes that some lines of a session stand for."""
    if is_hex:
        return bytes.fromhex("".join(lines))
    return "".join(f"{line}\n" for line in all_of(lines)).encode()


def typed_and_shown(lines):
    """What is typed into a command, and what it shows."""
    typed = [line[2:] for line in all_of(lines) if line.startswith(">")]
    return bytes_of(typed, False), bytes_of([line for line in lines if not re.match(r"(\d+ times )?>", line)], False)


def steps_of(block):
    """The steps of a session, each the line that says what it is, and the lines after it."""
    steps = []
    for line in block:
        if line.startswith(("-- ", "$ ")):
            steps.append((line, []))
        else:
            steps[-1][1].append(line)
    return steps


def sessions():
    """The sessions, by their names, as steps."""
    with open(SESSIONS, encoding="ascii") as file:
        for block in file.read().split("\n== ")[1:]:
            name, *lines = block.rstrip("\n").split("\n")
            yield name, steps_of(lines)


def put_file(folder, name, lines, is_hex):
    with open(os.path.join(folder, name), "wb") as file:
        file.write(bytes_of(lines, is_hex))


def step(jvm, folder, line, lines):
    """What is wrong with a step of a session, or nothing."""
    if line.startswith("$ "):
        words, _, source = line.partition(" < ")
        typed, wanted = typed_and_shown(lines)
        # (clap says the name by which the program was called)
        told = bytes_in(folder, source) if source else typed
        answer = shown(words.split(" ")[1:], folder, executable=jvm, input=told)
        return None if answer == wanted else f"{line}: {answer.decode(errors='replace')}"
    _, name, *rest = line.split(" ")
    is_hex = "hex" in rest
    if "has" not in rest and "begins" not in rest:
        return put_file(folder, name, lines, is_hex)
    found, wanted = bytes_in(folder, name) or b"", bytes_of(lines, is_hex)
    same = found == wanted if "has" in rest else found.startswith(wanted)
    return None if same else f"{line}: {found!r}"


def played(jvm, folder, steps):
    """What is wrong with a session, or nothing."""
    os.mkdir(folder)
    for line, lines in steps:
        why = step(jvm, folder, line, lines)
        if why:
            return why
    return None


def tried_fronts(jvm, room):
    """Each front of a class file, read as one."""
    whole = bytes.fromhex("".join(next(lines for _, steps in sessions() for line, lines in steps if line == "-- a.class hex")))
    for length in range(len(whole)):
        with open(f"{room}/front.class", "wb") as file:
            file.write(whole[:length])
        answer = shown([jvm, "dis", "front.class"], room)
        if answer != b"jvm: front.class: C3\nstatus 2\n":
            return f"{length} bytes: {answer.decode(errors='replace')}"
    return None


def tried_codes(jvm):
    """Each code and status of docs/CODES.md, listed and explained, and words that are none."""
    with open(CODES, encoding="ascii") as file:
        told = re.findall(r"(?m)^\*\*(\w+)\*\* (.*?)(?:  )?$", file.read())
    answer = shown([jvm, "explain"], ".")
    if answer != "".join(f"{code}: {first}\n" for code, first in told).encode() + b"status 0\n":
        return answer.decode()
    for code, first in told:
        if not shown([jvm, "explain", code], ".").startswith(f"{code}: {first}\n".encode()):
            return f"explain {code}"
    for word in NO_CODES:
        if shown([jvm, "explain", word], ".") != f"jvm: no code {word}\nstatus 7\n".encode():
            return f"explain {word}"
    return None


def tried_lines(jvm):
    """Command lines that clap answers."""
    for words, status in BY_CLAP:
        answer = shown([jvm, *words.split(" ")], ".")
        if not answer.endswith(f"\nstatus {status}\n".encode()) or answer.startswith(b"jvm: "):
            return f"{words}: {answer.decode()}"
    return None


def tried_carriers(jvm, room):
    """Runs by several carriers, whose output may depend on who came first, and their replays."""
    texts = {name: lines for name, steps in sessions() for line, lines in steps if line == "-- a.j"}
    for part, options, head in CARRIED:
        name = next(name for name in texts if name.startswith(part))
        put_file(room, "carried.j", texts[name], False)
        run = shown([jvm, "run", *options.split(" "), "--journal", "carried.journal", "carried.j"], room)
        again = shown([jvm, "replay", "carried.journal", "carried.j"], room)
        if run != again or not bytes_in(room, "carried.journal").startswith(f"JVMJ 2\n{head}".encode()):
            return f"{name}: {run.decode()}, and replayed {again.decode()}"
    return None


def tried_without_threads(jvm, room):
    """A run whose threads can't be started: there is no memory for their stacks. Nothing is written."""
    little = lambda: resource.setrlimit(resource.RLIMIT_AS, (LITTLE_MEMORY, LITTLE_MEMORY))
    put_file(room, "sum.j", next(lines for name, steps in sessions() for line, lines in steps if name.startswith("a sum wraps") and line == "-- a.j"), False)
    answer = shown([jvm, "run", "--carriers", "8", "--journal", "none.journal", "sum.j"], room, preexec_fn=little)
    is_there = bytes_in(room, "none.journal") is not None
    return None if answer == b"jvm: no thread\nstatus 6\n" and not is_there else answer.decode()


def told_at_terminal(words, folder):
    """The first two lines that a command writes to a terminal as standard error, and how many seconds that took."""
    began = time.monotonic()
    ours, theirs = pty.openpty()
    text = b""
    how = {"stdin": subprocess.DEVNULL, "stdout": subprocess.DEVNULL, "stderr": theirs}
    with subprocess.Popen(words, cwd=folder, **how) as process, contextlib.suppress(OSError):
        os.close(theirs)
        while text.count(b"\n") < 2 and select.select([ours], [], [], 60)[0]:
            text += os.read(ours, 1000)
        process.kill()
    os.close(ours)
    return text, time.monotonic() - began


def tried_terminal(jvm, room):
    """A run that is long compared: a terminal is told each second how far it is, and a pipe in as long a time nothing."""
    put_file(room, "long.j", LONG, False)
    words = [jvm, "run", *LONG_CHECK, "long.j"]
    text, seconds = told_at_terminal(words, room)
    lines = re.fullmatch(rb"jvm: (\d+) rows done, (\d+) left\r\njvm: (\d+) rows done, (\d+) left\r\n", text)
    if not lines or seconds < 3 or len({int(lines[1]) + int(lines[2]), int(lines[3]) + int(lines[4]), 1_000_000}) > 1:
        return f"after {seconds} seconds {text!r}"
    try:
        subprocess.run(words, cwd=room, stdout=subprocess.DEVNULL, stderr=subprocess.PIPE, timeout=seconds)
    except subprocess.TimeoutExpired as late:
        return late.stderr and f"a pipe: {late.stderr!r}"
    return "it has ended"


def tried_page(jvm):
    """The sessions that docs/DEBUGGER.md shows."""
    with open(DEBUGGER, encoding="ascii") as file:
        blocks = re.findall(r"(?ms)^```\n\$ \./jvm (debug .*?)^```", file.read())
    for words, *lines in (block.rstrip("\n").split("\n") for block in blocks):
        typed, wanted = typed_and_shown(lines)
        answer = shown([jvm, *words.split(" ")], ROOT, input=typed)
        if answer != wanted + b"status 0\n":
            return f"{words}: {answer.decode()}"
    return None if blocks else "there are none"


def tried_reports(jvm):
    """The explorations that docs/EXPLORE.md shows."""
    with open(EXPLORE, encoding="ascii") as file:
        blocks = re.findall(r"(?ms)^```\n\$ \./jvm (explore [^\n]*)\n(.*?)^```", file.read())
    for words, report in blocks:
        answer = shown([jvm, *words.split(" ")], ROOT)
        if answer != report.encode() + b"status 0\n":
            return f"{words}: {answer.decode()}"
    return None if blocks else "there are none"


def talked(program, lines):
    """What is wrong with the answers to lines that are given one by one, each after the answer to the one before, or nothing."""
    for line, wanted in lines:
        program.stdin.write(line)
        answer = b""
        while len(answer) < len(wanted):
            ready, _, _ = select.select([program.stdout], [], [], 20)
            piece = os.read(program.stdout.fileno(), 1000) if ready else b""
            if not piece:
                return f"{line!r}: {answer!r}"
            answer += piece
        if answer != wanted:
            return f"{line!r}: {answer!r}"
    return None


def tried_talk(jvm):
    """A talk through pipes: each answer is there before the next command."""
    words = [jvm, "debug", os.path.join(ROOT, "examples", "countdown.j")]
    lines = [(b"step 0\n", b"done\n"), (b"x\n", b"error bad command\n"), (b"run 5\n", b"ran 5: running\n"), (b"stack 9", b""),
             (b"9\n", b"error no such thread\n"), (b"gc\ngc\n", b"done\ndone\n"), (b"quit\n", b"output 2\n3\n")]
    with subprocess.Popen(words, stdin=subprocess.PIPE, stdout=subprocess.PIPE, bufsize=0) as program:
        try:
            return talked(program, lines)
        finally:
            program.stdin.close()


def tried_streams(jvm):
    """Sessions whose input can't be read, or whose answers can't be written."""
    words = [jvm, "debug", os.path.join(ROOT, "examples", "E.j")]
    with open("/dev/full", "wb") as full:
        for typed in (b"", b"quit\n", b"step 0\nquit\n", b"x\n"):
            done = subprocess.run(words, input=typed, stdout=full, stderr=subprocess.PIPE, timeout=60, check=False)
            if (done.returncode, done.stderr) != (6, b"jvm: cannot write -\n"):
                return f"full, {typed!r}: status {done.returncode}, {done.stderr!r}"
    folder = os.open(ROOT, os.O_RDONLY)
    try:
        answer = shown(words, ROOT, stdin=folder)
    finally:
        os.close(folder)
    return None if answer == b"jvm: cannot read -\nstatus 6\n" else f"a folder as input: {answer.decode()}"


def tried_commands(jvm, room):
    """What was tried of the commands, each with what is wrong, or nothing."""
    jvm = os.path.abspath(jvm)
    for number, (name, steps) in enumerate(sessions()):
        yield f"session: {name}", played(jvm, f"{room}/session{number}", steps)
    yield "each front of a class file", tried_fronts(jvm, room)
    yield "codes, explained", tried_codes(jvm)
    yield "command lines that clap answers", tried_lines(jvm)
    yield "runs by carriers, replayed", tried_carriers(jvm, room)
    yield "no memory for threads", tried_without_threads(jvm, room)
    yield "long work at a terminal", tried_terminal(jvm, room)
    yield "sessions of docs/DEBUGGER.md", tried_page(jvm)
    yield "explorations of docs/EXPLORE.md", tried_reports(jvm)
    yield "answers one by one", tried_talk(jvm)
    yield "streams that fail", tried_streams(jvm)
