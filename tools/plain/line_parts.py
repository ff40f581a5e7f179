"""Changes of texts and journals by lines, words and numbers."""
import re

WORDS = """I J [I [[LE; LE; F V [V ()V (I)V (J)I A/f()V E/x vm/Sys/print(I)V java/lang/Object java/lang/Error vm/Sys E A main()V <init>()V
<clinit>()V f(J)V run()V X X: Top all public static final abstract synchronized native = : default wide nop return athrow dup pop
iload_0 aload_0 iconst_0 iadd ldc ldc2_w goto goto_w ifeq new checkcast anewarray invokestatic invokespecial invokevirtual invokeinterface
getstatic putfield tableswitch lookupswitch stack locals from to using .catch .limit .end .method .field .super .implements .class
.interface ; ;x""".split()
EDGES = "0 1 -1 2 5 127 128 -128 -129 255 256 32767 32768 -32768 65535 65536 2147483647 2147483648 -2147483648 -2147483649 00 01 -0 +1 1x".split()
LONG_EDGES = "9223372036854775807 9223372036854775808 -9223372036854775808 4294967296 99999999999999999999999".split()
LINES = """return
X:
goto X
.end method
.limit stack 2
.limit locals 1
.catch all from X to X using X
.implements A
.field static x I = 1
.method static g()V
iconst_0
tableswitch 0
lookupswitch
default : X
5 : X
wide iinc 1 1""".split("\n")


def lines_exchanged(lines, rng):
    one, other = rng.randrange(len(lines)), rng.randrange(len(lines))
    lines[one], lines[other] = lines[other], lines[one]
    return f"lines {one + 1} and {other + 1} exchanged"


def line_left_out(lines, rng):
    place = rng.randrange(len(lines))
    del lines[place]
    return f"line {place + 1} left out"


def line_again(lines, rng):
    place, before = rng.randrange(len(lines)), rng.randrange(len(lines) + 1)
    lines.insert(before, lines[place])
    return f"line {place + 1} once more before line {before + 1}"


def other_number(lines, rng):
    """A number for another one, by one or at an edge."""
    found = [(n, it) for n, line in enumerate(lines) for it in re.finditer(r"(?<![\w-])-?\d+(?!\w)", line)]
    if not found:
        return "nothing"
    place, it = rng.choice(found)
    number = rng.choice([str(int(it[0]) + 1), str(int(it[0]) - 1), rng.choice(EDGES), rng.choice(LONG_EDGES)])
    lines[place] = lines[place][: it.start()] + number + lines[place][it.end() :]
    return f"line {place + 1}: {it[0]} to {number}"


def other_word(lines, rng):
    """A word for another one, of the text or of a list."""
    place = rng.choice([n for n, line in enumerate(lines) if line.split()] or [None])
    if place is None:
        return "nothing"
    words = lines[place].split(" ")
    at = rng.randrange(len(words))
    words[at] = rng.choice((rng.choice(WORDS), rng.choice(" ".join(lines).split(" "))))
    lines[place] = " ".join(words)
    return f"line {place + 1}: word {at + 1} to {words[at]}"


def words_of_line(lines, rng):
    """A word of a line left out, or once more, or a space for a tab, or a comment."""
    place = rng.randrange(len(lines))
    words = lines[place].split(" ")
    at = rng.randrange(len(words))
    times = rng.choice((0, 2))
    space = rng.choice((" ", "\t", "  ", " ;"))
    lines[place] = space.join(words[:at] + words[at : at + 1] * times + words[at + 1 :])
    return f"line {place + 1}: word {at + 1} {times} times"


def other_line(lines, rng):
    place, line = rng.randrange(len(lines) + 1), rng.choice(LINES)
    lines.insert(place, line)
    return f"a line {line} before line {place + 1}"


def other_letter(lines, rng):
    """A letter left out, or another one before it."""
    place = rng.randrange(len(lines))
    at, letter = rng.randrange(len(lines[place]) + 1), rng.choice("aL:;[/0-9 ()V\t\r._$<>=#\x7f")
    kept = rng.choice((at, at + 1))
    lines[place] = lines[place][:at] + letter + lines[place][kept:]
    return f"line {place + 1}: {letter!r} at {at + 1}"


CHANGES = [lines_exchanged, line_left_out, line_again, other_number, other_number, other_word, other_word, words_of_line, other_line, other_letter]


def changed_text(whole, rng):
    """What was changed, and what came of it."""
    lines = whole.decode("latin-1").split("\n")
    told = rng.choice(CHANGES)(lines, rng)
    return told, "\n".join(lines).encode("latin-1")


def outcome(lines, rows, rng):
    """The outcome of a row, which then isn't what the program does."""
    place = rng.choice(rows)
    words = lines[place].split(" ")
    words[1] = rng.choice([it for it in "donf" if it != words[1]])
    lines[place] = " ".join(words)
    return f"row {place - rows.start + 1} to {words[1]}"


def actor(lines, rows, rng):
    place = rng.choice(rows)
    words = lines[place].split(" ")
    words[0] = rng.choice(("0", "1", "2", "63", "64", "255", "256", "c"))
    lines[place] = " ".join(words)
    return f"row {place - rows.start + 1} of {words[0]}"


def rows_exchanged(lines, rows, rng):
    one, other = rng.choice(rows), rng.choice(rows)
    lines[one], lines[other] = lines[other], lines[one]
    return f"rows {one - rows.start + 1} and {other - rows.start + 1} exchanged"


def row_again(lines, rows, rng):
    """A row left out, or once more, with the number of rows."""
    place, times = rng.choice(rows), rng.choice((0, 2))
    lines[place : place + 1] = lines[place : place + 1] * times
    lines[rows.stop + times - 1] = f"end {len(rows) + times - 1}"
    return f"row {place - rows.start + 1} {times} times"


def changed_journal(whole, rng):
    """The same of a journal, as far as it is one."""
    lines = whole.decode("latin-1").split("\n")
    first = 4 if lines[0] == "JVMJ 2" else 3
    rows = range(first, len(lines) - 2)
    change = rng.choice([outcome, actor, rows_exchanged, row_again, None])
    is_row = rows and all(re.fullmatch(r"\w+ \w( \d)?", lines[place]) for place in rows)
    if not change or not is_row:
        return changed_text(whole, rng)
    told = change(lines, rows, rng)
    return told, "\n".join(lines).encode("latin-1")
