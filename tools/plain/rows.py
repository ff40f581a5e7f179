"""The rows of examples/answers.txt, which were worked out by hand: what the plain reader says of each."""
import answers

from . import class_files, journals, programs, texts
from .refusals import answer

CLASS_FILES = ("pool", "byte of E", "field of A", "code of E", "operand of E", "pads of E", "method of E")


def text(given, wanted):
    """What the plain reader says of a text where the row says another thing, or nothing."""
    source = answers.lines_of(given)
    if wanted == "read":
        return answer(texts.read, source)
    found = answer(programs.class_file_of, source)
    if not wanted.startswith(("ends ", "at ", "assembled")):
        return None if found == wanted else found or "assembled"
    return found or (None if answers.has_bytes(programs.class_file_of(source), wanted) else "another class file")


def class_file(kind, given, wanted):
    for digits, told in answers.class_files(kind, given, wanted):
        found = answer(class_files.read, bytes.fromhex(digits))
        right = found if told is None else (found or "read") == told
        if not right:
            return found or "read"
    return None


def program(given, wanted):
    sources = [(f"{number}.j", source) for number, source in enumerate(answers.classes_of(given))]
    found = programs.told_of_program(sources)
    return None if (found or "load: accepted") == f"load: {wanted}" else found or "accepted"


def journal(given, wanted):
    source = answers.lines_of(given)
    found = answer(journals.read, source)
    if wanted.startswith("becomes "):
        same = not found and journals.upgrade(source) == answers.lines_of(wanted.removeprefix("becomes "))
        return None if same else found or "another journal"
    return None if (found or "read") == wanted else found or "read"


def difference(kind, given, wanted):
    """What the plain reader says of a row where the row says another thing; nothing where both agree."""
    if kind in ("text", "assembled"):
        return text(given, wanted)
    if kind in CLASS_FILES:
        return class_file(kind, given, wanted)
    if kind == "program":
        return program(given, wanted)
    if kind == "reference":
        return program(answers.around(given), wanted)
    return journal(given, wanted)


def tried_reader(_jvm=None, _room=None):
    """What was tried of the plain reader: each row that it knows something of, with what it says otherwise, or nothing."""
    for kind, given, wanted in answers.rows():
        # what a program does, and whether a journal is one of its runs, isn't read off them
        if not kind.startswith("main of ") and kind != "replay":
            why = difference(kind, given, wanted)
            yield f"plain reader: {kind}: {given[:80]} => {wanted[:80]}", why and f"it says {why}"
