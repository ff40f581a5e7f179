"""What `jvm` is to report of the files that it is given, as the plain reader sees them."""
from . import assembling, class_files, journals, loading, texts
from .classes import INTERFACE, SUPER
from .opcodes import FORM_OF
from .refusals import Refused, answer

CLASS_FILE = b"\xca\xfe\xba\xbe"


def class_file_of(text):
    """The class file of a text."""
    return assembling.assemble(texts.read(text))


def class_of(source):
    """The class of a text or a class file, as `run` tells them apart."""
    return class_files.read(source if source.startswith(CLASS_FILE) else class_file_of(source))


def told_of_text(name, text):
    """What `asm` reports, or nothing."""
    found = answer(class_file_of, text)
    return found and f"{name}: {found}"


def told_of_class_file(name, whole):
    """What `dis` reports, or nothing."""
    found = answer(class_files.read, whole)
    return found and f"{name}: {found}"


def told_of_journal(text):
    """What `upgrade` reports, or nothing."""
    found = answer(journals.read, text)
    return found and f"journal {found}"


def told_of_program(sources, read=class_of):
    """What `run` reports before the first turn, or nothing: of sources by their names, in order."""
    found = []
    for name, source in sources:
        try:
            found.append(read(source))
        except Refused as refused:
            return f"{name}: {refused}"
    try:
        program = loading.load(found)
    except Refused as refused:
        return f"load: {refused}"
    refused = answer(loading.open_world, program)
    return refused and f"world: {refused}"


def can_be_said(made):
    """Whether a text can say what a class file says: all but five things."""
    codes = [it.code for it in made.methods if it.code]
    of_arrays = [it for code in codes for it in code.instructions if names_array(it)]
    above = not made.has(INTERFACE) or made.superclass == loading.OBJECT
    return above and not of_arrays and all(row_can_be_said(code, row) for code in codes for row in code.rows)


def names_array(it):
    """Whether an instruction names a member of an array, or an interface's method with a count of 0."""
    form = FORM_OF[it.name]
    return form in ("field", "method", "interface") and (it.operands[0].owner.startswith("[") or it.operands[-1] == 0)


def row_can_be_said(code, row):
    bounds = {*code.pcs, code.length}
    return row.start in bounds and row.end in bounds and row.handler in code.pcs and not (row.caught or "").startswith("[") and row.caught != "all"


def told_of_disassembled(made, text):
    """What is wrong with the text that `dis` writes of a class file's class, or nothing."""
    if not can_be_said(made):
        return None
    try:
        again = class_files.read(class_file_of(text))
    except Refused as refused:
        return f"the plain reader says {refused} of the text that it writes"
    made.flags, again.flags = made.flags | SUPER, again.flags | SUPER
    return None if made == again else "the text that it writes says another class"
