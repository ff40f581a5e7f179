"""Names, descriptors and numbers, as texts and class files have them (JVMS 4.2, 4.3, without F, D and Z)."""
import re

PART = r"[A-Za-z_$][A-Za-z0-9_$]*"
CLASS = rf"{PART}(?:/{PART})*"
TYPE = rf"\[{{0,255}}(?:[BCSIJ]|L{CLASS};)"
METHOD = rf"\(((?:{TYPE})*)\)(?:{TYPE}|V)"
NUMBER = r"0|-?[1-9][0-9]*"
# the greatest length of a name or a descriptor
LONGEST = 65_535
# how many units the arguments of a call may take, with the object
MOST_UNITS = 255


def has_form(pattern, word):
    """Whether a word is of a form, and no longer than a name may be."""
    return len(word) <= LONGEST and re.fullmatch(pattern, word) is not None


def is_label(word):
    """Whether a word is a label, of any length."""
    return re.fullmatch(PART, word) is not None


def is_class(word):
    return has_form(CLASS, word)


def is_array(word):
    return word.startswith("[") and has_form(TYPE, word)


def is_member(name):
    return has_form(PART, name)


def is_field(name, descriptor):
    """Whether these are the name and the descriptor of a field."""
    return is_member(name) and has_form(TYPE, descriptor)


def is_method_name(name):
    return name in ("<init>", "<clinit>") or is_member(name)


def is_method(name, descriptor, with_object):
    """Whether these are those of a method, whose arguments, with the object where there is one, aren't too many."""
    return is_method_name(name) and has_form(METHOD, descriptor) and units(descriptor) + with_object <= MOST_UNITS


def units(descriptor):
    """How many units a method's arguments take: two for a long, one for all else."""
    arguments = re.findall(TYPE, re.fullmatch(METHOD, descriptor)[1])
    return sum(2 if it == "J" else 1 for it in arguments)


def is_number(word):
    return re.fullmatch(NUMBER, word) is not None
