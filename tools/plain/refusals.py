"""What a plain reader answers where it refuses an input."""


class Refused(Exception):
    """An input is refused, by a code and at a place: `J5 at line 6`, `C3`, `L6 in class X`."""

    def __init__(self, code, place=""):
        super().__init__(f"{code} {place}".rstrip())
        self.code = code


def answer(read, *given):
    """What a reader tells of an input: the refusal in words, or nothing."""
    try:
        read(*given)
    except Refused as refused:
        return str(refused)
    return None
