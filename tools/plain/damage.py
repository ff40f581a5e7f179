"""What is done to an input: it is cut, or a byte of it is changed, or something that keeps it well-formed a step further."""
from . import class_parts, line_parts
from .inputs import CLASS_FILE, JOURNAL


def fronts(whole):
    """Each proper front."""
    for length in range(len(whole)):
        yield f"a front of {length} bytes", whole[:length]


def other_bytes(whole):
    """The same with a byte changed to 0 or to ff, at each place."""
    for place, byte in enumerate(whole):
        for other in (0x00, 0xFF):
            if byte != other:
                yield f"byte {place} to {other:02x}", whole[:place] + bytes([other]) + whole[place + 1 :]


def simple(whole):
    yield from fronts(whole)
    yield from other_bytes(whole)


def one_of_simple(whole, rng):
    """One of these."""
    place = rng.randrange(len(whole))
    if rng.randrange(3) == 0:
        return f"a front of {place} bytes", whole[:place]
    other = rng.choice([byte for byte in (0x00, 0xFF) if byte != whole[place]])
    return f"byte {place} to {other:02x}", whole[:place] + bytes([other]) + whole[place + 1 :]


def two_bytes(whole, rng):
    """Two bytes changed to any others."""
    made, told = bytearray(whole), []
    for _ in range(2):
        place, byte = rng.randrange(len(whole)), rng.randrange(256)
        made[place] = byte
        told.append(f"byte {place} to {byte:02x}")
    return ", ".join(told), bytes(made)


def structured(it, rng):
    """What is done, and what comes of it: one change of the input's kind, or two, or two bytes."""
    change = {CLASS_FILE: class_parts.changed, JOURNAL: line_parts.changed_journal}.get(it.kind, line_parts.changed_text)
    choice = rng.randrange(8)
    if choice == 0:
        return two_bytes(it.whole, rng)
    told, made = change(it.whole, rng)
    if choice > 4:
        more, made = change(made, rng)
        told = f"{told}, {more}"
    return told, made
