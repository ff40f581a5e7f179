"""Every schedule of a program, plainly: what the runs come to of a world of plain/machine.py on whose heap nothing is freed.

A state is a world up to the names of its births, and without what no path leads to. Breadth first from the opening: each ready thread
takes a turn, and where that asks for a cell, one turn finds it and, if wanted, another one doesn't. Nothing is left out or made
ahead, so this is slow, and as short as the definitions.
"""
from collections import deque
from typing import NamedTuple

from plain.machine import Frame, Thread, World
from plain.values import Fault, Object, birth_in


class Outcome(NamedTuple):
    """What a run that has come to rest shows: how it stands, the fault and its thread, how each thread ended, what was printed.

    An end is a class's name where an exception ended the thread, "" where it ended by itself, and None where it lives.
    """

    status: str
    fault: tuple
    ends: tuple
    output: bytes


class Explored(NamedTuple):
    """What an exploration found: outcomes, each with its witness, a list of (thread, whether there was room), in the order found."""

    outcomes: dict
    states: int
    turns: int
    complete: bool


class Room:
    """In place of a heap: the turn that is made finds a cell or doesn't."""

    def __init__(self):
        self.has, self.asked = True, False

    def take(self, _need, _birth, _colour):
        self.asked = True
        return self.has

    def shade(self, _birth):
        pass


class Seen(World):
    """A world that keeps how its threads end."""

    def unwind(self, thread, birth):
        type_, ended = self.objects[birth].type, self.threads[thread]
        super().unwind(thread, birth)
        if not ended.frames:
            ended.by = type_

    def may_turn(self, thread):
        return self.is_ready(thread) and len(self.output) + len(self.printed(thread)) <= self.limits[1]

    def outcome(self):
        """What is seen of a world of which no thread may take a turn."""
        status = self.status()
        ends = tuple(None if it.frames else getattr(it, "by", "") for it in self.threads)
        return Outcome("output limit" if status == "running" else status, self.fault, ends, self.output)


class Ideal(Seen):
    """A world on whose heap nothing is ever freed. A turn makes another world, and leaves this one as it is."""

    def __init__(self, classes, output):
        super().__init__(classes, (2, 0, 0), 0, output)
        self.heap = Room()

    def made(self, made):
        if not self.heap.take(0, self.births, None):
            return None
        self.objects[self.births] = made
        self.births += 1
        return self.births - 1

    def copy(self):
        """This world, but for what no path leads to."""
        made = Ideal.__new__(Ideal)
        made.__dict__.update(self.__dict__)
        made.heap, made.writes = Room(), []
        made.objects = {birth: copied(self.objects[birth]) for birth in self.reachable()}
        made.statics, made.states = dict(self.statics), dict(self.states)
        made.threads = [thread_copied(it) for it in self.threads]
        return made

    def after(self, thread, room):
        """The world after a thread's turn that finds room for what it makes or doesn't, and whether it asked for any."""
        made = self.copy()
        made.heap.has = room
        try:
            made.make(thread)
        except Fault as fault:
            asked, made = made.heap.asked, self.copy()
            made.heap.asked, made.fault = asked, (fault.args[0], thread)
        return made, made.heap.asked


def copied(it):
    """A copy of an object."""
    made = Object(it.type)
    made.fields = None if it.fields is None else dict(it.fields)
    made.elements = None if it.elements is None else list(it.elements)
    made.owner, made.count, made.started = it.owner, it.count, it.started
    return made


def frame_copied(it):
    made = Frame.__new__(Frame)
    made.method, made.pc, made.monitor, made.mark = it.method, it.pc, it.monitor, it.mark
    made.stack, made.locals = list(it.stack), list(it.locals)
    return made


def thread_copied(it):
    made = Thread([frame_copied(frame) for frame in it.frames])
    made.__dict__.update({name: value for name, value in it.__dict__.items() if name != "frames"})
    return made


class Names:
    """Births by the order in which paths lead to them."""

    def __init__(self):
        self.order, self.number = [1, 2], {1: 1, 2: 2}

    def birth(self, birth):
        if birth is None:
            return None
        if birth not in self.number:
            self.order.append(birth)
            self.number[birth] = len(self.order)
        return self.number[birth]

    def entries(self, entries):
        return tuple(it if birth_in(it) is None else ("A", self.birth(it[1])) for it in entries)


def state_of(world):
    """All that tells a world from another one but for names of births, and what no path leads to."""
    names = Names()
    statics = names.entries(world.statics.values())
    threads = tuple(
        getattr(it, "by", "") if not it.frames else tuple(
            (id(frame.method), frame.pc, frame.mark, names.entries(frame.locals), names.entries(frame.stack), names.birth(frame.monitor))
            for frame in it.frames)
        for it in world.threads)
    started = {getattr(it, "object", None): number for number, it in enumerate(world.threads)}
    objects = []
    for birth in names.order:  # which grows
        it = world.objects[birth]
        objects.append((it.type, names.entries(it.words()), it.owner, it.count, started.get(birth)))
    return statics, tuple(world.states.values()), threads, tuple(objects), world.output, world.fault


def explored(classes, output, no_room, states=1_000_000):
    """What the runs of a program come to that print so many bytes at most. With `no_room`, also those in which a cell is missing."""
    opening = Ideal(classes, output)
    known, came, queue = {state_of(opening)}, [None], deque([(0, opening)])
    outcomes, turns = {}, 0
    while queue:
        number, world = queue.popleft()
        ready = [thread for thread in range(len(world.threads)) if world.may_turn(thread)]
        if not ready:
            outcomes.setdefault(world.outcome(), number)
        for thread in ready:
            for room in (True, False):
                after, asked = world.after(thread, room)
                turns += 1
                if (key := state_of(after)) not in known:
                    if len(known) == states:
                        return Explored(witnesses(outcomes, came), len(known), turns, False)
                    known.add(key)
                    came.append((number, thread, room))
                    queue.append((len(came) - 1, after))
                if not (asked and no_room):
                    break
    return Explored(witnesses(outcomes, came), len(known), turns, True)


def witnesses(outcomes, came):
    """The turns by which each outcome is come to."""
    found = {}
    for outcome, number in outcomes.items():
        pairs = []
        while came[number]:
            number, thread, room = came[number]
            pairs.append((thread, room))
        found[outcome] = pairs[::-1]
    return found


def report(found):
    """What `jvm explore` writes of it, but for the counts of states and turns, which tell how it was explored."""
    for number, (outcome, pairs) in enumerate(found.outcomes.items(), 1):
        how = f"fault F{outcome.fault[0]} in thread {outcome.fault[1]}" if outcome.fault else outcome.status
        yield f"outcome {number}: {how}\n".encode()
        for thread, by in enumerate(outcome.ends):
            if by:
                yield f"thread {thread} ended by {by}\n".encode()
        yield b"turns %d\noutput %d\n%s\n" % (len(pairs), len(outcome.output), outcome.output)
