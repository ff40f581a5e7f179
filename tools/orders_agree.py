#!/usr/bin/env python3
"""Counts with the plain machine (tools/plain) what the program `interleavings` prints, and compares it with crates/interleavings/stdout.

    tools/orders_agree.py [NAME ..]

Each program is run in every order of nine turns of its two threads and the collector, after its opening and so many turns of the
collector. Orders that begin alike are run together as far as they do. Runs, turns and comparisons are reckoned: of n turns in the
opening and c of the collector there are 3^9 runs, each of n + c + 9 turns, and a comparison for each of the n + c turns and each
beginning of a list, 3 + 9 + .. + 3^9. What the world refuses and the objects that it makes are counted in the plain machine's
runs. It takes some minutes. The last line is 'N passed, M failed'.
"""
import copy
import os
import sys

from debug_agrees import classes_of
from plain.machine import Frame, Thread, World

FOLDER = os.path.join(os.path.dirname(os.path.abspath(__file__)), "..", "crates", "interleavings")
ORDERED, COLLECTOR = 9, "c"
ACTORS = (0, 1, COLLECTOR)
# of each program its texts, its small cells, its opening, and the fewest and most turns of the collector after it
RACES = {
    "write barrier": (["Barrier"], 4, [0, 0, 0, 0], 0, 20),
    "thrown in a monitor": (["Monitor"], 4, [0, 0, 0, 0, 0, 1], 0, 0),
    "class initialisation": (["Initialised", "Above", "Failing"], 5, [0, 0], 0, 0),
    "class initialisation, begun": (["Initialised", "Above", "Failing"], 5, [0, 0, 0, 0, 0], 0, 0),
    "one cell for two": (["Rooms"], 3, [0, 0, 1, 1], 29, 29),
}


def frame_copied(frame):
    made = Frame.__new__(Frame)
    made.__dict__ = {**frame.__dict__, "stack": list(frame.stack), "locals": list(frame.locals)}
    return made


def thread_copied(thread):
    made = Thread([frame_copied(it) for it in thread.frames])
    if hasattr(thread, "object"):
        made.object = thread.object
    return made


def object_copied(it):
    made = copy.copy(it)
    made.fields = it.fields and dict(it.fields)
    made.elements = it.elements and list(it.elements)
    return made


def heap_copied(heap):
    made = copy.copy(heap)
    made.cells, made.grey = [list(it) for it in heap.cells], list(heap.grey)
    made.free, made.cell_of = {size: list(it) for size, it in heap.free.items()}, dict(heap.cell_of)
    return made


def world_copied(world):
    """The same world once more, with the same classes."""
    made = copy.copy(world)
    made.threads = [thread_copied(it) for it in world.threads]
    made.objects = {birth: object_copied(it) for birth, it in world.objects.items()}
    made.heap, made.statics = heap_copied(world.heap), dict(world.statics)
    made.states, made.actors, made.writes = dict(world.states), list(world.actors), []
    return made


def is_refused(world, actor):
    return world.turn(actor) in ("not ready", "stopped", "step limit", "output full")


def counted(world, left):
    """How many turns are refused and objects made in all orders of so many turns, and what is refused or made before not."""
    if left == 0:
        return 0, world.births - 3
    refused = objects = 0
    for actor in ACTORS:
        after = world_copied(world)
        if is_refused(after, actor):
            refused += 3 ** (left - 1)
        below = counted(after, left - 1)
        refused, objects = refused + below[0], objects + below[1]
    return refused, objects


def line_of(name):
    """The line that the program prints of one of its programs."""
    texts, cells, opening, fewest, most = RACES[name]
    classes = list(classes_of([f"{FOLDER}/data/{it}.j" for it in texts]))
    runs = turns = refused = objects = comparisons = 0
    for sweeps in range(fewest, most + 1):
        world = World(classes, (cells, 0, 0), 100, 0)
        before = sum(is_refused(world, actor) for actor in [*opening, *[COLLECTOR] * sweeps])
        below = counted(world, ORDERED)
        lists, first = 3**ORDERED, len(opening) + sweeps
        runs, turns = runs + lists, turns + lists * (first + ORDERED)
        comparisons += first + sum(3**length for length in range(1, ORDERED + 1))
        refused, objects = refused + before * lists + below[0], objects + below[1]
    return f"{name}: {runs} runs, {turns} turns, {refused} refused, {objects} objects, {comparisons} comparisons"


def main():
    with open(f"{FOLDER}/stdout", encoding="ascii") as file:
        wanted = file.read().splitlines()
    if [line.split(":")[0] for line in wanted] != list(RACES):
        sys.exit("stdout has other programs")
    passed = failed = 0
    for name, line in zip(RACES, wanted):
        if sys.argv[1:] and not any(it in name for it in sys.argv[1:]):
            continue
        found = line_of(name)
        passed, failed = passed + (found == line), failed + (found != line)
        if found != line:
            print(f"{found}, and the program prints {line}", flush=True)
    print(f"{passed} passed, {failed} failed")
    return 1 if failed else 0


if __name__ == "__main__":
    sys.exit(main())
