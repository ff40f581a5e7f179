"""Cells, colours and the collector's steps, plainly: for plain/machine.py. Objects go by their births, roots come from a world."""
from plain.values import birth_in

SIZES = (4, 32, 256)


class Heap:
    """Cells of three sizes. A cell is [words, birth or None, colour]."""

    def __init__(self, shape):
        words = [size for size, count in zip(SIZES, shape) for _ in range(count)]
        self.cells = [[size, None, None] for size in words]
        self.free = {size: [n for n, it in enumerate(words) if it == size] for size in SIZES}
        self.cell_of, self.grey, self.phase, self.at = {}, [], "idle", ()

    def take(self, need, birth, colour):
        """Gives a birth the front of the smallest free cells with room. Whether there was one."""
        for size in SIZES:
            if size >= need and self.free[size]:
                number = self.free[size].pop(0)
                self.cells[number][1:] = [birth, colour]
                self.cell_of[birth] = number
                if colour == "grey":
                    self.grey.append(number)
                return True
        return False

    def shade(self, birth):
        if birth is None:
            return
        cell = self.cells[self.cell_of[birth]]
        if cell[2] == "white":
            cell[2] = "grey"
            self.grey.append(self.cell_of[birth])

    def move(self, phase, *at):
        self.phase, self.at = phase, at

    def collect(self, world):
        """One step of the collector."""
        getattr(self, f"in_{self.phase}")(world, *self.at)

    def in_idle(self, _world):
        self.shade(1)
        self.shade(2)
        self.move("statics", 0)

    def in_statics(self, world, slot):
        slots = list(world.statics.values())
        if slot == len(slots):
            return self.move("frames", 0, 0, 0)
        self.shade(birth_in(slots[slot]))
        return self.move("statics", slot + 1)

    def in_frames(self, world, thread, depth, entry):
        if thread == len(world.threads):
            return self.move("mark", 0)
        frames = world.threads[thread].frames
        if depth >= len(frames):
            return self.move("frames", thread + 1, 0, 0)
        entries = frames[depth].locals + frames[depth].stack
        if entry >= len(entries):
            self.shade(frames[depth].monitor)
            return self.move("frames", thread, depth + 1, 0)
        self.shade(birth_in(entries[entry]))
        return self.move("frames", thread, depth, entry + 1)

    def in_mark(self, world, word):
        if not self.grey:
            return self.move("append", 0)
        cell = self.cells[self.grey[0]]
        words = world.objects[cell[1]].words()
        if word == len(words):
            cell[2] = "black"
            self.grey.pop(0)
            return self.move("mark", 0)
        self.shade(birth_in(words[word]))
        return self.move("mark", word + 1)

    def in_append(self, _world, number):
        if number == len(self.cells):
            return self.move("idle")
        cell = self.cells[number]
        if cell[2] == "white":
            del self.cell_of[cell[1]]
            cell[1:] = [None, None]
            self.free[cell[0]].append(number)
        elif cell[2] == "black":
            cell[2] = "white"
        return self.move("append", number + 1)

