"""The debugger, plainly: what it answers to lines of commands (docs/DEBUGGER.md), on a world of plain/machine.py."""
import re

from plain.run_classes import parts_of

GREATEST, LONGEST, UNITS = 4_294_967_295, 200, 255
PART = r"[A-Za-z_$][A-Za-z0-9_$]*"
CLASS = rf"{PART}(?:/{PART})*"
NUMBER = r"(0|[1-9][0-9]*)"
TYPE = rf"\[*(?:[BCSIJ]|L{CLASS};)"
BREAK = rf"break ({CLASS})\.({PART}|<init>|<clinit>)(\((?:{TYPE})*\)(?:{TYPE}|V)) {NUMBER}"


def value_text(entry):
    """How a local or a value reads."""
    if entry is None:
        return "-"
    if entry == "^":
        return entry
    kind, number = entry
    if kind == "A":
        return "null" if number is None else f"#{number}"
    return f"{number}L" if kind == "J" else str(number)


def values_text(entries):
    return "".join(f" {value_text(it)}" for it in entries)


class Debugger:
    """A session with a world."""

    def __init__(self, world):
        self.world, self.places, self.vacant = world, [], []
        self.forms = [(BREAK, self.break_at), (f"delete {NUMBER}", self.delete), (f"step {NUMBER}", self.step), ("gc", self.collect),
                      (f"run {NUMBER}", self.run), (f"stack {NUMBER}", self.stack), (f"object {NUMBER}", self.object),
                      ("heap", self.heap), (f"class ({CLASS})", self.state)]

    def farewell(self):
        """What a session says in the end."""
        return b"output %d\n" % len(self.world.output) + self.world.output

    def answer(self, line):
        """What a line of bytes is answered, but for `quit`."""
        lines = None
        if len(line) <= LONGEST:
            text = line.decode("latin-1")
            for form, does in self.forms:
                said = re.fullmatch(form, text)
                if said and all(int(it) <= GREATEST for it in said.groups() if re.fullmatch(NUMBER, it)):
                    lines = does(*said.groups())
        return "".join(f"{it}\n" for it in (["error bad command"] if lines is None else lines)).encode("latin-1")

    # ---- breakpoints

    def break_at(self, name, method, descriptor, number):
        if sum(2 if kind == "J" else 1 for kind in parts_of(descriptor)[0]) > UNITS:
            return None
        owner = self.world.classes.get(name)
        found = owner and owner.method(method, descriptor)
        if not found or int(number) not in (found.code or {}):
            return ["error no such place"]
        place = found, int(number)
        if self.vacant:
            at = self.vacant.pop()
            self.places[at] = place
        else:
            at = len(self.places)
            self.places.append(place)
        return [f"breakpoint {at}"]

    def delete(self, number):
        at = int(number)
        if at >= len(self.places) or self.places[at] is None:
            return ["error no such breakpoint"]
        self.places[at] = None
        self.vacant.append(at)
        return [f"deleted {at}"]

    def held(self, thread):
        """The least number of a breakpoint at which a thread stands, or none."""
        frame = self.world.frame(thread)
        place = frame.method, frame.pc
        return self.places.index(place) if place in self.places else None

    # ---- turns

    def step(self, thread):
        return [self.world.turn(int(thread))] if int(thread) <= 255 else None

    def collect(self):
        return [self.world.turn("c")]

    def run(self, most):
        if not 1 <= int(most) <= 1_000_000:
            return None
        turns, reason = self.ran(int(most))
        return [f"ran {turns}: {reason}"]

    def ran(self, most):
        """How many turns of threads are done, and why no more."""
        world = self.world
        for made in range(most):
            if world.status() != "running":
                return made, self.standing()
            thread = world.pick()
            held = self.held(thread) if made else None
            if held is not None:
                return made, f"at breakpoint {held} thread {thread}"
            answer = world.turn(thread)
            if answer != "done":
                return made, answer
            if world.status() == "running":
                answer = world.turn("c")
                if answer != "done":
                    return made + 1, answer
        return most, self.standing()

    def standing(self):
        status = self.world.status()
        return f"fault F{self.world.fault[0]}" if status == "faulted" else status

    # ---- what is seen

    def stack(self, thread):
        if int(thread) > 255:
            return None
        if int(thread) >= len(self.world.threads):
            return ["error no such thread"]
        frames = self.world.threads[int(thread)].frames
        return [line for depth in reversed(range(len(frames))) for line in self.frame(depth, frames[depth])] or ["ended"]

    @staticmethod
    def frame(depth, frame):
        method = frame.method
        yield f"frame {depth} {method.owner.name}.{method.name}{method.descriptor} pc {frame.pc}"
        yield f"locals{values_text(frame.locals)}"
        yield f"stack{values_text(frame.stack)}"
        if frame.monitor is not None:
            yield f"monitor #{frame.monitor}"
        if frame.mark:
            yield frame.mark

    def object(self, birth):
        if int(birth) not in self.world.reachable():
            return ["error no such object"]
        it = self.world.objects[int(birth)]
        if it.fields is None:
            return [f"array {birth} {it.type} {len(it.elements)}{values_text(it.elements)}"]
        fields = [f"{owner}.{name} = {value_text(value)}" for (owner, name, _), value in it.fields.items()]
        return [f"object {birth} {it.type}", *fields]

    def heap(self):
        cells = [f"cell {n} {words} " + ("free" if birth is None else f"#{birth} {colour}")
                 for n, (words, birth, colour) in enumerate(self.world.heap.cells)]
        return [*cells, f"phase {self.world.heap.phase}"]

    def state(self, name):
        state = self.world.states.get(name)
        words = f"running {state[1]}" if isinstance(state, tuple) else state
        return [f"class {name} {words}" if state else "error no such class"]
