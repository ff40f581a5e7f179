#!/usr/bin/env python3
"""Holds back the youngest checks while memory is short, so that the others needn't wait for the disk, or be killed.

    tools/hold_back.py PID

For .ci/run. PID is `rt ci`, which starts as many checks as it's told, whatever they need. Mostly four fit; those of the crates at
the top don't. Each two seconds this looks at the free memory. Where it's short, a check is stopped, but for the last two: the
youngest of those whose crate no other waits for, or else of all. It goes on once there is enough again, or fewer than two others
are left. It says so on standard output, and ends with PID. In the end it tells how little memory and disk were free.
"""
import os
import signal
import sys
import time

# where a check is stopped, and where one goes on, in kB
SHORT, ENOUGH = 2_500_000, 6_500_000
# so many are never stopped
LEAST = 2
PAUSE = 2
CRATES = os.path.join(os.path.dirname(os.path.dirname(os.path.abspath(__file__))), "crates.txt")


def used():
    """The crates and libraries that a crate uses."""
    with open(CRATES, encoding="utf-8") as file:
        return {name for line in file for name in line.partition("#")[0].partition(":")[2].split()}


def free():
    """The free memory in kB, what the disk's pages may give back with it."""
    with open("/proc/meminfo", encoding="ascii") as file:
        return next(int(line.split()[1]) for line in file if line.startswith("MemAvailable:"))


def disk():
    """The free disk in kB, where this checkout is."""
    room = os.statvfs(os.path.dirname(CRATES))
    return room.f_bavail * room.f_frsize // 1024


def processes():
    """Each process's name, parent and start, by its number."""
    found = {}
    for name in os.listdir("/proc"):
        if name.isdigit():
            try:
                with open(f"/proc/{name}/stat", encoding="utf-8", errors="replace") as file:
                    before, _, rest = file.read().rpartition(")")
            except OSError:
                continue  # (it has ended)
            fields = rest.split()
            found[int(name)] = before.partition("(")[2], int(fields[1]), int(fields[19])
    return found


def above(number, found):
    """A process's parent, and so on."""
    while number in found:
        number = found[number][1]
        yield number


def checks(of, found):
    """The checks that a process started, directly or not, oldest first: each is a process, with all that it started itself."""
    lines = {it: [*above(it, found)] for it in found if found[it][0] == "rattle"}
    tops = [it for it, line in lines.items() if of in line and not any(up in lines for up in line)]
    tops.sort(key=lambda it: (found[it][2], it))
    return {top: [top, *(it for it in found if top in above(it, found))] for top in tops}


def tell(check, sign):
    """Sends a signal to each process of a check."""
    for it in check:
        try:
            os.kill(it, sign)
        except OSError:
            pass  # (it has ended)


def place_of(check):
    """The crate of a check, or the folder of a wrong body."""
    try:
        return os.path.basename(os.readlink(f"/proc/{check}/cwd"))
    except OSError:
        return "a crate"


def choose(begun, held, room, needed):
    """Which check is to stop, and which is to go on; nothing for either where none is. needed: crates that others wait for."""
    goes = [it for it in begun if it not in held]
    if room < SHORT and len(goes) > LEAST:
        return ([it for it in goes if place_of(it) not in needed] or goes)[-1], None
    if held and (room > ENOUGH or len(goes) < LEAST):
        return None, held[0]
    return None, None


def watch(of, held, least):
    """Looks until a process has ended; held: the checks that are stopped; least: the least free memory and disk in kB."""
    needed = used()
    while of in (found := processes()):
        begun = checks(of, found)
        held[:] = [it for it in held if it in begun]
        room = free()
        least[:] = [min(least[0], room), min(least[1], disk())]
        stops, goes = choose(begun, held, room, needed)
        if stops:
            held.append(stops)
            tell(begun[stops], signal.SIGSTOP)
            print(f"memory: the check of {place_of(stops)} waits", flush=True)
        if goes:
            held.remove(goes)
            tell(begun[goes], signal.SIGCONT)
            print(f"memory: the check of {place_of(goes)} goes on", flush=True)
        time.sleep(PAUSE)


def main():
    """Watches the checks of a process, and leaves none stopped, however it ends."""
    if len(sys.argv) != 2 or not sys.argv[1].isdigit():
        print(__doc__)
        return 2
    signal.signal(signal.SIGTERM, lambda number, _: sys.exit(128 + number))
    of, held, least = int(sys.argv[1]), [], [free(), disk()]
    try:
        watch(of, held, least)
    finally:
        print(f"free at the least: {least[0] // 1000} MB of memory, {least[1] // 1000} MB of the disk", flush=True)
        begun = checks(of, processes())
        for it in held:
            tell(begun.get(it, []), signal.SIGCONT)
    return 0


if __name__ == "__main__":
    sys.exit(main())
