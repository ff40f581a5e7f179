#!/usr/bin/env python3
"""Proves and builds the crates of this checkout side by side, those first on which the longest chain of others stands.

Usage: first_build.py [--jobs N] [--log FOLDER] [--program | NAME ..]

`rt check` in a crate builds what is below it one crate after another, and a second `rt` in the same checkout waits for it;
`rt all check` reads every crate once before it begins. This calls the kit as `rt all` does, for the crates named and those
below them, or for all but the crates of tests, so many at a time (three), each by one process, or by more where fewer can
begin. What each says goes into FOLDER/NAME.log (/tmp/first_build), and a line for each into standard output. It begins with
what is kept in out/, and may be stopped at any time: all that it started ends with it, and a next call goes on. It calls
parts of the kit that its authors may change.

With --program, as `./jvm --prove` calls it, `jvm` and the crates below it are proved, and then the program is built. There
as many work at a time as processors and memory allow, three at most; once one has failed, no other is begun; and the logs
are in out/proofs.
"""
import argparse
import os
import shutil
import signal
import subprocess
import sys
import threading
import time
import traceback

from kit import module_of_kit

HERE = os.path.dirname(os.path.dirname(os.path.abspath(__file__)))
PROGRAM = f"{HERE}/crates/jvm/out/jvm"
AT_ONCE = 3
# the memory that one check of these crates seldom takes more than
MEMORY = 5_000_000_000


def minutes_since(began):
    """How long it is since then, in words."""
    minutes = int(time.time() - began) // 60
    return f"{minutes} min" if minutes else f"{time.time() - began:.0f} s"


class Build:
    """Crates that are built, so many at a time, each once those that it uses are."""

    def __init__(self, crates, jobs, log, goes_on=True):
        """goes_on: whether others are begun once one has failed."""
        self.crates, self.jobs, self.log, self.goes_on = crates, jobs, log, goes_on
        self.done, self.failed, self.running = set(), set(), set()
        self.turn = threading.Condition()
        self.heights = {}
        self.began = time.time()

    def users(self, crate):
        """Those that use a crate."""
        return [it for it in self.crates if crate in it.deps]

    def height(self, crate):
        """How many lines of code the longest chain of crates has that begins with this one and goes up."""
        if crate not in self.heights:
            own = crate.count(rb"\n")
            self.heights[crate] = own + max(map(self.height, self.users(crate)), default=0)
        return self.heights[crate]

    def ready(self):
        """Those that can begin, the longest chain first."""
        if self.failed and not self.goes_on:
            return []
        left = [it for it in self.crates if it not in self.done | self.failed | self.running]
        ready = [it for it in left if all(dep in self.done for dep in it.deps if dep in self.crates)]
        return sorted(ready, key=self.height, reverse=True)

    def status_of(self, crate, processes):
        """Proves a crate by so many processes, which says all in its log, and gives the status."""
        flags = ["--jobs", str(processes)]
        try:
            with open(f"{self.log}/{crate.name}.log", "w+", encoding="utf-8") as crate.out:
                os.makedirs(f"{crate.folder}/out", exist_ok=True)
                return crate.build_rlib(flags, anew=False) if self.users(crate) else crate.check(flags)
        except (Exception, SystemExit):  # whatever it is, those that wait for this crate are to hear of it
            traceback.print_exc()
            return 2

    def work(self, crate, processes):
        """Proves a crate by so many processes, and says so in a line."""
        began = time.time()
        status = self.status_of(crate, processes)
        with self.turn:
            (self.failed if status else self.done).add(crate)
            self.running.discard(crate)
            left = len(self.crates) - len(self.done) - len(self.failed)
            counts = f"({len(self.done)} done, {left} left), {minutes_since(self.began)} so far"
            if status:
                why = "killed, perhaps for want of memory" if status == -signal.SIGKILL else f"status {status}"
                print(f"failed: {crate.name} ({why}); its log is {self.log}/{crate.name}.log {counts}", file=sys.stderr, flush=True)
            else:
                print(f"proved {crate.name} in {time.time() - began:.0f} s {counts}", flush=True)
            self.turn.notify()

    def run(self):
        """Builds all, and gives the status."""
        with self.turn:
            while True:
                places = self.jobs - len(self.running)
                begun = self.ready()[:places]
                for crate in begun:
                    self.running.add(crate)
                    threading.Thread(target=self.work, args=(crate, places // len(begun))).start()
                if not self.running:
                    return 1 if self.failed else 0
                self.turn.wait()


def at_once(rt):
    """How many crates processors and memory allow at a time."""
    return next((it for it in range(AT_ONCE, 1, -1) if it <= rt.cores() and rt.fits(*[MEMORY] * it)), 1)


def build_program(rt, log, began):
    """Builds the proved program from what is proved, and gives the status; began: when the sources were first read, in ns."""
    print("all is proved; now the program is compiled, which takes some two minutes", flush=True)
    # (the words before the command have it end when this does)
    words = [*rt.guarded(), shutil.which("rt"), "run", "--", "explain", "F1"]
    said = f"{log}/program.log"
    with open(said, "wb") as file:
        ran = subprocess.run(words, cwd=f"{HERE}/crates/jvm", stdin=subprocess.DEVNULL, stdout=file, stderr=file, check=False)
    if ran.returncode or not os.path.exists(PROGRAM):
        print(f"failed: the program (status {ran.returncode}); its log is {said}", file=sys.stderr)
        return 1
    os.utime(PROGRAM, ns=(began, began))  # a source that was changed meanwhile is newer
    print(f"the proved program is {PROGRAM}; ./jvm runs it from now on")
    return 0


def options():
    """What the command line says."""
    parser = argparse.ArgumentParser(description=__doc__.split("\n")[0])
    parser.add_argument("--jobs", type=int, metavar="N", help="how many crates at a time")
    parser.add_argument("--log", metavar="FOLDER", help="where the logs go")
    parser.add_argument("--program", action="store_true", help="jvm and what is below it, and then the program")
    parser.add_argument("names", nargs="*", metavar="NAME")
    given = parser.parse_args()
    if given.program and given.names:
        parser.error("--program takes no names")
    given.log = given.log or (f"{HERE}/out/proofs" if given.program else "/tmp/first_build")
    given.names = ["jvm"] if given.program else given.names
    return given


def ends_at_once():
    """Has Ctrl-C, and the end of whoever reads, end this at once, which doesn't wait for its threads; the kit's guard then ends
    all that was started."""
    if signal.getsignal(signal.SIGINT) is signal.default_int_handler:
        signal.signal(signal.SIGINT, signal.SIG_DFL)
    signal.signal(signal.SIGPIPE, signal.SIG_DFL)


def main():
    """Proves what the command line names."""
    given, began = options(), time.time_ns()
    ends_at_once()
    rt = module_of_kit("rtlib.py")
    os.chdir(f"{HERE}/crates")
    try:
        os.makedirs(given.log, exist_ok=True)
    except OSError as error:
        sys.exit(f"cannot write {given.log}: {error.strerror}")
    rt.guarded()
    crates = rt.crates_below(os.getcwd())
    wanted = [it for it in crates if it.name in given.names] if given.names else [it for it in crates if not it.name.endswith("_tests")]
    crates = [it for it in crates if it in wanted or any(it in above.below() for above in wanted)]
    jobs = given.jobs or (at_once(rt) if given.program else AT_ONCE)
    if given.program:
        print(f"proving {len(crates)} crates, {jobs} at a time; if you stop this, the next call goes on", flush=True)
    held = rt.lock(crates)
    status = Build(crates, jobs, given.log, not given.program).run() if held else 1
    if status or not given.program:
        return status
    for it in held:  # `rt run` locks them itself
        os.close(it)
    return build_program(rt, given.log, began)


if __name__ == "__main__":
    sys.exit(main())
