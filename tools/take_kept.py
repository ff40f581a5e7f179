#!/usr/bin/env python3
"""Gives crates of this checkout the libraries that `rt ci NAME..` proved of the same text and kept on this machine.

Usage: take_kept.py NAME ..

`rt ci` proves a crate from nothing and keeps the library, but no work that a later check of that crate could begin with; `rt
check` keeps work, and proves what is below once more. So on a new machine the crates that won't be changed are proved once,
by `rt ci`, and taken from there: the crates above them can then be checked. A library fits only over those that it was built
over: what is below a crate has to be taken with it or before. The kit drops from what it keeps a library that can't be
given, so one that is named over others that were built anew has to be proved again. It calls parts of the kit that its
authors may change: `rt ci` of `rattle-kit-13f` keeps libraries, that of `rattle-kit-13b` keeps none.
"""
import os
import sys

from kit import module_of_kit

HERE = os.path.dirname(os.path.dirname(os.path.abspath(__file__)))


def crates_here(rt):
    if not hasattr(rt, "Kept"):
        sys.exit("the rt ci of this kit keeps no libraries")
    rt.Crate.allowed = rt.handles_of(HERE)
    return rt.crates_of(HERE)


def give(names, tell=lambda line: None):
    """Gives crates of these names what was kept; why one can't be given, or nothing."""
    rt = module_of_kit("rt")
    crates = crates_here(rt)
    wanted = [it for it in crates if it.name in names]
    below = {dep for it in wanted for dep in it.below()}
    kept = rt.Kept(crates)
    for crate in (it for it in crates if it in wanted or it in below):
        if crate in wanted:
            if not kept.give(crate, False, kept.key(crate)):
                return f"{crate.name}: nothing is kept of this text over these libraries: run rt ci {crate.name}"
            with open(f"{crate.folder}/out/rlib/stamp", "w", encoding="utf-8") as file:
                file.write(crate.stamp())
            tell(f"{crate.name}: taken")
        kept.is_built(crate)
    return None


def main():
    names = sys.argv[1:]
    unknown = set(names) - {it.name for it in crates_here(module_of_kit("rt"))}
    if unknown or not names:
        sys.exit(f"no crate is named {' '.join(sorted(unknown))}" if unknown else __doc__)
    return give(names, print)


if __name__ == "__main__":
    sys.exit(main())
