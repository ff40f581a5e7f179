#!/usr/bin/env python3
"""Tries wrong bodies (crates/NAME/must-fail/*.edit) over a crate's kept work, so that one takes a fraction of a minute.

    tools/try_wrong_bodies.py CRATE [EDIT ..]

For work between gates: `rt must-fail CRATE`, which proves all libraries from nothing, is the judge. Run `rt check` in the crate
first. It calls parts of the command `rt` that its authors may change.
"""

import os
import shutil
import subprocess
import sys
import tempfile
import time

from kit import module_of_kit


def main():
    if len(sys.argv) < 2:
        print(__doc__)
        return 2
    root = subprocess.run(["git", "rev-parse", "--show-toplevel"], capture_output=True, text=True, check=True).stdout.strip()
    os.chdir(root)
    rt = module_of_kit("rt")
    crate = next(it for it in rt.rtlib.crates_below(root) if it.name == sys.argv[1])
    edits, _ = rt.edits_of(crate)
    wanted = [it.removesuffix(".edit") for it in sys.argv[2:]]
    failed = 0
    for edit in edits:
        if wanted and os.path.basename(edit).removesuffix(".edit") not in wanted:
            continue
        start = time.time()
        with tempfile.TemporaryDirectory() as room:
            kept = os.path.join(room, "kept")
            shutil.copytree(os.path.join(crate.folder, "out", "incremental"), kept)
            refused, text = rt.must_fail(crate, edit, ["--jobs", "1"], kept)
        failed += not refused
        print(f"{text} ({time.time() - start:.0f} s)", flush=True)
    return 1 if failed else 0


if __name__ == "__main__":
    sys.exit(main())
