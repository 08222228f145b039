#!/usr/bin/env python3
"""Marks what a gate has built in this clone, so that `rt lib` of a crate above takes it and proves none of it again: `rt ci` leaves
libraries without the mark that rt looks for. A library is marked where it is newer than the sources of its crate and of all crates
below it. Usage, at the top of the repository, behind a gate that passed: checks/stamps.py CRATE.. marks those below these crates."""
import functools
import os
import pathlib
import shutil
import sys

sys.dont_write_bytecode = True
RT = shutil.which("rt") or sys.exit("stamps: there is no rt")
sys.path.insert(0, str(pathlib.Path(RT).resolve().parent))
import rtlib  # noqa: E402  (the kit's own, which knows what a crate of crates.txt stands on)


def once(call):
    """A call of a crate that is made once for each: many ways lead to a crate far below, by each of which it is asked for."""
    known = {}

    @functools.wraps(call)
    def told(crate):
        if crate.folder not in known:
            known[crate.folder] = call(crate)
        return known[crate.folder]

    return told


rtlib.Crate.stamp = once(rtlib.Crate.stamp)


@once
def newest(crate):
    """When a source of the crate, or of one below, was changed last. The time of a change can't be set back by a copy."""
    parts = [pathlib.Path(crate.folder, part) for part in rtlib.PARTS]
    own = [it.stat().st_ctime for part in parts for it in [part, *part.rglob("*")] if it.exists()]
    return max([*own, *map(newest, crate.deps)])


@once
def mark(crate):
    """Whether the crate's library is marked as built of its sources: it was put here after their last change."""
    library = pathlib.Path(crate.rlib)
    if not library.is_dir() or library.stat().st_ctime < newest(crate):
        return False
    if not all([mark(below) for below in crate.deps]):
        return False
    (library.parent / "stamp").write_text(crate.stamp(), encoding="utf-8")
    return True


def main():
    top = os.getcwd()
    for name in sys.argv[1:]:
        crate = rtlib.Crate(f"{top}/crates/{name}", top, {})
        left = [below.name for below in crate.below() if not mark(below)]
        if left:
            sys.exit(f"stamps: no gate has built {' '.join(left)} of these sources here")


main()
