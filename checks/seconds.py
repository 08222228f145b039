#!/usr/bin/env python3
"""Tells what each function of a crate takes the prover: checks/seconds.py CRATE [--test] [COUNT], at
the top of the repository. The crate is checked from nothing with one job, over the built crates
below, so that each module's file is written when it ends; what lies between two files is the
second's. The COUNT longest (30, if none is given) are told, with their longest parts: `Lts` grows
with the square of a function's size, `Proof` is what `search` finds, and `Answers` what is written
by hand. Other work on the machine makes all of them longer.
"""
import collections
import os
import pathlib
import re
import shutil
import subprocess
import sys
import tempfile

sys.path.insert(0, str(pathlib.Path(shutil.which("rt")).resolve().parent))
import rtlib  # noqa: E402  (the kit's own, which knows what a crate of crates.txt stands on)

MODULE = re.compile(r"Rattle-\w+-(?:proofs|specs)\.(.*?)(?:\.decls)?\.oantt$")
PARTS = "Lts Proof Tie Goals Given Answers Invariants Code Reads Kinds Layout Named Met".split()


def seconds_in(folder):
    """The seconds of each part of each function, by the times of the files in a folder."""
    files = (path for path in folder.rglob("*") if path.is_file())
    rows = sorted((path.stat().st_mtime, path.name) for path in files)
    taken = collections.defaultdict(collections.Counter)
    for (before, _), (now, name) in zip(rows, rows[1:]):
        module = MODULE.match(name)
        if module:
            whole, _, part = module[1].rpartition(".")
            key = (whole, part) if part in PARTS else (module[1], "file")
            taken[key[0]][key[1]] += now - before
    return taken


def main(words):
    counts = [int(word) for word in words if word.isdigit()]
    flags = ["--jobs", "1", *[word for word in words if word == "--test"]]
    names = [word for word in words if word != "--test" and not word.isdigit()]
    if len(names) != 1:
        sys.exit(__doc__)
    top = os.getcwd()
    crate = rtlib.Crate(f"{top}/crates/{names[0]}", top, {})
    with tempfile.TemporaryDirectory(prefix="seconds-") as room:
        # (what is built below, before the check itself)
        quiet = {"cwd": crate.folder, "stdout": subprocess.DEVNULL, "stderr": subprocess.DEVNULL}
        subprocess.run(["rt", "check", "--only="], **quiet)
        checked = [rtlib.RATTLE, "check", *crate.words([*flags, "--incremental", room])]
        ran = subprocess.run(checked, **quiet)
        taken = seconds_in(pathlib.Path(room))
    print(f"{sum(sum(parts.values()) for parts in taken.values()):.0f} seconds")
    longest = sorted(taken.items(), key=lambda it: -sum(it[1].values()))
    for name, parts in longest[: counts[0] if counts else 30]:
        told = ", ".join(f"{part} {time:.1f}" for part, time in parts.most_common(4))
        print(f"{sum(parts.values()):6.1f} {name}: {told}")
    sys.exit("it isn't proved: rt check says why" if ran.returncode else 0)


main(sys.argv[1:])
