#!/usr/bin/env python3
"""Measures the greatest resident size of replays at the limits of both formats: of paths and grids of the heaviest edges,
without calls, and of made inputs with as many calls as there may be. It prints a table, and holds it to nothing. The program is
started by GNU time, since a process that Python starts counts Python's own size too; where that is missing it says that it was
skipped.

Usage, at the top of the repository: bench/resident.py        It runs crates/track_main/out/track_main, or the program that the
variable TRACK names."""
import os
import shutil
import subprocess
import sys
import tempfile

sys.dont_write_bytecode = True
sys.path.insert(0, os.path.join(os.path.dirname(os.path.realpath(__file__)), "../scripts"))
from networks import edges, text  # noqa: E402
from program import PROVED, tried_program  # noqa: E402

OURS = tried_program(PROVED)
HEAVIEST = 1048576
MADE = {256: "42 256 4 64 64 8192", 1024: "7 1024 3 64 64 16384"}


def make(words):
    """The input that `make` makes of these numbers."""
    return subprocess.run([OURS, "make", *words.split()], stdout=subprocess.PIPE, check=True).stdout


def inputs():
    """Each input with its name."""
    for n, words in MADE.items():
        for kind in ("path", "grid"):
            for k in (2, 8):
                yield f"{kind} of {n} nodes, k {k}", text(n, k, edges(kind, n, HEAVIEST)).encode()
        yield f"make {words}", make(words)


def resident(given):
    """The greatest resident size of its replay, in kilobytes, and how long its text is."""
    with tempfile.TemporaryFile() as source, tempfile.TemporaryFile() as text_out, tempfile.NamedTemporaryFile() as size:
        source.write(given)
        source.seek(0)
        words = ["time", "-f", "%M", "-o", size.name, OURS, "replay"]
        subprocess.run(words, stdin=source, stdout=text_out, check=True)
        return int(size.read()), text_out.seek(0, os.SEEK_END)


def main():
    if not shutil.which("time"):
        print("bench/resident.py: skipped, there is no GNU time here")
        return 0
    print("| replay of | input, bytes | text, bytes | greatest resident size, MB |")
    print("|---|---|---|---|")
    for name, given in inputs():
        size, length = resident(given)
        print(f"| {name} | {len(given):,} | {length:,} | {size / 1024:.1f} |")
    return 0


if __name__ == "__main__":
    sys.exit(main())
