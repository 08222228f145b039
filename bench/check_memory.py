#!/usr/bin/env python3
"""Runs the program with less and less memory: the most addresses that it may have fall from run to run (RLIMIT_AS), so that one
request for memory after another is refused, those for the stacks of threads too. Each run is to end with status 0 and the right
text, or with status 3 and nothing written. Where the limit is so low that the system can't start the program, that run isn't
counted.

Usage, at the top of the repository: bench/check_memory.py [STEP]        STEP (4096) is how many bytes a limit is below the one
before, from 8 MB on; above, it is a megabyte. It runs crates/track_main/out/track_main, or the program that the variable TRACK names."""
import os
import resource
import subprocess
import sys

sys.dont_write_bytecode = True
sys.path.insert(0, os.path.join(os.path.dirname(os.path.realpath(__file__)), "../scripts"))
from program import PROVED, tried_program  # noqa: E402

OURS = tried_program(PROVED)
MOST = 64 << 20
FINE = 8 << 20

LINE = "track 1\nnodes 4\nk 2\nedge 0 1 1\nedge 1 2 1\nedge 2 3 1\nsub 3\ncallers 1\n"
RUNS = [
    ("replay", LINE + "move 0 2\nfind 1 3 0\n"),
    ("run", LINE + "find 1 0 0\n"),
    ("cover", LINE),
    ("census", LINE + "move 0 2\n"),
]


def run(word, given, most):
    """A run that may have so many bytes of addresses: its status and its text."""
    limit = lambda: resource.setrlimit(resource.RLIMIT_AS, (most, most))
    ran = subprocess.run([OURS, word], input=given.encode(), stdout=subprocess.PIPE, stderr=subprocess.DEVNULL, preexec_fn=limit)
    return ran.returncode, ran.stdout


def check(word, given, step):
    """Lowers the limit until the program doesn't start any more; tells how often each status came."""
    right = run(word, given, resource.RLIM_INFINITY)[1]
    seen = {0: 0, 3: 0}
    most = MOST
    while most > 0:
        status, text = run(word, given, most)
        if status in (0, 3):
            if text != (b"" if status else right):
                raise SystemExit(f"{word} with {most} bytes: status {status}, and another text")
            seen[status] += 1
        elif text or status not in (127, -6, -9, -11):
            raise SystemExit(f"{word} with {most} bytes: status {status}")
        elif seen[3] or most < FINE:
            break
        most -= step if most <= FINE else 1 << 20
    print(f"{word}: status 0 {seen[0]} times, status 3 {seen[3]} times, down to {most:,} bytes")


def main():
    step = int(sys.argv[1]) if sys.argv[1:] else 4096
    for word, given in RUNS:
        check(word, given, step)


if __name__ == "__main__":
    main()
