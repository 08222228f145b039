#!/usr/bin/env python3
"""Finds the least memory with which standard runs succeed, and compares it with what bench/least_memory.txt keeps, so that room
that is asked for and not used is seen: not every list's room has a clause, and a page that nobody touches isn't resident. The
most addresses that a run may have (RLIMIT_AS) is halved to where it just ends with status 0; that repeats to some pages. A run
fails here that needs more than a tenth more than is kept. A run of which no number is kept yet is told, and fails nothing. Words
of the command line for which there is no memory have to end with status 3.

Usage, at the top of the repository: bench/least_memory.py [--keep]        With --keep it writes the numbers anew, once a change
has been found to be worth them. It runs crates/track_main/out/track_main, or the program that the variable TRACK names."""
import resource
import subprocess
import sys

import instructions
from networks import edges, text

KEPT = "bench/least_memory.txt"
MOST = 1.1
PAGE = 4096
HEAVIEST = 1048576


def long_path():
    """A path of 1,024 nodes with the heaviest edges: the most levels and readers that a plan of its covers has."""
    return text(1024, 8, edges("path", 1024, HEAVIEST)).encode()


RUNS = [
    *instructions.RUNS,
    ("replay of a path of 1,024 nodes", "replay", long_path),
    ("run of a made input", "run", instructions.busy),
]


def succeeds(command, given, most):
    """Whether a run that may have so many bytes of addresses ends with status 0."""
    limit = lambda: resource.setrlimit(resource.RLIMIT_AS, (most, most))
    ran = subprocess.run([instructions.OURS, *command.split()], input=given, stdout=subprocess.DEVNULL, stderr=subprocess.DEVNULL, preexec_fn=limit)
    return ran.returncode == 0


def least(command, given):
    """The least memory with which a run succeeds, in kilobytes."""
    low, high = 0, 1 << 32
    if not succeeds(command, given, high):
        raise SystemExit(f"bench/least_memory.py: {command} doesn't succeed with {high:,} bytes")
    while high - low > PAGE:
        middle = (low + high) // 2 // PAGE * PAGE
        low, high = (low, middle) if succeeds(command, given, middle) else (middle, high)
    return high // 1024


def words_fail_well():
    """Whether words that take more memory than there is, 1.6 million bytes, end with status 3, up to where there is enough and they are
    refused with 2. With less still the system can't start the program at all."""
    command = [instructions.OURS, "cover", *["x" * 100_000] * 16]
    how = {"stdin": subprocess.DEVNULL, "stdout": subprocess.DEVNULL, "stderr": subprocess.DEVNULL, "check": False}
    ends = []
    for most in range(2_000_000, 10_000_000, 250_000):
        limit = lambda most=most: resource.setrlimit(resource.RLIMIT_AS, (most, most))
        ends.append(subprocess.run(command, preexec_fn=limit, **how).returncode)
    started = ends[ends.index(3):] if 3 in ends else []
    return 2 in started and started == sorted(started, reverse=True) and not {1, 2, 4, 5, 6} & set(ends[:-len(started)])


def kept():
    """The numbers that are kept, by the run's name."""
    try:
        with open(KEPT, encoding="utf-8") as lines:
            return {name: int(number) for number, name in (line.rstrip("\n").split(" ", 1) for line in lines)}
    except FileNotFoundError:
        return {}


def main():
    found = [(name, least(command, given())) for name, command, given in RUNS]
    if sys.argv[1:] == ["--keep"]:
        with open(KEPT, "w", encoding="utf-8") as file:
            file.writelines(f"{number} {name}\n" for name, number in found)
        return 0
    wanted = kept()
    failed = [name for name, number in found if name in wanted and number > MOST * wanted[name]]
    for name, number in found:
        beside = f"{number / wanted[name]:.3f} of what is kept" if name in wanted else "and none is kept yet"
        print(f"{name}: {number:,} kB, {beside}")
    for name in failed:
        print(f"bench/least_memory.py: {name} needs more than {MOST} times what is kept", file=sys.stderr)
    if not words_fail_well():
        print("bench/least_memory.py: words that memory is wanting for end with another status than 3", file=sys.stderr)
        failed.append("words")
    return 1 if failed else 0


if __name__ == "__main__":
    sys.exit(main())
