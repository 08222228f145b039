#!/usr/bin/env python3
"""Runs made inputs by threads, over and over, and replays each under the order that the run printed: both texts are to be the
same, byte for byte. Tells how many different orders came, in how many of them two actors alternate, and what a run takes
beside a replay: processor time and wall time, medians.

Usage, at the top of the repository: bench/check_runs.py [RUNS]        RUNS (1000) in all, over three loads. It runs
crates/track_main/out/track_main, or the program that the variable TRACK names."""
import hashlib
import os
import resource
import statistics
import subprocess
import sys
import time

sys.dont_write_bytecode = True
sys.path.insert(0, os.path.join(os.path.dirname(os.path.realpath(__file__)), "../scripts"))
from program import PROVED, tried_program  # noqa: E402

OURS = tried_program(PROVED)
LOADS = ["42 256 4 64 64 2048", "42 256 4 64 64 8192", "7 1024 3 64 64 16384"]


def timed(word, given):
    """The text of a run, its processor time and its wall time."""
    before, start = resource.getrusage(resource.RUSAGE_CHILDREN), time.perf_counter()
    ran = subprocess.run([OURS, word], input=given, stdout=subprocess.PIPE, check=True)
    wall, after = time.perf_counter() - start, resource.getrusage(resource.RUSAGE_CHILDREN)
    return ran.stdout, after.ru_utime + after.ru_stime - before.ru_utime - before.ru_stime, wall


def with_order(text, report):
    """The input with the order that a report printed in place of its own."""
    kept = [line for line in text.split(b"\n") if not line.startswith(b"order")]
    return b"\n".join(kept) + b"\n".join(line for line in report.split(b"\n") if line.startswith(b"order")) + b"\n"


def switches(report):
    """How often the actor of the next ticket is another."""
    actors = [a for line in report.split(b"\n") if line.startswith(b"order") for a in line.split()[1:]]
    return sum(1 for one, other in zip(actors, actors[1:]) if one != other)


def check(load, count):
    """Runs one load so often."""
    text = subprocess.run([OURS, "make", *load.split()], stdout=subprocess.PIPE, check=True).stdout
    orders, changes, runs, replays = set(), [], [], []
    for _ in range(count):
        report, *times = timed("run", text)
        again, *others = timed("replay", with_order(text, report))
        if report != again:
            raise SystemExit(f"make {load}: a run and the replay of its order differ")
        orders.add(hashlib.sha256(report).digest())
        changes.append(switches(report))
        runs.append(times)
        replays.append(others)
    ratio = [statistics.median(x[i] for x in runs) / statistics.median(x[i] for x in replays) for i in (0, 1)]
    print(f"make {load}: {count} runs, {len(orders)} different orders, {statistics.median(changes):.0f} changes of the actor"
          f" (median), processor time {ratio[0]:.2f} and wall time {ratio[1]:.2f} of a replay's")


def main():
    count = int(sys.argv[1]) if sys.argv[1:] else 1000
    for place, load in enumerate(LOADS):
        check(load, count // len(LOADS) + (place < count % len(LOADS)))


if __name__ == "__main__":
    main()
