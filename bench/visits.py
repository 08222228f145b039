#!/usr/bin/env python3
"""Measures visits of a tracker beside the same visits of plain cells, on the line of four nodes: instructions of a look and
of a put (valgrind --tool=callgrind), and the looks a second of one thread, of two and of four, each thread at a node of its
own or all at one node. It copies the repository into a new folder, adds the crate that bench/visits.txt has, and builds it
there with rt.

Usage, at the top of the repository: bench/visits.py FOLDER        LOOKS=2000000 sets how many looks a thread makes."""
import os
import re
import subprocess
import sys
import time

BELOW = "node_set net_graph distances entry_word directory trail_laws region_plan stretch_laws visit_log handset station walk"


def build(folder):
    """The program, built in a copy of the repository."""
    if not os.path.exists(folder):
        subprocess.run(["git", "clone", "-q", ".", folder], check=True)
        with open(os.path.join(folder, "crates.txt"), "a") as crates:
            crates.write(f"visits: {BELOW} tracker_calls\n")
    crate = os.path.join(folder, "crates", "visits")
    parts = re.split(r"^=== (.*)\n", open("bench/visits.txt").read(), flags=re.MULTILINE)[1:]
    for name, text in zip(parts[::2], parts[1::2]):
        path = os.path.join(crate, name)
        os.makedirs(os.path.dirname(path), exist_ok=True)
        with open(path, "w") as file:
            file.write(text.rstrip("\n") + "\n" if text.strip() else "")
    subprocess.run(["rt", "run", "--jobs", "1", "--", "nothing", "0"], cwd=crate, check=True)
    return os.path.join(crate, "out", "visits")


def instructions(program, mode, count):
    """The instructions of a run."""
    command = ["valgrind", "--tool=callgrind", "--callgrind-out-file=/dev/null", program, mode, str(count)]
    ran = subprocess.run(command, check=True, capture_output=True, text=True)
    return int(re.search(r"Collected : (\d+)", ran.stderr).group(1))


def per_call(program, mode, count=20000):
    """The instructions of one more look, or of one more move."""
    return (instructions(program, mode, 2 * count) - instructions(program, mode, count)) / count


def seconds(program, mode, count):
    """The least wall time of five runs, without what a run takes that makes no visit."""
    def once(visits):
        start = time.perf_counter()
        subprocess.run([program, mode, str(visits)], check=True)
        return time.perf_counter() - start
    return min(once(count) for _ in range(5)) - min(once(0) for _ in range(5))


def main():
    if len(sys.argv) != 2:
        print(__doc__)
        return
    program = build(sys.argv[1])
    for ours, plain in (("looks", "plain-looks"), ("moves", "plain-moves")):
        tracker, cells = per_call(program, ours), per_call(program, plain)
        print(f"{ours}: tracker {tracker:.1f} plain {cells:.1f} instructions, ratio {tracker / cells:.2f}")
    looks = int(os.environ.get("LOOKS", "2000000"))
    for mode, threads in (("looks", 1), ("two-apart", 2), ("four-apart", 4), ("two-together", 2), ("four-together", 4)):
        print(f"{mode}: {threads * looks / seconds(program, mode, looks) / 1e6:.2f} million looks a second")


if __name__ == "__main__":
    main()
