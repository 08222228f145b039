#!/usr/bin/env python3
"""Times `cover` on a path, a ring, a star, a grid, a complete and a random network of 32 to 256 nodes. It builds nothing:
it runs crates/track_main/out/track_main, or the program that the variable TRACK names, and beside it, in turns, another program
where one is named. The columns are the median of the wall times in milliseconds, and the ratio of ours to the other's in the same run.

Usage, at the top of the repository: bench/cover.py [OTHER PROGRAM]        RUNS=9 sets how often each is run, K="1 2 3 8" the
trade-offs."""
import os
import subprocess
import sys
import time

sys.dont_write_bytecode = True
sys.path.insert(0, os.path.join(os.path.dirname(os.path.realpath(__file__)), "../scripts"))
from networks import KINDS, edges, text  # noqa: E402
from program import PROVED, tried_program  # noqa: E402

KINDS = KINDS + ["random"]

OURS = tried_program(PROVED)


def once(program, data):
    start = time.perf_counter()
    done = subprocess.run([program, "cover"], input=data, stdout=subprocess.PIPE, check=True)
    return time.perf_counter() - start, done.stdout


def main():
    programs = [OURS] + sys.argv[1:2]
    runs = int(os.environ.get("RUNS", "9"))
    trade_offs = [int(k) for k in os.environ.get("K", "2").split()]
    print(f"{'network':12} {'nodes':>5} {'k':>2} {'ours ms':>9}" + (f" {'other ms':>9} {'ratio':>6} same" if programs[1:] else ""))
    for kind, k in ((kind, k) for kind in KINDS for k in trade_offs):
        for n in (32, 64, 128, 256):
            data = text(n, k, edges(kind, n, lambda a, b: 1 + (a * 7919 + b * 104729) % 1048576)).encode()
            times = [[] for _ in programs]
            texts = [b"" for _ in programs]
            for _ in range(runs):
                for place, program in enumerate(programs):
                    taken, texts[place] = once(program, data)
                    times[place].append(taken * 1000)
            medians = [sorted(t)[len(t) // 2] for t in times]
            line = f"{kind:12} {n:5} {k:2} {medians[0]:9.2f}"
            if len(programs) > 1:
                line += f" {medians[1]:9.2f} {medians[0] / medians[1]:6.2f} {'yes' if texts[0] == texts[1] else 'NO'}"
            print(line, flush=True)


main()
