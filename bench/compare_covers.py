#!/usr/bin/env python3
"""Compares the two covers on a path, a ring, a star, a grid, a complete and a random network: the plans that `cover` and
`meancover` write, and what finds weigh over both, by `replay` and `meanreplay` of one input. It prints the tables of
docs/PERFORMANCE.md, "The two covers". For each cover, in this order:

    sum       the greatest sum of the sizes of a level's clusters, in nodes of the network
    degree    the most clusters of a level at one node
    stretch   the bound, as the plan prints it
    near, far what finds weigh in times their distance, over finds from at most 4 away, and from anywhere; all finds come after
              all moves

Usage, at the top of the repository: bench/compare_covers.py [NODES]        K="2 4" sets the trade-offs. TRACK names the
program, ./track where it isn't set."""
import heapq
import os
import subprocess
import sys

sys.dont_write_bytecode = True
sys.path.insert(0, os.path.join(os.path.dirname(os.path.realpath(__file__)), "../scripts"))
from networks import KINDS, edges  # noqa: E402
from program import tried_program  # noqa: E402

KINDS = KINDS + ["random"]
OURS = tried_program()
SUBS, CALLERS, MOVES, FINDS = 8, 8, 32, 512
NEAR = 4


class Draw:
    """Numbers that look like chance, the same at every run."""

    def __init__(self, seed):
        self.state = seed

    def below(self, most):
        self.state = (self.state * 6364136223846793005 + 1442695040888963407) % 2**64
        return (self.state >> 33) % most


def weight(a, b):
    """A weight of 1 to 4 for the edge."""
    return 1 + (a * 7919 + b * 104729) % 4


def least_from(neighbours, root):
    """The distances from a node."""
    found, waiting = {}, [(0, root)]
    while waiting:
        far, u = heapq.heappop(waiting)
        if u not in found:
            found[u] = far
            for v, w in neighbours[u]:
                heapq.heappush(waiting, (far + w, v))
    return found


def told(word, text):
    """The lines that the program writes."""
    done = subprocess.run([OURS, word], input=text.encode(), stdout=subprocess.PIPE, check=True)
    return [line.split() for line in done.stdout.decode().splitlines()]


def plan_parts(lines):
    """The greatest sum of the sizes of a level's clusters, the degree and the stretch."""
    sums = []
    for line in lines:
        if line[0] == "level":
            sums.append(0)
        elif line[0] == "cluster":
            sums[-1] += len(line) - line.index("members") - 1
    head = lines[0]
    return max(sums), int(head[head.index("degree") + 1]), int(head[head.index("stretch") + 1])


def input_with_finds(n, k, es, distance, near):
    """Moves from anywhere to anywhere, and after them finds from nearby or from anywhere."""
    draw = Draw(n)
    homes = [draw.below(n) for _ in range(SUBS)]
    lines = ["track 2", f"nodes {n}", f"k {k}"] + [f"edge {a} {b} {w}" for a, b, w in es]
    lines += [f"sub {home}" for home in homes] + [f"callers {CALLERS}"]
    at = list(homes)
    for _ in range(MOVES):
        sub, to = draw.below(SUBS), draw.below(n)
        if to != at[sub]:
            at[sub] = to
            lines.append(f"move {sub} {to}")
    ways = 0
    for _ in range(FINDS):
        sub = draw.below(SUBS)
        starts = [v for v in range(n) if v != at[sub] and (not near or distance[at[sub]][v] <= NEAR)]
        start = starts[draw.below(len(starts))]
        ways += distance[at[sub]][start]
        lines.append(f"find {SUBS + draw.below(CALLERS)} {start} {sub}")
    return "\n".join(lines) + "\n", ways


def finds_weigh(word, text, ways):
    """The weights of all finds, in times their distances."""
    lines = [line for line in told(word, text) if line[0] in ("find", "again")]
    return sum(int(line[line.index("weight") + 1]) for line in lines) / ways


def main():
    n = int(sys.argv[1]) if len(sys.argv) > 1 else 256
    trade_offs = [int(k) for k in os.environ.get("K", "2 4").split()]
    print("| network | k | sum | mean | degree | mean | stretch | mean | near | mean | far | mean |")
    print("|---|---|---|---|---|---|---|---|---|---|---|---|")
    for kind in KINDS:
        es = edges(kind, n, weight)
        neighbours = [[] for _ in range(n)]
        for a, b, w in es:
            neighbours[a].append((b, w))
            neighbours[b].append((a, w))
        distance = [least_from(neighbours, v) for v in range(n)]
        for k in trade_offs:
            near, near_ways = input_with_finds(n, k, es, distance, True)
            far, far_ways = input_with_finds(n, k, es, distance, False)
            plans = [plan_parts(told(word, far)) for word in ("cover", "meancover")]
            parts = [f"{plan[0] / n:.2f}" for plan in plans] + [str(plan[1]) for plan in plans]
            parts += [str(plan[2]) for plan in plans]
            for text, ways in ((near, near_ways), (far, far_ways)):
                parts += [f"{finds_weigh(word, text, ways):.2f}" for word in ("replay", "meanreplay")]
            print(f"| {kind} | {k} | " + " | ".join(parts) + " |", flush=True)


main()
