#!/usr/bin/env python3
"""Checks the texts that `cover` and `meancover` write by plain means of its own: on networks of 256 nodes with weights of 1 and
of 1,048,576, for k of 1 to 8. Of each level: the radius and the phases; that every home contains the ball of its node; that
depths are the greatest least weights inside from the leader, within (2k-1) radii, or 2k+1; of the top level, that every home is
whole. Of `cover`: that clusters of one phase are disjoint, and no node lies in more clusters than there are phases; that p^k <=
k^k n. Of `meancover`: that there is one phase, and t^k <= n^(k+1) for the sum t of the sizes.

Usage, at the top of the repository: bench/check_covers.py [NODES]        It runs crates/track_main/out/track_main, or the
program that the variable TRACK names."""
import functools
import heapq
import itertools
import os
import subprocess
import sys

sys.dont_write_bytecode = True
sys.path.insert(0, os.path.join(os.path.dirname(os.path.realpath(__file__)), "../scripts"))
from networks import KINDS, edges, text  # noqa: E402
from program import PROVED, tried_program  # noqa: E402

OURS = tried_program(PROVED)


def least(neighbours, root, inside=None):
    """Least weights of walks from the root, through the nodes inside."""
    weights = {root: 0}
    waiting = [(0, root)]
    done = set()
    while waiting:
        weight, u = heapq.heappop(waiting)
        if u in done:
            continue
        done.add(u)
        for v, w in neighbours[u]:
            if (inside is None or v in inside) and weight + w < weights.get(v, 1 << 60):
                weights[v] = weight + w
                heapq.heappush(waiting, (weight + w, v))
    return weights


@functools.lru_cache(maxsize=1)
def network(kind, n, weight):
    """The edges of a network, the neighbours of each node, and all nodes with their distances from it, the nearest first."""
    es = edges(kind, n, weight)
    neighbours = [[] for _ in range(n)]
    for a, b, w in es:
        neighbours[a].append((b, w))
        neighbours[b].append((a, w))
    return es, neighbours, [sorted((far, u) for u, far in least(neighbours, v).items()) for v in range(n)]


def check(kind, n, k, weight, mean):
    es, neighbours, nearest = network(kind, n, weight)
    diameter = max(rows[-1][0] for rows in nearest)
    done = subprocess.run([OURS, "meancover" if mean else "cover"], input=text(n, k, es).encode(), stdout=subprocess.PIPE, check=True)
    lines = done.stdout.decode().split("\n")
    assert lines[-2:] == ["end", ""]
    head = lines[0].split()
    levels, degree, stretch = int(head[6]), int(head[8]), int(head[10])
    assert head[:5] == ["plan", "nodes", str(n), "k", str(k)]
    top = levels - 1
    width = 2 * k + 1 if mean else 2 * k - 1
    assert 2**top >= diameter and (top == 0 or 2 ** (top - 1) < diameter)
    at = 1
    most = 0
    for i in range(levels):
        f = lines[at].split()
        assert f[:4] == ["level", str(i), "radius", str(2**i)]
        count, phases = int(f[5]), int(f[7])
        at += 1
        clusters = []
        for c in range(count):
            f = lines[at].split()
            at += 1
            assert f[:3] == ["cluster", str(c), "phase"] and f[4] == "leader" and f[6] == "depth" and f[8] == "members"
            phase, leader, depth, members = int(f[3]), int(f[5]), int(f[7]), list(map(int, f[9:]))
            assert members == sorted(set(members)) and leader in members and phase < phases
            weights = least(neighbours, leader, set(members))
            assert set(weights) == set(members) and max(weights.values()) == depth <= width * 2**i
            clusters.append((phase, set(members)))
        homes = list(map(int, lines[at].split()[1:]))
        at += 1
        assert len(homes) == n
        if mean:
            assert phases == 1 and sum(len(m) for _, m in clusters) ** k <= n ** (k + 1)
        else:
            assert phases**k <= k**k * n
        for p in range(0 if mean else phases):
            of_phase = [m for q, m in clusters if q == p]
            assert of_phase and sum(map(len, of_phase)) == len(set().union(*of_phase))
        reads = [0] * n
        for _, members in clusters:
            for v in members:
                reads[v] += 1
        assert mean or max(reads) <= phases
        most = max(most, *reads)
        for v in range(n):
            home = clusters[homes[v]][1]
            ball = itertools.takewhile(lambda row: row[0] <= 2**i, nearest[v])
            assert all(w in home for _, w in ball)
            assert i < top or len(home) == n
    assert degree == most and stretch == 16 * degree * width + 12 * width + 12
    return levels


def main():
    n = int(sys.argv[1]) if len(sys.argv) > 1 else 256
    for kind in KINDS:
        for weight in (1, 1048576):
            for k in range(1, 9):
                levels = check(kind, n, k, weight, False)
                check(kind, n, k, weight, True)
            print(f"{kind} of {n} nodes, weights of {weight}: k of 1 to 8 hold, {levels} levels", flush=True)


main()
