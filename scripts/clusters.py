"""How the clusters of a level are drawn: along which edges, and in colours that neighbours don't share."""
from collections import Counter

import directory
from pictures import COLOURS


def mixed(colour, other, share):
    """A colour with a share of another."""
    parts = [[int(each[at:at + 2], 16) for at in (1, 3, 5)] for each in (colour, other)]
    return "#" + "".join(f"{round(one + share * (two - one)):02x}" for one, two in zip(*parts))


# The eight colours, and then lighter and darker ones, for clusters with many neighbours.
PALETTE = COLOURS + [mixed(colour, other, 0.45) for other in ("#ffffff", "#000000") for colour in COLOURS]


def tree_of(network, cluster):
    """The edges of least walks from the leader inside a cluster."""
    inside = set(cluster.members)
    weights = directory.least_weights(network.arcs, cluster.leader, inside)
    edges = []
    for v in cluster.members:
        nearer = [u for u, w in network.arcs[v].items() if u in inside and weights[u] + w == weights[v]]
        edges += [(min(nearer), v)] if v != cluster.leader else []
    return edges


def neighbours_of(level, network):
    """For each cluster the others that share a node with it, or have one at the other end of an edge."""
    holding = [set() for _ in range(network.nodes)]
    for c, cluster in enumerate(level.clusters):
        for v in cluster.members:
            holding[v].add(c)
    near = []
    for c, cluster in enumerate(level.clusters):
        reached = set(cluster.members).union(*(network.arcs[v] for v in cluster.members))
        near.append(set().union(*(holding[v] for v in reached)) - {c})
    return near


def colours_of(level, network):
    """The number of each cluster's colour: one of its own where the clusters are few. Else those with most neighbours choose first:
    of the colours that fewest neighbours have, the one that fewest clusters have."""
    near = neighbours_of(level, network)
    if len(near) <= len(COLOURS):
        return list(range(len(near)))
    colours = {}
    for c in sorted(range(len(near)), key=lambda c: (-len(near[c]), c)):
        beside = Counter(colours[other] for other in near[c] if other in colours)
        used = Counter(colours.values())
        colours[c] = min(range(len(PALETTE)), key=lambda number: (beside[number], number // len(COLOURS), used[number], number))
    return [colours[c] for c in range(len(near))]
