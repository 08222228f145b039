"""The networks on which bench/price.py weighs: those of examples/networks/, grids of equal blocks, and points in a square that are
joined where they are near."""
import math

from known_networks import NETWORKS
from loads import Draw

LINKS_A_NODE = 7  # of a geometric network, about, away from its rim
LONGEST = 16  # units: its longest link by the radius, and the longest block of an uneven grid


def grid_of(side, block=1):
    """Crossings of as many streets as avenues, row by row."""
    edges = []
    for v in range(side * side):
        if v % side + 1 < side:
            edges.append((v, v + 1, block))
        if v + side < side * side:
            edges.append((v, v + side, block))
    return side * side, edges


def uneven_grid(side):
    """The same, with blocks whose lengths are drawn."""
    draw, (nodes, edges) = Draw(side), grid_of(side)
    return nodes, [(a, b, 1 + draw.below(LONGEST)) for a, b, _ in edges]


def geometric(nodes):
    """Points drawn in a square, numbered strip by strip. A link joins two that are within a radius, and weighs its length; parts
    that are still apart are joined by the shortest link between them."""
    draw, radius = Draw(nodes), math.sqrt(LINKS_A_NODE / (math.pi * nodes))
    strips = max(1, math.isqrt(nodes) // 4)
    points = sorted(((draw.below(2**20) / 2**20, draw.below(2**20) / 2**20) for _ in range(nodes)),
                    key=lambda point: (int(point[0] * strips), point[1]))
    pairs = sorted((math.dist(points[a], points[b]), a, b) for a in range(nodes) for b in range(a + 1, nodes))
    part, edges = list(range(nodes)), []
    for length, a, b in pairs:
        if length <= radius or root_of(part, a) != root_of(part, b):
            part[root_of(part, a)] = root_of(part, b)
            edges.append((a, b, max(1, round(length * LONGEST / radius))))
    return nodes, edges


def root_of(part, v):
    """The node that stands for the part of a node."""
    while part[v] != v:
        part[v] = part[part[v]]
        v = part[v]
    return v


BLOCK, UNITS = 200, (1, 10, 50)  # metres

# For each name what makes the network's nodes and edges. A unit-M is the grid of 256 crossings with blocks of 200 metres, told in
# units of M metres; in units of 200 metres it is grid-256.
PRICED = {"nsfnet": NETWORKS["nsfnet"], "geant": NETWORKS["geant"], "ring": NETWORKS["ring"], "streets": NETWORKS["grid"]}
PRICED |= {f"grid-{side * side}": lambda side=side: grid_of(side) for side in (4, 8, 16, 32)}
PRICED["uneven-1024"] = lambda: uneven_grid(32)
PRICED |= {f"geometric-{nodes}": lambda nodes=nodes: geometric(nodes) for nodes in (16, 64, 256, 1024)}
PRICED |= {f"unit-{unit}": lambda unit=unit: grid_of(16, BLOCK // unit) for unit in UNITS}
