"""Where nodes may be drawn of which no place is known: so that far nodes lie far apart, as the distances to some pivots tell."""
from __future__ import annotations

import math

import directory

PIVOTS, ROUNDS = 24, 60


def pivots_of(network: directory.Network) -> list[int]:
    """Nodes that are far from one another: each the farthest from those before it."""
    pivots, near = [0], [network.distance(0, v) for v in range(network.nodes)]
    while len(pivots) < min(PIVOTS, network.nodes):
        farthest = max(range(network.nodes), key=lambda v: (near[v], -v))
        pivots.append(farthest)
        near = [min(least, network.distance(farthest, v)) for v, least in enumerate(near)]
    return pivots


def centred(network: directory.Network, pivots: list[int]) -> list[list[float]]:
    """A row for each node: the squares of its distances to the pivots, with the means of rows and columns taken away."""
    squares = [[float(network.distance(pivot, v)) ** 2 for pivot in pivots] for v in range(network.nodes)]
    columns = [sum(column) / network.nodes for column in zip(*squares)]
    middle = sum(columns) / len(pivots)
    return [[(sum(row) / len(row) + column - middle - square) / 2 for square, column in zip(row, columns)] for row in squares]


def strongest(square: list[list[float]], apart_from: list[list[float]]) -> list[float]:
    """The direction in which a symmetric matrix stretches most, at a right angle to the directions that are told."""
    vector = [1.0 + 0.1 * at for at in range(len(square))]
    for _ in range(ROUNDS):
        vector = [sum(map(float.__mul__, row, vector)) for row in square]
        for other in apart_from:
            along = sum(map(float.__mul__, vector, other))
            vector = [value - along * part for value, part in zip(vector, other)]
        length = math.hypot(*vector)
        if length == 0.0:
            return vector
        vector = [value / length for value in vector]
    return vector


def layout(network: directory.Network) -> dict[int, tuple[float, float]]:
    """A place for each node, by multidimensional scaling over the pivots; the same at each run."""
    rows = centred(network, pivots_of(network))
    columns = list(zip(*rows))
    square = [[sum(map(float.__mul__, one, other)) for other in columns] for one in columns]
    across = strongest(square, [])
    down = strongest(square, [across])
    most = max(abs(value) for row in rows for value in row) or 1.0
    return {v: tuple(round(sum(map(float.__mul__, row, way)) / most, 6) for way in (across, down)) for v, row in enumerate(rows)}
