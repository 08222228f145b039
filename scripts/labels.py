"""Where the names of many nodes stand in a picture, so that none lies over another."""
import math

SIZES = (11, 9, 7.5, 6.5, 5.5)  # of letters, the largest first
LEAST = 0.5  # of letters on nodes that lie one over another
WIDE, HIGH = 0.66, 0.95  # of a letter over its size: as wide as digits are in the common fonts
SIDES = ((0, -1), (0, 1), (1, 0), (-1, 0), (0.75, -0.75), (-0.75, -0.75), (0.75, 0.75), (-0.75, 0.75))


class Grid:
    """Boxes by the squares that they touch, so that what a box meets is found without a look at all."""

    def __init__(self, step):
        self.step, self.squares = step, {}

    def squares_of(self, box):
        left, top, right, bottom = (math.floor(edge / self.step) for edge in box)
        return [(x, y) for x in range(left, right + 1) for y in range(top, bottom + 1)]

    def add(self, box, owner=None):
        for square in self.squares_of(box):
            self.squares.setdefault(square, []).append((box, owner))

    def is_free(self, box, owner=None):
        """Whether the box meets none but those of its owner."""
        left, top, right, bottom = box
        return all(whose is not None and whose == owner or right <= other[0] or other[2] <= left or bottom <= other[1] or other[3] <= top
                   for square in self.squares_of(box) for other, whose in self.squares.get(square, ()))


def box_round(x, y, width, height):
    return x - width / 2, y - height / 2, x + width / 2, y + height / 2


def nearest_gap(at, node):
    """How far the nearest node of another place is."""
    x, y = at[node]
    return min((gap for u, v in at if (gap := math.hypot(u - x, v - y)) > 0), default=100.0)


def placed(at, names, must, radius):
    """For names of nodes, by node: what stands, its middle and its size, without one over another, nor over another's node. Those
    that must stand come first: where a name has no room its first word has, the node's number; and where that has none beside its
    node it stands on it, as small as need be. Others are left out."""
    taken, places = Grid(24), {}
    for node, (x, y) in enumerate(at):
        taken.add(box_round(x, y, 2 * radius, 2 * radius), node)
    for node in sorted(names, key=lambda node: (node not in must, node)):
        number = names[node].split(" ")[0]
        told = names[node] if (place := beside(at[node], names[node], radius, taken)) else number
        if place is None and node in must:
            place = beside(at[node], number, radius, taken) or over(at, node, number, taken)
        if place is not None:
            taken.add(box_of(place, told))
            places[node] = told, *place
    return places


def box_of(place, name):
    x, y, size = place
    return box_round(x, y, WIDE * size * len(name), HIGH * size)


def beside(where, name, radius, taken):
    """A free place on one side of a node, in letters as large as there is room for."""
    for size in SIZES:
        for across, down in SIDES:
            far = (radius + 1 + WIDE * size * len(name) / 2, radius + 1 + HIGH * size / 2)
            place = where[0] + across * far[0], where[1] + down * far[1], size
            if taken.is_free(box_of(place, name)):
                return place
    return None


def over(at, node, name, taken):
    """On the node itself: its box lies within half the way to the next node, as those of all names do that stand so, and meets no
    other, unless nodes lie one over another."""
    long = math.hypot(WIDE * len(name), HIGH)
    place = *at[node], min(SIZES[-1], 0.95 * nearest_gap(at, node) / long)
    while place[2] > LEAST and not taken.is_free(box_of(place, name), node):
        place = *at[node], 0.8 * place[2]
    return place
