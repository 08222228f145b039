"""The plots of docs/PRICE.md, out of the rows of scripts/prices.py: break-even curves, the cheapest cover, and what size does."""
import math

from pictures import INK, PALE, Picture, colour
from price_tables import total
from prices import KINDS, MOVERS, RIVALS
from texts import BadText

MOST_FINDS, STEPS = 100, 40
GRID, WINS = "#e2e2e2", "#f3f8f0"


class Panel:
    """A plot of powers on both sides, inside a picture."""

    def __init__(self, picture, box, across, up):
        self.picture, (self.left, self.top, self.width, self.height) = picture, box
        self.across, self.up = [tuple(map(math.log10, span)) for span in (across, up)]

    def place(self, x, y):
        """Where a point is drawn, which has to be on the scale."""
        (low, high), (least, most) = self.across, self.up
        share = (math.log10(y) - least) / (most - least)
        if not -0.001 < share < 1.001:
            raise BadText(f"{y:.3g} is beyond the scale of its plot, {10**least:.3g} to {10**most:.3g}")
        return (self.left + self.width * (math.log10(x) - low) / (high - low), self.top + self.height * (1 - share))

    def shade(self):
        """Where the directory is cheaper."""
        self.picture.box(self.left, self.top, self.width, self.place(1, 1)[1] - self.top, WINS)

    def scale(self, xs, ys):
        (low, _), (least, _) = self.across, self.up
        for x in xs:
            at = self.place(x, 10**least)
            self.picture.line(at, (at[0], self.top), GRID)
            self.picture.words((at[0], at[1] + 14), str(x), 10, PALE, "middle")
        for y in ys:
            at = self.place(10**low, y)
            self.picture.line(at, (at[0] + self.width, at[1]), INK if y == 1 else GRID, 1.2 if y == 1 else 1)
            self.picture.words((at[0] - 5, at[1] + 4), f"{y:g}", 10, PALE, "end")

    def curve(self, points, stroke, dashed=False, width=2.0):
        places = [self.place(x, y) for x, y in points]
        dash = ' stroke-dasharray="5 4"' if dashed else ""
        words = " ".join(f"{x:.1f},{y:.1f}" for x, y in places)
        self.picture.parts.append(f'<polyline points="{words}" fill="none" stroke="{stroke}" stroke-width="{width:g}"{dash}/>')


def finds_axis():
    return [MOST_FINDS ** (step / STEPS) for step in range(STEPS + 1)]


def break_even_plot(prices, network):
    """For each kind of movers and of finds the cost of each rival over the directory's, by finds a move."""
    picture = Picture(860, 470, f"break-even curves on {prices.title(network)} nodes")
    picture.words((50, 22), f"{prices.title(network)} nodes: what each costs over what the directory does", 14)
    picture.words((50, 40), "by the number of finds a move, from 1 to 100; in the shaded part the directory is cheaper", 11, PALE)
    for row, kind in enumerate(KINDS):
        for column, movers in enumerate(MOVERS):
            panel = Panel(picture, (50 + 275 * column, 75 + 190 * row, 240, 140), (1, MOST_FINDS), (0.05, 40))
            panel.shade()
            panel.scale((1, 10, 100), (0.1, 1, 10))
            picture.words((panel.left, panel.top - 6), f"{movers}, {kind} finds", 12)
            ways = prices.of(network, movers)
            for which, rival in enumerate(RIVALS):
                for dashed in (True, False):
                    points = []
                    for finds in finds_axis():
                        own = ways["k 2"] if dashed else prices.best(network, movers, kind, finds)
                        points.append((finds, total(ways[rival], kind, finds) / total(own, kind, finds)))
                    panel.curve(points, colour(which), dashed, 1.2 if dashed else 2.2)
    legend(picture, RIVALS, 452)
    picture.words((500, 452), "solid: the directory over its best cover; dashed: k 2", 11, PALE)
    return picture.text()


def legend(picture, names, y, left=50, step=140):
    for which, name in enumerate(names):
        picture.line((left + step * which, y - 4), (left + 22 + step * which, y - 4), colour(which), 3)
        picture.words((left + 28 + step * which, y), name, 11)


def covers_plot(prices, networks, ways):
    """What each cover costs over the cheapest, by near finds a move, for subscribers that are away."""
    picture = Picture(860, 310, "which cover is the cheapest")
    picture.words((50, 22), "What each cover costs over the cheapest, by near finds a move; subscribers are away", 14)
    for column, network in enumerate(networks):
        panel = Panel(picture, (50 + 275 * column, 65, 240, 190), (1, MOST_FINDS), (1, 3))
        panel.scale((1, 10, 100), (1, 1.2, 1.5, 2, 3))
        picture.words((panel.left, panel.top - 8), f"{prices.title(network)} nodes", 12)
        rows = prices.of(network, "away")
        for which, way in enumerate(ways):
            points = [(finds, total(rows[way], "near", finds) / total(prices.best(network, "away", "near", finds), "near", finds))
                      for finds in finds_axis()]
            panel.curve(points, colour(which))
    legend(picture, ways, 296, step=120)
    return picture.text()


def sizes_plot(prices, series, ways):
    """The home register's cost over the directory's, by the number of nodes, with ten and a hundred near finds a move."""
    picture = Picture(860, 330, "what size does")
    picture.words((50, 22), "The home register over the directory, by the number of nodes; near finds, subscribers are away", 14)
    picture.words((50, 40), "in the shaded part the directory is cheaper", 11, PALE)
    asked = [(kind, finds) for kind in series for finds in (10, 100)]
    for column, (kind, finds) in enumerate(asked):
        panel = Panel(picture, (50 + 206 * column, 80, 165, 190), (14, 1200), (0.2, 5))
        panel.shade()
        panel.scale((16, 64, 256, 1024), (0.2, 0.5, 1, 2, 5))
        picture.words((panel.left, panel.top - 8), f"{kind}, {finds} a move", 12)
        for which, way in enumerate(ways):
            points = []
            for network in series[kind]:
                rows = prices.of(network, "away")
                ratio = total(rows["home register"], "near", finds) / total(rows[way], "near", finds)
                points.append((prices.nodes[network], ratio))
            panel.curve(points, colour(which))
            for point in points:
                picture.circle(panel.place(*point), 3, colour(which))
    legend(picture, ways, 316, step=120)
    return picture.text()
