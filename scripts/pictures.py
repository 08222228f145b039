"""Pictures as SVG: what is drawn, in which colours, and where the nodes of an input lie."""
import math
from xml.sax.saxutils import escape

INK, PALE, LINE = "#222222", "#777777", "#b5b5b5"
# Eight colours that eyes of all kinds tell apart, in the order of Okabe and Ito.
COLOURS = ["#0072b2", "#e69f00", "#009e73", "#cc79a7", "#56b4e9", "#d55e00", "#8a7f00", "#5c4ba0"]


def colour(number):
    return COLOURS[number % len(COLOURS)]


class Picture:
    """Shapes on a white ground, from the back to the front."""

    def __init__(self, width, height, title):
        self.width, self.height = width, height
        self.parts = [f"<title>{escape(title)}</title>"]

    def line(self, one, other, stroke=LINE, width=1.0, extra=""):
        (x, y), (u, v) = one, other
        self.parts.append(f'<line x1="{x:.1f}" y1="{y:.1f}" x2="{u:.1f}" y2="{v:.1f}" stroke="{stroke}" '
                          f'stroke-width="{width:g}"{extra}/>')

    def circle(self, at, radius, fill, stroke="none", width=1.0, extra=""):
        self.parts.append(f'<circle cx="{at[0]:.1f}" cy="{at[1]:.1f}" r="{radius:g}" fill="{fill}" stroke="{stroke}" '
                          f'stroke-width="{width:g}"{extra}/>')

    def box(self, x, y, width, height, fill, extra=""):
        self.parts.append(f'<rect x="{x:.1f}" y="{y:.1f}" width="{width:.1f}" height="{height:.1f}" fill="{fill}"{extra}/>')

    def words(self, at, words, size=12, fill=INK, anchor="start", extra=""):
        self.parts.append(f'<text x="{at[0]:.1f}" y="{at[1]:.1f}" font-size="{size}" fill="{fill}" '
                          f'text-anchor="{anchor}"{extra}>{escape(words)}</text>')

    def arrow(self, one, other, stroke, bend=0.0, width=2.0):
        """A bent arrow, whose head stops short of the node."""
        (x, y), (u, v) = one, other
        length = math.hypot(u - x, v - y) or 1.0
        aside = (-(v - y) / length * bend, (u - x) / length * bend)
        middle = ((x + u) / 2 + aside[0], (y + v) / 2 + aside[1])
        back = math.hypot(u - middle[0], v - middle[1]) or 1.0
        tip = (u - (u - middle[0]) / back * 9, v - (v - middle[1]) / back * 9)
        side = ((u - middle[0]) / back, (v - middle[1]) / back)
        left = (tip[0] - 9 * side[0] - 4 * side[1], tip[1] - 9 * side[1] + 4 * side[0])
        right = (tip[0] - 9 * side[0] + 4 * side[1], tip[1] - 9 * side[1] - 4 * side[0])
        self.parts.append(f'<path d="M{x:.1f} {y:.1f} Q{middle[0]:.1f} {middle[1]:.1f} {tip[0]:.1f} {tip[1]:.1f}" '
                          f'fill="none" stroke="{stroke}" stroke-width="{width:g}"/>')
        corners = " ".join(f"{a:.1f},{b:.1f}" for a, b in (tip, left, right))
        self.parts.append(f'<polygon points="{corners}" fill="{stroke}"/>')
        return ((x + 2 * middle[0] + u) / 4, (y + 2 * middle[1] + v) / 4)

    def text(self):
        head = (f'<svg xmlns="http://www.w3.org/2000/svg" viewBox="0 0 {self.width} {self.height}" '
                f'width="{self.width}" height="{self.height}" font-family="sans-serif">')
        ground = f'<rect width="{self.width}" height="{self.height}" fill="white"/>'
        return "\n".join([head, ground, *self.parts, "</svg>"]) + "\n"


def spread(places, nodes, width, height, edge):
    """Where each node is drawn: as the comments of the input say, all of one scale, or on a ring."""
    turn = 2 * math.pi / max(nodes, 1)
    if not all(v in places for v in range(nodes)):
        places = {v: (math.sin(turn * v), -math.cos(turn * v)) for v in range(nodes)}
    xs, ys = [places[v][0] for v in range(nodes)], [places[v][1] for v in range(nodes)]
    across, down = (max(xs) - min(xs)) or 1.0, (max(ys) - min(ys)) or 1.0
    scale = min((width - 2 * edge) / across, (height - 2 * edge) / down)
    left, top = (width - scale * across) / 2, (height - scale * down) / 2
    return [(left + scale * (places[v][0] - min(xs)), top + scale * (places[v][1] - min(ys))) for v in range(nodes)]
