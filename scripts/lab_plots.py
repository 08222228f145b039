"""The lab's plots, as SVG: finds, moves, what both come to, finds by distance, and what falls to each node."""
from __future__ import annotations

import math
from dataclasses import dataclass

from lab_measure import Row, Spread
from lab_table import full_name
from pictures import COLOURS, INK, LINE, PALE, Picture

GRID = "#e4e4e4"
QUIET, MET, ALL = COLOURS[0], COLOURS[5], COLOURS[2]
RIVAL_STYLES = {"home": (INK, ""), "pointers": (COLOURS[3], "2 3"), "everybody": (PALE, "2 3")}


@dataclass(frozen=True)
class Scale:
    """Powers of ten, or of a smaller step, along a line of a picture."""

    low: float
    high: float
    begin: float
    end: float

    def at(self, value: float) -> float:
        share = math.log(max(self.low, min(self.high, value)) / self.low) / math.log(self.high / self.low)
        return self.begin + share * (self.end - self.begin)

    def ticks(self) -> list[float]:
        """1, 2 and 5 times each power of ten, or the powers alone where these would be many."""
        first, last = math.floor(math.log10(self.low)), math.ceil(math.log10(self.high))
        steps = (1, 2, 5) if math.log10(self.high / self.low) <= 2.5 else (1,)
        ticks = [step * 10.0**power for power in range(first, last + 1) for step in steps]
        return [tick for tick in ticks if self.low * 0.999 <= tick <= self.high * 1.001]


def scale_of(values: list[float], begin: float, end: float, least: float | None = None) -> Scale:
    """A scale that holds all values, from `least` on where that is told."""
    some = [value for value in values if value > 0] or [1.0]
    low = least if least is not None else min(some) / 1.1
    return Scale(low, max(low * 2, max(some) * 1.1), begin, end)


def tick_words(value: float) -> str:
    return f"{value:,.0f}" if value >= 1 else f"{value:g}"


def style_of(row: Row, ks: list[int]) -> tuple[str, str]:
    """The colour of a row's line, and its dashes: one colour for each k, broken for mean covers."""
    if row.covers is None:
        return RIVAL_STYLES[row.name]
    few = [COLOURS[at] for at in (0, 1, 2, 4, 5, 6, 7, 3)]
    return few[ks.index(row.k) % len(few)], "7 3" if row.covers == "mean" else ""


def ks_of(rows: list[Row]) -> list[int]:
    return sorted({row.k for row in rows if row.k is not None})


def broken(dashes: str) -> str:
    return f' stroke-dasharray="{dashes}"' if dashes else ""


# Finds and moves, a line for each row.

ROW, HEAD, LEFT = 30, 58, 170


def frame_of(rows: list[Row], title: str, scale: Scale) -> Picture:
    """Rows by name on the left, and the scale's lines."""
    foot = HEAD + ROW * len(rows)
    picture = Picture(900, foot + 46, title)
    picture.words((20, 24), title, 14)
    for tick in scale.ticks():
        picture.line((scale.at(tick), HEAD - 8), (scale.at(tick), foot), GRID)
        picture.words((scale.at(tick), foot + 16), tick_words(tick), 11, PALE, "middle")
    for at, row in enumerate(rows):
        picture.words((LEFT - 12, HEAD + ROW * at + ROW / 2 + 4), full_name(row), 12, INK, "end")
    return picture


def key(picture: Picture, told: list[tuple[str, str]], words: str) -> None:
    """What the colours are, at the foot."""
    x, y = LEFT, picture.height - 10
    for colour, name in told:
        picture.box(x, y - 9, 10, 10, colour)
        picture.words((x + 15, y), name, 11)
        x += 30 + 6.5 * len(name)
    picture.words((880, y), words, 11, PALE, "end")


def draw_spread(picture: Picture, scale: Scale, y: float, spread: Spread, colour: str) -> None:
    if spread.median is None:
        return
    picture.line((scale.at(spread.median), y), (scale.at(spread.most), y), colour, 2)
    picture.line((scale.at(spread.most_of), y - 5), (scale.at(spread.most_of), y + 5), colour, 2)
    picture.circle((scale.at(spread.median), y), 4, colour)


def finds_plot(rows: list[Row]) -> str:
    """Quiet finds above those that met a move; where there is no directory, all of them."""
    spreads = [spread.most for row in rows for spread in (row.quiet, row.met, row.all_finds) if spread.most]
    scale = scale_of(spreads, LEFT, 870, 0.9)
    picture = frame_of(rows, "Finds: weight over distance", scale)
    for at, row in enumerate(rows):
        y = HEAD + ROW * at + ROW / 2
        if row.covers is None:
            draw_spread(picture, scale, y, row.all_finds, ALL)
        else:
            draw_spread(picture, scale, y - 6, row.quiet, QUIET)
            draw_spread(picture, scale, y + 6, row.met, MET)
    key(picture, [(QUIET, "quiet"), (MET, "met a move"), (ALL, "all, without races")], "dot: median; tick: 95 %; line: to the most")
    return picture.text()


def moves_plot(rows: list[Row]) -> str:
    """Two dots for each plan, one for each of the two models."""
    ratios = [ratio for row in rows for ratio in (row.costs_ratio(), row.messages_ratio()) if ratio]
    scale = scale_of(ratios, LEFT + 10, 840, min([1.0, *ratios]))
    picture = frame_of(rows, "Moves: weight over distance moved", scale)
    for at, row in enumerate(rows):
        y = HEAD + ROW * at + ROW / 2
        dots = [(row.messages_ratio(), MET)] if row.covers is None else [(row.costs_ratio(), QUIET), (row.messages_ratio(), MET)]
        for which, (ratio, colour) in enumerate(dots):
            if ratio:
                middle = y + 12 * which - 6 * (len(dots) - 1)
                picture.circle((scale.at(ratio), middle), 4, colour)
                picture.words((scale.at(ratio) + 8, middle + 4), f"{ratio:.3g}", 10, PALE)
    key(picture, [(QUIET, "by the word costs"), (MET, "messages there and back")], "the scale is of powers")
    return picture.text()


# Lines over a share of something.

Points = list[tuple[float, float]]


def lines_plot(title: str, across: str, lines: list[tuple[str, tuple[str, str], Points]], one: bool = False) -> str:
    """Lines with their names beside them; where `one` is set, a strong line at 1."""
    picture = Picture(900, 420, title)
    every = [point for _, _, points in lines for point in points]
    x = scale_of([point[0] for point in every], 70, 690, min([point[0] for point in every], default=1.0))
    y = scale_of([point[1] for point in every], 350, 50)
    picture.words((20, 24), title, 14)
    for tick in x.ticks():
        picture.line((x.at(tick), 50), (x.at(tick), 350), GRID)
        picture.words((x.at(tick), 368), tick_words(tick), 11, PALE, "middle")
    for tick in y.ticks():
        picture.line((70, y.at(tick)), (690, y.at(tick)), GRID)
        picture.words((62, y.at(tick) + 4), tick_words(tick), 11, PALE, "end")
    picture.words((380, 394), across, 12, INK, "middle")
    if one and y.low < 1 < y.high:
        picture.line((70, y.at(1)), (690, y.at(1)), LINE, 2)
    for at, (name, (colour, dashes), points) in enumerate(lines):
        draw_line(picture, [(x.at(a), y.at(b)) for a, b in points], colour, dashes)
        height = 60 + 22 * at
        picture.line((706, height), (736, height), colour, 2.5, broken(dashes))
        picture.words((742, height + 4), name, 12)
    return picture.text()


def draw_line(picture: Picture, points: Points, colour: str, dashes: str) -> None:
    if len(points) > 1:
        way = " ".join(f"{x:.1f},{y:.1f}" for x, y in points)
        picture.parts.append(f'<polyline points="{way}" fill="none" stroke="{colour}" stroke-width="2"{broken(dashes)}/>')
    elif points:
        picture.circle(points[0], 3, colour)


def in_all_plot(rows: list[Row], other: Row) -> str | None:
    """What moves and finds come to for so many finds a move, over what they come to by a home register."""
    means = {row.name: (row.find_mean(), row.move_mean()) for row in rows}
    if any(None in pair for pair in means.values()) or not all(means[other.name]):
        return None
    ks, lines = ks_of(rows), []
    for row in rows:
        find, move = means[row.name]
        often = [10 ** (power / 10) for power in range(-10, 31)]
        points = [(f, (move + f * find) / (means[other.name][1] + f * means[other.name][0])) for f in often]
        lines.append((full_name(row), style_of(row, ks), points))
    return lines_plot("Moves and finds in all, over the home register (below 1: better)", "finds a move", lines, True)


def distance_plot(rows: list[Row], medians: dict[str, Points]) -> str:
    """The median of finds, by how far they are."""
    ks = ks_of(rows)
    lines = [(full_name(row), style_of(row, ks), medians[row.name]) for row in rows if medians[row.name]]
    return lines_plot("Finds by distance: median of weight over distance", "distance over the diameter", lines)


def load_plot(rows: list[Row]) -> str:
    """The nodes' shares of all visits, the most loaded first."""
    ks, lines = ks_of(rows), []
    for row in rows:
        ordered, total = sorted(row.visits, reverse=True), sum(row.visits)
        points = [(at, 100 * visits / total) for at, visits in enumerate(ordered, 1) if visits]
        lines.append((full_name(row), style_of(row, ks), thinned(points)))
    return lines_plot("Visits at each node, in % of all, the most loaded first", "node, by rank", lines)


def thinned(points: Points) -> Points:
    """So few points that a line still looks the same."""
    kept, last = [], 0.0
    for at, point in enumerate(points):
        if point[0] >= last * 1.03 or at == len(points) - 1:
            kept.append(point)
            last = point[0]
    return kept


# Maps.

def map_plot(row: Row, places: list[tuple[float, float]], edges: list[tuple[int, int, int]], names: list[str]) -> str:
    """The network with each node as large as its visits are many; the most loaded ones have their names."""
    picture = Picture(430, 300, f"visits over {full_name(row)}")
    picture.words((12, 20), f"{full_name(row)}: visits", 13)
    for a, b, _ in edges:
        picture.line(places[a], places[b], LINE, 0.7)
    most, largest = max(row.visits) or 1, 13 if len(places) <= 60 else 9
    ordered = sorted(range(len(places)), key=lambda v: (-row.visits[v], v))
    for v in ordered:
        radius = round(1.2 + largest * math.sqrt(row.visits[v] / most), 1)
        picture.circle(places[v], radius, COLOURS[0], "none", 1.0, ' fill-opacity="0.45"')
    for v in ordered[:4]:
        x, y = places[v]
        middle = "start" if x < 120 else "end" if x > 310 else "middle"
        picture.words((x, y - 4), names[v], 11, INK, middle, ' stroke="white" stroke-width="3" paint-order="stroke"')
    return picture.text()
