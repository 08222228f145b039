"""The lab's answer as one table of text: a column for each plan and for each of what people use in its place."""
from __future__ import annotations

from collections.abc import Callable

from lab_measure import Row, Spread, cheapest, largest, over, rivals_of, wins

NONE = "-"


def ratio(value: float | None) -> str:
    if value is None:
        return NONE
    return f"{value:.2f}" if value < 10 else f"{value:.1f}" if value < 100 else f"{value:,.0f}"


def count(value: float | None) -> str:
    return NONE if value is None else f"{value:,.0f}"


def share(part: float | None) -> str:
    if part is None:
        return NONE
    decimals = 0 if part == 0 or part >= 0.0995 else 1 if part >= 0.01 else 2
    return f"{100 * part:.{decimals}f} %"


HARDLY_ANY = 0.005  # finds a move, below which a load has moves alone


def wins_words(row: Row, other: Row) -> str:
    where = wins(row, other) if row is not other else None
    return where.words(ratio, HARDLY_ANY) if where else NONE


Line = tuple[str, Callable[[Row], str]]


def spread_lines(words: str, pick: Callable[[Row], Spread]) -> list[Line]:
    """A kind of finds: how many, and how they are spread."""
    return [
        (words, lambda row: count(pick(row).number) if pick(row).number else NONE),
        ("    median", lambda row: ratio(pick(row).median)),
        ("    95 % at most", lambda row: ratio(pick(row).most_of)),
        ("    most", lambda row: ratio(pick(row).most)),
    ]


def won_line(name: str, rival: Row) -> Line:
    """At how many finds a move each row weighs less than one of the others."""
    return f"  less than {name}, at finds a move", lambda row: wins_words(row, rival)


def top_share(counts: list[int]) -> float | None:
    return max(counts) / sum(counts) if sum(counts) else None


def table_lines(rivals: dict[str, Row]) -> list[tuple[str, list[Line]]]:
    """The groups of the table, each with its lines."""
    home = rivals["home"]
    finds = "its finds" if home.rate() is None else "its find" if home.rate() == 1 else f"its {home.rate():.3g} finds"
    return [
        ("the plan", [
            ("  levels", lambda row: count(row.levels)),
            ("  clusters at a node and level, most", lambda row: count(row.degree)),
            ("  proved of quiet finds: at most", lambda row: count(row.own_stretch)),
        ]),
        ("finds: weight over distance", [
            *spread_lines("  quiet", lambda row: row.quiet),
            *spread_lines("  met a move", lambda row: row.met),
            *spread_lines("  all", lambda row: row.all_finds),
            ("  made again, times", lambda row: NONE if row.covers is None else count(row.again)),
            ("    of the weight of all finds", lambda row: NONE if row.covers is None or not row.find_weight
                else share(row.again_weight / row.find_weight)),
            ("  a find weighs on average", lambda row: ratio(row.find_mean())),
        ]),
        ("moves: weight over distance moved", [
            ("  by the word costs", lambda row: ratio(row.costs_ratio())),
            ("  by messages there and back", lambda row: ratio(row.messages_ratio())),
            ("  a move weighs on average (messages)", lambda row: ratio(row.move_mean())),
            ("  subscribers in a move, of their time", lambda row: share(row.busy)),
        ]),
        ("in all, moves by messages", [
            (f"  a move and {finds} weigh", lambda row: ratio(row.in_all())),
            ("  over the home register", lambda row: ratio(over(row, home))),
            *(won_line(name, rival) for name, rival in rivals.items()),
        ]),
        ("nodes", [
            ("  visits in all", lambda row: count(sum(row.visits))),
            ("  most at one node, of all", lambda row: share(top_share(row.visits))),
            ("  most cells at one node at once", lambda row: count(max(row.cells))),
        ]),
    ]


def title_of(row: Row) -> str:
    return f"k {row.k}" if row.k is not None else row.name


def group_of(row: Row) -> str:
    return {"cover": "covers", "mean": "mean covers", None: "in its place"}[row.covers]


def table_text(rows: list[Row]) -> str:
    """The table; columns of one group stand together."""
    groups = table_lines(rivals_of(rows))
    cells = [[write(row) for row in rows] for _, lines in groups for _, write in lines]
    wide = [max(9, len(title_of(row)), *(len(line[at]) for line in cells)) for at, row in enumerate(rows)]
    first = max(len(words) for _, lines in groups for words, _ in lines)
    lines = [heads(rows, wide, first),
             " " * first + "".join(f"  {title_of(row):>{wide[at]}}" for at, row in enumerate(rows))]
    left = iter(cells)
    for name, group in groups:
        lines.append(name)
        lines += [f"{words:<{first}}" + "".join(f"  {cell:>{wide[at]}}" for at, cell in enumerate(next(left)))
                  for words, _ in group]
    return "\n".join(lines) + "\n"


def heads(rows: list[Row], wide: list[int], first: int) -> str:
    """The line that names the groups of columns."""
    line, last = " " * first, None
    for at, row in enumerate(rows):
        group = group_of(row)
        line += "  " + (f"{group:>{wide[at]}}" if group != last else " " * wide[at])
        last = group
    return line.rstrip()


def cheapest_words(rows: list[Row]) -> str:
    """Over which cover this load weighs least, and what the cheapest of the others weighs beside that."""
    best, other = cheapest([row for row in rows if row.covers]), cheapest([row for row in rows if row.covers is None])
    beside = f"; {other.name}: {ratio(over(other, best))} times that" if best.total() else ""
    return f"the cheapest cover here: {full_name(best)}{beside}"


def nodes_text(rows: list[Row], names: list[str]) -> str:
    """The most loaded nodes of each row, by name."""
    lines = ["the most loaded nodes: visits, and cells at once at most"]
    for row in rows:
        named = "; ".join(f"{name}: {number:,}" for name, number in largest(row.visits, names, 3))
        kept = "; ".join(f"{name}: {number:,}" for name, number in largest(row.cells, names, 3))
        lines.append(f"  {full_name(row)} - {named} | {kept}")
    return "\n".join(lines) + "\n"


def full_name(row: Row) -> str:
    return f"{group_of(row)}, {title_of(row)}" if row.covers else row.name
