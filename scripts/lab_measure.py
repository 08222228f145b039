"""What the lab tells of an outcome: finds over distance, moves over the distance moved, and what falls to each node."""
from __future__ import annotations

from dataclasses import dataclass

import directory
from break_even import Means, Wins, wins_of
from lab_run import Outcome
from timed import Found
from weights import at_share


@dataclass(frozen=True)
class Spread:
    """How ratios are spread: the least that half of them, 95 % and all don't pass; none of no ratio."""

    number: int
    median: float | None = None
    most_of: float | None = None
    most: float | None = None


@dataclass(frozen=True)
class Row:
    """One plan, or one of what people use in its place."""

    name: str
    covers: str | None
    k: int | None
    levels: int | None
    degree: int | None
    own_stretch: int | None
    any_stretch: int | None
    quiet: Spread
    met: Spread
    all_finds: Spread
    at_no_distance: int
    again: int
    again_weight: int
    finds: int
    find_weight: int
    moves: int
    moved: int
    costs: int | None
    messages: int
    visits: list[int]
    cells: list[int]
    busy: float | None
    late: float | None

    def find_mean(self) -> float | None:
        return self.find_weight / self.finds if self.finds else None

    def move_mean(self) -> float | None:
        return self.messages / self.moves if self.moves else None

    def costs_ratio(self) -> float | None:
        return self.costs / self.moved if self.moved and self.costs is not None else None

    def messages_ratio(self) -> float | None:
        return self.messages / self.moved if self.moved else None

    def means(self) -> Means | None:
        return Means(self.move_mean(), self.find_mean()) if self.moves and self.finds else None

    def rate(self) -> float | None:
        """How many finds there are a move."""
        return self.finds / self.moves if self.moves else None

    def in_all(self) -> float | None:
        """What a move weighs with its finds: the means of both over all inputs, added by their rates."""
        means = self.means()
        return means.move + self.rate() * means.find if means else None

    def total(self) -> int:
        """What all moves and all finds weigh; by their rates that is `in_all` for each move."""
        return self.find_weight + self.messages


def spread_of(finds: list[Found], network: directory.Network) -> Spread:
    """The weights of finds over the distance from where each began to where it was answered, where that isn't 0."""
    ratios = sorted(find.weight / distance for find in finds if (distance := network.distance(find.start, find.node)))
    if not ratios:
        return Spread(len(finds))
    return Spread(len(finds), *(at_share(ratios, share) for share in (0.5, 0.95, 1)))


def row_of(outcome: Outcome, network: directory.Network) -> Row:
    """What an outcome comes to. Nothing is quiet or met, and nothing weighs by `costs`, where there is no directory."""
    found, moved, own = outcome.found, outcome.moved, outcome.kind is not None
    return Row(
        name=outcome.name,
        covers=outcome.kind.covers if outcome.kind else None,
        k=outcome.kind.k if outcome.kind else None,
        levels=len(outcome.plan.levels) if outcome.plan else None,
        degree=outcome.plan.degree if outcome.plan else None,
        own_stretch=outcome.stretches.own if outcome.stretches else None,
        any_stretch=outcome.stretches.any_find if outcome.stretches else None,
        quiet=spread_of([find for find in found if own and not find.met], network),
        met=spread_of([find for find in found if find.met], network),
        all_finds=spread_of(found, network),
        at_no_distance=sum(find.start == find.node for find in found),
        again=sum(find.again for find in found),
        again_weight=sum(find.again_weight for find in found),
        finds=len(found),
        find_weight=sum(find.weight for find in found),
        moves=len(moved),
        moved=sum(move.distance for move in moved),
        costs=sum(move.costs for move in moved) if own else None,
        messages=sum(move.messages for move in moved),
        visits=outcome.visits,
        cells=outcome.cells,
        busy=outcome.busy if own else None,
        late=outcome.late if own else None,
    )


def rivals_of(rows: list[Row]) -> dict[str, Row]:
    """What people use in place of the directory, by name."""
    return {row.name: row for row in rows if row.covers is None}


def wins(row: Row, other: Row) -> Wins | None:
    """At how many finds a move the row weighs less in all than the other, by the means of both; nothing where finds or moves are
    missing."""
    own, others = row.means(), other.means()
    return wins_of([own], others) if own and others else None


def over(row: Row, other: Row) -> float | None:
    return row.total() / other.total() if other.total() else None


def cheapest(rows: list[Row]) -> Row:
    """The row that weighs least in all."""
    return min(rows, key=Row.total)


def largest(counts: list[int], names: list[str], few: int) -> list[tuple[str, int]]:
    """The nodes with the largest counts, by name, or as `node 7` where their names are numbers."""
    ordered = sorted(range(len(counts)), key=lambda v: (-counts[v], v))
    return [(f"node {names[v]}" if names[v].isdigit() else names[v], counts[v]) for v in ordered[:few]]
