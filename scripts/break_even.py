"""At how many finds a move one way of finding subscribers weighs less than another, by the means of both."""
from __future__ import annotations

import math
from collections.abc import Callable, Iterable
from dataclasses import dataclass


@dataclass(frozen=True)
class Means:
    """What a move and a find weigh on average."""

    move: float
    find: float


@dataclass(frozen=True)
class Wins:
    """One weighs less with fewer finds a move than `until`, and with more than `since`; so it always does where these meet."""

    until: float = 0.0
    since: float = math.inf

    def always(self, least: float = 0.0) -> bool:
        return self.since <= max(least, self.until) or self.until == math.inf

    def words(self, number: Callable[[float], str], least: float = 0.0) -> str:
        """The same in words, of so many finds a move or more."""
        if self.always(least):
            return "always"
        words = [f"up to {number(self.until)}"] if self.until > least else []
        words += [f"from {number(self.since)}"] if self.since < math.inf else []
        return ", ".join(words) or "never"


def wins_of(ways: Iterable[Means], other: Means) -> Wins:
    """Where at least one of some ways weighs less in all than the other."""
    until, since = 0.0, math.inf
    for way in ways:
        dearer, saved = way.move - other.move, other.find - way.find
        if dearer < 0:
            until = max(until, dearer / saved if saved < 0 else math.inf)
        elif saved > 0:
            since = min(since, dearer / saved)
    return Wins(until, since)
