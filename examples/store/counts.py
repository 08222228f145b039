"""What a process counts of its calls: how many, how often again, and how long they took."""
from __future__ import annotations

import math
import time
from collections import Counter
from contextlib import contextmanager
from typing import Iterator

STEP = math.log(1.05)


class Times:
    """Durations in seconds, in classes that are 5 % wide: as many as come take the same room."""

    def __init__(self) -> None:
        self.classes: Counter[int] = Counter()
        self.longest = 0.0

    def add(self, seconds: float) -> None:
        self.classes[math.ceil(math.log(max(seconds, 1e-7)) / STEP)] += 1
        self.longest = max(self.longest, seconds)

    def count(self) -> int:
        return sum(self.classes.values())

    def quantile(self, share: float) -> float:
        """The time within which this share of calls was done, told at most 5 % too high; 0 before any call."""
        left = share * self.count()
        for at in sorted(self.classes):
            left -= self.classes[at]
            if left <= 0:
                return min(math.exp(at * STEP), self.longest)
        return 0.0

    def merge(self, other: Times) -> None:
        self.classes.update(other.classes)
        self.longest = max(self.longest, other.longest)


class Counts:
    """`finds` and `steps` (moves and switches) are times of whole calls, `looks` and `puts` of single visits with all their
    tries. `events` counts what befell them: answers by name (`found`, `off`, `again empty_mark`, `again no_entry`, `again
    chased`, `unknown`), causes by name (`Unreachable`, ..) as often as a request met one."""

    def __init__(self) -> None:
        self.finds, self.steps, self.looks, self.puts = Times(), Times(), Times(), Times()
        self.events: Counter[str] = Counter()

    @contextmanager
    def timed(self, times: Times) -> Iterator[None]:
        """Adds how long it took, where it ended well."""
        begun = time.monotonic()
        yield
        times.add(time.monotonic() - begun)

    def merge(self, other: Counts) -> None:
        for name in ("finds", "steps", "looks", "puts"):
            getattr(self, name).merge(getattr(other, name))
        self.events.update(other.events)
