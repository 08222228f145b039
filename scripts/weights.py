"""What writes and moves weigh by the word `costs` (docs/DIRECTORY.md, "What moves cost"), and how weights are spread."""
from __future__ import annotations

import math
from collections.abc import Iterable
from dataclasses import dataclass

import directory


@dataclass
class Account:
    """What `costs` tells of a subscriber."""

    moves: int = 0
    moved: int = 0
    written: int = 0
    purged: int = 0


def write_weight(setting: directory.Setting, put: directory.Put, to: int) -> int:
    """What a write of a move to a node weighs."""
    if put.kind == "presence":
        return 2 * setting.network.distance(put.place, to) if put.word[0] == "Gone" else 0
    level, cluster = put.place
    if put.word is None:
        return 2 * setting.network.distance(to, setting.leader(level, cluster))
    return 2 * setting.inside[level][cluster][to]


def costs_text(accounts: Iterable[Account]) -> str:
    """The text that `costs` writes."""
    lines = [f"cost {sub} moves {own.moves} moved {own.moved} written {own.written} purged {own.purged}\n"
             for sub, own in enumerate(accounts)]
    return "".join(lines) + "end\n"


def at_share(ordered: list[float], share: float) -> float:
    """The least of the values, which ascend, that so large a share of them doesn't pass."""
    return ordered[max(0, math.ceil(share * len(ordered)) - 1)]
