"""What subscribers and callers of the lab do, and when: drawn from a seed, and the same for every plan and every rival."""
from __future__ import annotations

import math
import random
from dataclasses import dataclass, field

import directory
import rivals
import texts

WANDERED = 32  # moves of each subscriber for each node of the network, before the first input begins
MOST_WARM_MOVES = 64  # of a subscriber, before the calls of an input are counted
CALLS_OF_A_PART = 12000  # so that finds which are made again find room
BYTES_OF_A_PART = 3500000
ORIGINS = {"near": "near", "far": "far", "anywhere": "mixed"}


@dataclass(frozen=True)
class Wishes:
    """What is asked for; times are in the unit of the weights."""

    moves: int
    finds: int
    subs: int
    callers: int
    stay: float  # how long a subscriber stays on average
    move_to: str  # 'neighbours' or 'anywhere'
    find_from: str  # 'near', 'far' or 'anywhere'
    pace: int  # how many times its weight a message of a find takes
    zipf: float  # of the subscribers that are found: 0 where all are alike
    seed: int


@dataclass(frozen=True)
class Move:
    """A subscriber's move that falls due at a time."""

    due: int
    sub: int
    to: int


@dataclass(frozen=True)
class Ask:
    """A caller's wish to find a subscriber, from a time on."""

    due: int
    caller: int
    start: int
    sub: int


@dataclass
class Part:
    """What goes into one input: where subscribers are, their moves before anything is counted, and the calls by time."""

    homes: list[int]
    warm: list[tuple[int, int]] = field(default_factory=list)
    calls: list[Move | Ask] = field(default_factory=list)
    time: int = 0  # over which the calls are spread


@dataclass
class Load:
    """All that happens. A subscriber began at a node, and wandered to others; there the first part begins."""

    began: list[int]
    wandered: list[list[int]]  # the nodes to which each subscriber went, one after another
    parts: list[Part]


class Chance:
    """Draws from one seed, by the one method of `random` that gives the same numbers in every version of Python."""

    def __init__(self, seed: int):
        self.draw = random.Random(seed).random

    def below(self, most: int) -> int:
        return min(most - 1, int(self.draw() * most))

    def pick(self, some):
        return some[self.below(len(some))]

    def by_weight(self, sums: list[float]) -> int:
        """The place of a draw among sums that ascend."""
        drawn = self.draw() * sums[-1]
        return next(at for at, upto in enumerate(sums) if drawn < upto or at + 1 == len(sums))


def zipf_sums(count: int, exponent: float) -> list[float]:
    sums = [0.0]
    for rank in range(1, count + 1):
        sums.append(sums[-1] + rank**-exponent)
    return sums[1:]


class Drawing:
    """Draws the parts of a load one after another; the next begins where the one before has left the subscribers."""

    def __init__(self, network: directory.Network, wishes: Wishes):
        self.network, self.wishes, self.chance = network, wishes, Chance(wishes.seed)
        self.diameter = network.diameter()
        self.near = [sorted(arcs) for arcs in network.arcs]
        self.began = [self.chance.below(network.nodes) for _ in range(wishes.subs)]
        self.at = list(self.began)
        self.wandered = [self.wander(sub) for sub in range(wishes.subs)]
        self.popular = zipf_sums(wishes.subs, wishes.zipf)
        self.begins: dict[int, list[int]] = {}

    def part(self, moves: int, finds: int, time: int) -> Part:
        """The next part, of so many moves and finds, which are spread over a time."""
        part = Part(list(self.at), time=time)
        self.warm_up(part)
        drawn = [(self.chance.below(part.time), at >= moves) for at in range(moves + finds)]
        for due, is_find in sorted(drawn):
            part.calls.append(self.ask(due) if is_find else self.move(due))
        return part

    def wander(self, sub: int) -> list[int]:
        """Where the subscriber goes before the first input. One move more or less lets it come to all nodes of a grid, where even
        and odd numbers of moves end at nodes of their own."""
        return [self.next_node(sub) for _ in range(WANDERED * self.network.nodes + self.chance.below(2))]

    def warm_up(self, part: Part) -> None:
        """Moves until each subscriber has gone as far as the network is wide, so that the addresses have all ages."""
        for sub in range(self.wishes.subs):
            gone = moves = 0
            while gone < self.diameter and moves < MOST_WARM_MOVES:
                start, to = self.at[sub], self.next_node(sub)
                gone, moves = gone + self.network.distance(start, to), moves + 1
                part.warm.append((sub, to))

    def next_node(self, sub: int) -> int:
        """Where the subscriber goes; there it is from now on."""
        at = self.at[sub]
        if self.wishes.move_to == "neighbours":
            to = self.chance.pick(self.near[at])
        else:
            to = self.chance.below(self.network.nodes - 1)
            to += to >= at
        self.at[sub] = to
        return to

    def move(self, due: int) -> Move:
        sub = self.chance.below(self.wishes.subs)
        return Move(due, sub, self.next_node(sub))

    def ask(self, due: int) -> Ask:
        caller, sub = self.wishes.subs + self.chance.below(self.wishes.callers), self.chance.by_weight(self.popular)
        at = self.at[sub]
        if at not in self.begins:
            self.begins[at] = rivals.origins(self.network, at, ORIGINS[self.wishes.find_from])
        return Ask(due, caller, self.chance.pick(self.begins[at]), sub)


def parts_needed(wishes: Wishes, plans: list[texts.Plan]) -> int:
    """How many inputs the calls need at least: by their count, and by the bytes of their order over the widest plan."""
    digits = len(str(wishes.subs + wishes.callers)) + 1
    visits = 0
    for plan in plans:
        looks = sum(len(cluster.members) for level in plan.levels for cluster in level.clusters) / plan.nodes + 3
        visits = max(visits, math.ceil(wishes.finds * looks + wishes.moves * (2 * len(plan.levels) + 4)))
    return max(1, math.ceil((wishes.moves + wishes.finds) / CALLS_OF_A_PART), math.ceil(visits * digits / BYTES_OF_A_PART))


def time_of(wishes: Wishes) -> float:
    """The time over which all calls are spread: so long that each subscriber stays as is wished."""
    each = wishes.moves / wishes.subs if wishes.moves else wishes.finds / wishes.callers
    return wishes.stay * each


def draw_load(network: directory.Network, wishes: Wishes, count: int) -> Load:
    """The load in so many parts, which take the same time and have moves and finds at the same rates."""
    drawing, time = Drawing(network, wishes), max(1, math.ceil(time_of(wishes) / count))
    share = [((at + 1) * wishes.moves // count - at * wishes.moves // count,
              (at + 1) * wishes.finds // count - at * wishes.finds // count) for at in range(count)]
    parts = [drawing.part(moves, finds, time) for moves, finds in share]
    return Load(drawing.began, drawing.wandered, parts)
