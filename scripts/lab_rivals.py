"""The calls of a load by what people use in place of a directory: a home register where each subscriber began, forwarding pointers
alone, and telling everybody. Calls are weighed one after another, in the order in which they fall due: these have no races here,
and none of them is simulated in time."""
from __future__ import annotations

import directory
from lab_load import Ask, Load, Move
from lab_run import Outcome
from rivals import Rivals
from timed import Found, Moved

NAMES = ("home", "pointers", "everybody")
TOLD = {
    "home": "a home register at the node where the subscriber began, which it left long before the load",
    "pointers": "forwarding pointers alone, from the node where the subscriber began",
    "everybody": "telling everybody, along a lightest spanning tree",
}


class Comparison:
    """The same calls by each of the three, with what they visit and keep at each node."""

    def __init__(self, network: directory.Network, load: Load):
        self.network, self.parts, nodes = network, load.parts, network.nodes
        self.settled = Rivals(network, load.began)
        for sub, way in enumerate(load.wandered):
            self.settled.walk(sub, way)
        self.outcomes = {name: Outcome(name, visits=[0] * nodes, cells=[0] * nodes) for name in NAMES}
        self.outcomes["everybody"].cells = [len(load.began)] * nodes
        for node in load.began:
            self.outcomes["home"].cells[node] += 1
        self.kept = [sum(node in own for own in self.settled.pointers) for node in range(nodes)]  # pointers at each node
        self.outcomes["pointers"].cells = list(self.kept)
        self.told = 0  # moves of which everybody was told

    def play(self) -> list[Outcome]:
        for part in self.parts:
            for sub, to in part.warm:
                self.move(Move(0, sub, to), False)
            for call in part.calls:
                if isinstance(call, Move):
                    self.move(call, True)
                else:
                    self.find(call)
        everybody = self.outcomes["everybody"]
        everybody.visits = [visits + self.told for visits in everybody.visits]
        return list(self.outcomes.values())

    def move(self, call: Move, counted: bool) -> None:
        start, sub = self.settled.at[call.sub], call.sub
        distance, had = self.network.distance(start, call.to), set(self.settled.pointers[sub])
        weights = self.settled.move(sub, call.to)
        for node in had ^ set(self.settled.pointers[sub]):
            self.kept[node] += 1 if node in self.settled.pointers[sub] else -1
            self.outcomes["pointers"].cells[node] = max(self.outcomes["pointers"].cells[node], self.kept[node])
        if not counted:
            return
        for name, weight in zip(NAMES, weights):
            moved = Moved(sub, start, call.to, distance, call.due, call.due, call.due, messages=weight)
            self.outcomes[name].moved.append(moved)
        self.outcomes["home"].visits[self.settled.homes[sub]] += 1
        self.outcomes["pointers"].visits[start] += 1
        self.told += 1

    def find(self, call: Ask) -> None:
        to, home = self.settled.at[call.sub], self.settled.homes[call.sub]
        for name, weight in zip(NAMES, self.settled.find(call.start, call.sub)):
            found = Found(call.caller, call.start, call.sub, call.due, call.due, call.due + weight, to, weight=weight)
            self.outcomes[name].found.append(found)
            self.outcomes[name].visits[to] += 1
        if home != to:
            self.outcomes["home"].visits[home] += 1
        node = home
        while node != to:
            self.outcomes["pointers"].visits[node] += 1
            node = self.settled.pointers[call.sub][node]
