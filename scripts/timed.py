"""Calls in time: the directory's movers and callers, where a message takes as long as its weight.

A visit is made when its message comes to the node. A find goes to a leader and back, or on from there, so that its weight is the
time from its first look to its last. A move begins when its subscriber has come to the new node. It makes its writes one after
another, each a message from there and an answer; the next message goes out when the answer is back. An actor makes one call after
another: a call that falls due before the actor's last one is done waits for it. A caller is free again once the answer has come
back to it, by the least way; a find that is to be made again is made at that moment. Visits that come at the same time are made in
the order in which their messages were sent. Where a pace is wished, each message of a find takes that many times its weight: slow
callers meet more moves.

All of it runs over the plain Python directory of scripts/directory.py, and gives the input, with its order lines, of which the
program then has to write the same report."""
from __future__ import annotations

import heapq
from collections import deque
from dataclasses import dataclass

import directory
import texts
from lab_load import Ask, Move, Part, Wishes
from weights import Account, write_weight


class TooLong(Exception):
    """A part has more calls or bytes than an input may have."""


@dataclass
class Found:
    """What became of a find, with all that was made again of it."""

    caller: int
    start: int
    sub: int
    due: int
    began: int
    ended: int = 0
    node: int = -1  # where it was answered
    level: int | None = None
    weight: int = 0  # of all its attempts
    again: int = 0  # how many attempts had no answer
    again_weight: int = 0
    looks: int = 0
    met: bool = False  # whether a visit of a move of its subscriber came into an attempt


@dataclass
class Moved:
    """A move that was made, and what it weighs by two models."""

    sub: int
    start: int
    to: int
    distance: int
    due: int
    began: int
    ended: int = 0
    costs: int = 0  # as the word `costs` weighs
    messages: int = 0  # each write a message from the new node, there and back


class CountedCells(directory.Cells):
    """Cells that count how many words stand at each node, and how many did at most."""

    def __init__(self, setting: directory.Setting, homes: list[int]):
        super().__init__(setting, homes)
        self.setting = setting
        self.held = [0] * setting.plan.nodes
        for _, node in self.marks:
            self.held[node] += 1
        for _, place in self.addresses:
            self.held[setting.leader(*place)] += 1
        self.most = list(self.held)

    def put(self, sub: int, put: directory.Put) -> None:
        node = self.setting.node_of(put)
        before = self.mark(sub, node) != ("Empty",) if put.kind == "presence" else self.address(sub, put.place) is not None
        after = put.word not in (None, ("Empty",))
        super().put(sub, put)
        self.held[node] += after - before
        self.most[node] = max(self.most[node], self.held[node])

    def count_anew(self) -> None:
        self.most = list(self.held)


class TimedMachine(directory.Machine):
    """The actors of one part, whose visits are made at their times."""

    def __init__(self, setting: directory.Setting, part: Part, wishes: Wishes):
        super().__init__(setting, part.homes, [[] for _ in range(wishes.subs + wishes.callers)])
        self.cells = CountedCells(setting, part.homes)
        self.part, self.pace, self.far = part, wishes.pace, setting.network.distance
        self.lines: list[str] = []
        self.found: list[Found] = []
        self.moved: list[Moved] = []
        self.visits = [0] * setting.plan.nodes
        self.now = 0
        self.free = [0] * len(self.actors)  # when the actor's next visit is, or its next call may begin
        self.under_way: list[Found | Moved | None] = [None] * len(self.actors)
        self.last_put = [-1] * len(part.homes)
        self.accounts = [Account() for _ in part.homes]
        self.waiting: list[deque[Move | Ask]] = [deque() for _ in self.actors]
        self.events: list[tuple[int, int, int]] = []
        self.sent = 0

    def play(self, tell) -> None:
        """All of the part; `tell` is called with each call that is done."""
        for sub, to in self.part.warm:
            self.begin_call(sub, Move(0, sub, to))
            while self.actors[sub].puts or self.actors[sub].script:
                self.turn(sub)
        self.count_anew()
        for call in self.part.calls:
            self.waiting[call.sub if isinstance(call, Move) else call.caller].append(call)
        for actor, calls in enumerate(self.waiting):
            if calls:
                self.send(calls[0].due, actor)
        while self.events:
            self.now, _, actor = heapq.heappop(self.events)
            if self.under_way[actor] is None:
                self.begin_call(actor, self.waiting[actor].popleft())
            self.turn(actor)
            if self.under_way[actor] is None:
                tell()
                if self.waiting[actor]:
                    self.send(max(self.free[actor], self.waiting[actor][0].due), actor)
            else:
                self.send(self.free[actor], actor)

    def count_anew(self) -> None:
        """The moves before all that is counted are done."""
        self.moved, self.visits = [], [0] * len(self.visits)
        self.cells.count_anew()
        self.free, self.now = [0] * len(self.actors), 0

    def send(self, time: int, actor: int) -> None:
        """The actor's next visit is at that time."""
        self.sent += 1
        heapq.heappush(self.events, (time, self.sent, actor))

    def begin_call(self, actor: int, call: Move | Ask) -> None:
        if isinstance(call, Move):
            start = self.courses[actor].at
            self.under_way[actor] = Moved(actor, start, call.to, self.far(start, call.to), call.due, self.now)
            self.give(actor, f"move {actor} {call.to}", texts.Step("move", call.to))
        else:
            self.under_way[actor] = Found(actor, call.start, call.sub, call.due, self.now)
            self.give(actor, f"find {actor} {call.start} {call.sub}", texts.Find(call.start, call.sub))

    def give(self, actor: int, line: str, call: texts.Step | texts.Find) -> None:
        """The actor's next call, which the input has too."""
        if len(self.lines) >= texts.LIMITS[2].calls:
            raise TooLong
        self.lines.append(line)
        self.actors[actor].script.append(call)

    def write(self, number: int, actor: directory.Actor) -> None:
        put, move = actor.puts[0], self.under_way[number]
        node = self.setting.node_of(put)
        super().write(number, actor)
        self.visits[node] += 1
        self.last_put[number] = len(self.order) - 1
        back = self.far(move.to, node)
        move.messages += 2 * back
        move.costs += write_weight(self.setting, put, move.to)
        self.accounts[number].purged += put.word == ("Empty",)
        self.free[number] = self.now + back
        if actor.puts:
            self.free[number] += self.far(move.to, self.setting.node_of(actor.puts[0]))
        else:
            move.ended = self.free[number]
            self.moved.append(move)
            self.under_way[number] = None
            self.accounts[number].moves += 1
            self.accounts[number].moved += move.distance
            self.accounts[number].written += move.costs

    def look(self, number: int, actor: directory.Actor, ticket: int) -> None:
        walk, find = actor.walk, self.under_way[number]
        before = walk.weight
        inside = self.inside_of(walk)
        super().look(number, actor, ticket)
        node = walk.looks[-1].node
        self.visits[node] += 1
        if walk.answer is None:
            self.free[number] = self.now + self.pace * (walk.weight - before - inside + self.inside_of(walk))
            return
        back = inside if walk.answer == ("again", "none") else self.far(node, walk.start)
        self.free[number] = self.now + self.pace * back
        self.account(find, walk, actor.tickets[0])
        if walk.answer[0] == "again":
            self.give(number, f"find {number} {walk.start} {walk.sub}", texts.Find(walk.start, walk.sub))
        else:
            find.node, find.ended = walk.answer[1], self.now
            self.found.append(find)
            self.under_way[number] = None

    def inside_of(self, walk: directory.Walk) -> int:
        """How far the leader is at which the find looks next while it climbs, else 0."""
        state, at = walk.place
        return self.setting.inside[at[0]][at[1]][walk.start] if state == "climb" else 0

    def account(self, find: Found, walk: directory.Walk, first: int) -> None:
        """An attempt is over."""
        find.weight += walk.weight
        find.looks += len(walk.looks)
        find.level = walk.level
        find.met = find.met or self.last_put[walk.sub] >= first
        if walk.answer[0] == "again":
            find.again += 1
            find.again_weight += walk.weight
        walk.looks = []

    def text(self, head: list[str], edges: list[tuple[int, int, int]], k: int) -> str:
        """The input of the part, once it is played."""
        callers = len(self.actors) - len(self.homes)
        lines = ["# " + line for line in head] + ["track 2", f"nodes {self.setting.plan.nodes}", f"k {k}"]
        lines += [f"edge {a} {b} {weight}" for a, b, weight in edges]
        lines += [f"sub {home}" for home in self.homes] + [f"callers {callers}"] + self.lines
        lines += ["order " + " ".join(map(str, self.order[at:at + 64])) for at in range(0, len(self.order), 64)]
        text = "\n".join(lines) + "\n"
        if len(text.encode()) > texts.MOST_BYTES:
            raise TooLong
        return text
