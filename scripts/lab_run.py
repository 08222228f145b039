"""Runs a load over plans that the program makes, and holds what the lab saw to what the program replays, byte for byte."""
from __future__ import annotations

from dataclasses import dataclass, field

import directory
from lab_load import Part, Wishes
from lab_networks import Site
from program import Program
from stretches import Stretches, read_stretches
from texts import BadText, Plan, read_plan
from timed import Found, Moved, TimedMachine
from weights import costs_text



@dataclass(frozen=True)
class Words:
    """The words of the program for one kind of covers."""

    plan: str
    report: str
    stretch: str


WORDS = {"cover": Words("cover", "replay", "stretch"), "mean": Words("meancover", "meanreplay", "meanstretch")}


@dataclass(frozen=True)
class Kind:
    """Which covers a plan has: `cover` or `mean`, and its k."""

    covers: str
    k: int

    def name(self) -> str:
        return f"{'mean ' if self.covers == 'mean' else ''}k {self.k}"

    def file_name(self) -> str:
        return f"{self.covers}-k{self.k}"


@dataclass
class Outcome:
    """What one plan, or one of what people use in its place, made of the load."""

    name: str
    kind: Kind | None = None
    plan: Plan | None = None
    stretches: Stretches | None = None
    found: list[Found] = field(default_factory=list)
    moved: list[Moved] = field(default_factory=list)
    visits: list[int] = field(default_factory=list)  # by node
    cells: list[int] = field(default_factory=list)  # by node, how many words stood there at once at most
    inputs: list[str] = field(default_factory=list)
    busy: float = 0.0  # the share of their time in which subscribers were in a move
    late: float = 0.0  # by how much of its planned time the load ended after it


def bare_input(site: Site, k: int) -> str:
    """An input without calls on the network."""
    lines = ["track 2", f"nodes {site.nodes}", f"k {k}"] + [f"edge {a} {b} {weight}" for a, b, weight in site.edges]
    return "\n".join(lines + ["sub 0", "callers 0"]) + "\n"


def plan_of(program: Program, site: Site, kind: Kind) -> Plan:
    """The plan that the program makes for the network."""
    return read_plan(program.ask(WORDS[kind.covers].plan, bare_input(site, kind.k)))


def stretches_of(program: Program, site: Site, kind: Kind) -> Stretches:
    """The stretches that the program tells of this plan."""
    return read_stretches(program.ask(WORDS[kind.covers].stretch, bare_input(site, kind.k)))


def head_of(site: Site, words: str) -> list[str]:
    """The comments of an input of the lab: how it was made, and where its nodes lie."""
    lines = [f"Made by examples/lab {words}", "Its order is that of visits whose messages took as long as their weights."]
    lines += [f"at {v} {x} {y}" for v, (x, y) in sorted(site.places.items())]
    return lines + [f"name {v} {name}" for v, name in enumerate(site.names) if name != str(v)]


class Runner:
    """Plays the parts of a load over one plan after another."""

    def __init__(self, program: Program, site: Site, network: directory.Network, wishes: Wishes, words: str):
        self.program, self.site, self.network, self.wishes = program, site, network, wishes
        self.head = head_of(site, words)

    def run(self, kind: Kind, plan: Plan, parts: list[Part], tell) -> Outcome:
        """The load over a plan; ends the lab where the program replays it otherwise."""
        setting, nodes = directory.Setting(self.network, plan), self.site.nodes
        outcome = Outcome(kind.name(), kind, plan, stretches_of(self.program, self.site, kind), visits=[0] * nodes, cells=[0] * nodes)
        spent = planned = last = 0
        for at, part in enumerate(parts, 1):
            machine = TimedMachine(setting, part, self.wishes)
            machine.play(tell)
            text = machine.text(self.head + [f"{kind.name()}, part {at} of {len(parts)}"], self.site.edges, kind.k)
            self.hold(kind, machine, text)
            outcome.inputs.append(text)
            outcome.found += machine.found
            outcome.moved += machine.moved
            outcome.visits = [a + b for a, b in zip(outcome.visits, machine.visits)]
            outcome.cells = [max(pair) for pair in zip(outcome.cells, machine.cells.most)]
            spent += sum(move.ended - move.began for move in machine.moved)
            planned += part.time
            last += max(machine.now, part.time)
        outcome.busy = spent / (last * len(parts[0].homes))
        outcome.late = last / planned - 1
        return outcome

    def hold(self, kind: Kind, machine: TimedMachine, text: str) -> None:
        """The program's replay has to be what the lab saw; its costs, which are those of `cover`, too."""
        word, path = WORDS[kind.covers].report, self.program.path
        if self.program.ask(word, text) != machine.report():
            raise BadText(f"{path} {word} writes another report of {kind.name()} than the lab saw; the two don't agree")
        if kind.covers == "cover" and self.program.ask("costs", text) != costs_text(machine.accounts):
            raise BadText(f"{path} costs writes another text of {kind.name()} than the lab reckoned; the two don't agree")
