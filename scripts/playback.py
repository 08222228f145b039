"""What a page plays of an input: its network, its plan, and its replay visit by visit, as plain data. The report is the
program's; what a report doesn't tell is that of the plain Python directory, whose report has to be the same."""
from collections import namedtuple
from itertools import accumulate

import directory
from clusters import colours_of, tree_of
from lab_networks import utf_8
from pictures import spread
from texts import Again, BadText, Found, Moved, Switched, places_and_names, read_report

WIDTH, EDGE = 1000, 70

Visit = namedtuple("Visit", "actor call cell word progress")
# How far a find is after one of its looks; part is where it looked.
Progress = namedtuple("Progress", "known weight level part")
NO_PROGRESS = Progress(None, None, None, None)
PARTS = (None, "origin", "climb", "chase")


class Recorder(directory.Machine):
    """A machine that keeps each visit."""

    def __init__(self, setting, homes, scripts):
        super().__init__(setting, homes, scripts)
        self.calls_before = [0, *accumulate(len(script) for script in scripts)]
        self.visits = []

    def call_under_way(self, number):
        """The place of the actor's call among the lines of the report."""
        return self.calls_before[number] + len(self.actors[number].done)

    def write(self, number, actor):
        put, call = actor.puts[0], self.call_under_way(number)
        super().write(number, actor)
        self.visits.append(Visit(number, call, (put.kind, number, put.place), word_of(put.kind, put.word), None))

    def look(self, number, actor, ticket):
        walk, call, part = actor.walk, self.call_under_way(number), actor.walk.place[0]
        super().look(number, actor, ticket)
        look = walk.looks[-1]
        kind, place = ("presence", look.node) if look.kind == "presence" else ("entry", look.kind[1:])
        known = walk.known or None
        self.visits.append(Visit(number, call, (kind, walk.sub, place), word_of(kind, look.word),
                                 Progress(known, walk.weight, walk.level, part)))


def word_of(kind, word):
    """The word of a cell as a list: its name, a number and a node, as far as it has them."""
    if kind == "presence":
        return tuple(word)
    return ("nothing",) if word is None else ("address", *word)


class Table:
    """Values, each once, by number."""

    def __init__(self):
        self.numbers = {}

    def number(self, value):
        return self.numbers.setdefault(value, len(self.numbers))

    def values(self):
        return list(self.numbers)


def record(said, report, mean):
    """The recorder of an input, once all calls are done; ends the script where the program's report is another."""
    network = directory.Network(said.nodes, said.edges)
    setting = directory.Setting(network, directory.plan_of(network, said.k, mean))
    recorder = Recorder(setting, said.homes, said.scripts())
    recorder.run(said.order)
    if recorder.report() != report:
        raise BadText("the program's report isn't that of scripts/directory.py")
    return recorder


def map_of(said, text):
    """Where nodes are drawn, what they are called, and how high the map is."""
    places, names = places_and_names(text)
    height = 900
    if all(v in places for v in range(said.nodes)):
        xs, ys = zip(*(places[v] for v in range(said.nodes)))
        across, down = max(xs) - min(xs), max(ys) - min(ys)
        height = min(900, max(300, round(2 * EDGE + (WIDTH - 2 * EDGE) * down / across))) if across else 900
    elif said.nodes <= 8:
        height = 620
    at = spread(places, said.nodes, WIDTH, height, EDGE)
    nodes = [{"x": round(x, 1), "y": round(y, 1), "name": utf_8(names[v]) if v in names else None} for v, (x, y) in enumerate(at)]
    lightest = {}
    for a, b, weight in said.edges:
        if a != b:
            ends = min(a, b), max(a, b)
            lightest[ends] = min(weight, lightest.get(ends, weight))
    return {"width": WIDTH, "height": height, "nodes": nodes, "edges": [[*ends, weight] for ends, weight in lightest.items()]}


def levels_of(setting):
    levels = []
    for level in setting.plan.levels:
        colours = colours_of(level, setting.network)
        clusters = [{"leader": cluster.leader, "members": cluster.members, "phase": cluster.phase, "colour": colours[c],
                     "tree": tree_of(setting.network, cluster)} for c, cluster in enumerate(level.clusters)]
        levels.append({"radius": level.radius, "homes": level.homes, "clusters": clusters})
    return levels


def calls_of(report, network):
    """The lines of calls, with what a page asks of them."""
    calls = []
    for line, call in zip(report.split("\n"), read_report(report).calls):
        told = {"line": line, "actor": call.actor}
        if isinstance(call, Switched):
            told.update(kind="switch", first=call.ticket, last=call.ticket)
        elif isinstance(call, Moved):
            told.update(kind="move", first=call.first, last=call.last, start=call.start, to=call.to)
            told.update(weight=call.weight, commit=call.commit)
        else:
            told.update(kind="find", first=call.first, last=call.last, start=call.start, sub=call.sub)
            told.update(again=isinstance(call, Again))
        if isinstance(call, Found):
            told.update(at=call.node, distance=network.distance(call.start, call.node))
        calls.append(told)
    return calls


def visits_of(recorder, cells, words):
    """The visits column by column."""
    visits = recorder.visits
    progress = [visit.progress or NO_PROGRESS for visit in visits]
    return {
        "actor": [visit.actor for visit in visits],
        "call": [visit.call for visit in visits],
        "cell": [cells.number(visit.cell) for visit in visits],
        "word": [words.number(visit.word) for visit in visits],
        "known": [each.known for each in progress],
        "weight": [each.weight for each in progress],
        "level": [each.level for each in progress],
        "part": [PARTS.index(each.part) for each in progress],
    }


def playback(said, text, report, mean=False):
    """All that the page is told, as a value for JSON."""
    recorder = record(said, report, mean)
    setting, cells, words = recorder.setting, Table(), Table()
    opening = []
    fresh = directory.Cells(setting, said.homes)
    for (sub, node), mark in fresh.marks.items():
        opening.append([cells.number(("presence", sub, node)), words.number(word_of("presence", mark))])
    for (sub, place), address in fresh.addresses.items():
        opening.append([cells.number(("entry", sub, place)), words.number(word_of("entry", address))])
    visits = visits_of(recorder, cells, words)
    return {
        "mean": mean, "k": said.k, "map": map_of(said, text), "levels": levels_of(setting), "starts": said.homes,
        "callers": said.callers, "calls": calls_of(report, setting.network), "cells": cells.values(),
        "words": words.values(), "opening": opening, "visits": visits,
    }
