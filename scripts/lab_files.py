"""What the lab leaves in a folder: one page with its plots, the plots as SVG, all rows as CSV and JSON, and the inputs."""
from __future__ import annotations

import csv
import io
import json
import math
import pathlib
import re
import statistics
from dataclasses import asdict, dataclass

import directory
import lab_page
import lab_plots
from break_even import Wins
from lab_load import Wishes
from lab_measure import Row, over, rivals_of, wins
from lab_networks import Site
from lab_plots import Points
from lab_run import Outcome
from layout import layout
from pictures import spread
from texts import BadText


LIST = "files.txt"  # the names of all that a lab leaves in a folder
OWN_NAME = re.compile(r"(inputs/)?[a-z0-9-]+\.(html|svg|csv|json|txt)")


@dataclass
class Answer:
    """All that the lab has to tell."""

    site: Site
    network: directory.Network
    wishes: Wishes
    head: list[str]
    notes: list[str]
    rows: list[Row]
    outcomes: list[Outcome]


def folder_for(name: str) -> pathlib.Path:
    """The folder, which is made where it isn't there."""
    folder = pathlib.Path(name)
    try:
        folder.mkdir(parents=True, exist_ok=True)
        (folder / "inputs").mkdir(exist_ok=True)
    except OSError as bad:
        raise BadText(f"{name} can't be made a folder: {bad.strerror}") from None
    return folder


def remove_earlier(folder: pathlib.Path) -> None:
    """What an earlier lab left there goes: it says nothing of this one."""
    try:
        names = (folder / LIST).read_text(encoding="utf-8", errors="replace").splitlines()
    except FileNotFoundError:
        return
    for name in names:
        if OWN_NAME.fullmatch(name):
            (folder / name).unlink(missing_ok=True)


def write_all(folder: pathlib.Path, answer: Answer) -> None:
    """The list of all files is written first, and the page last."""
    plots = plots_of(answer)
    files = {f"{name}.svg": text for name, text in plots.items()}
    rows, nodes = records_of_rows(answer), records_of_nodes(answer)
    finds, moves = records_of_finds(answer), records_of_moves(answer)
    files |= {"rows.csv": csv_text(rows), "nodes.csv": csv_text(nodes), "finds.csv": csv_text(finds), "moves.csv": csv_text(moves)}
    network = {"nodes": answer.site.names, "edges": answer.site.edges, "weights": answer.site.weights}
    told = {"network": network, "asked": asdict(answer.wishes), "notes": answer.notes, "rows": rows, "nodes": columns(nodes),
            "finds": columns(finds), "moves": columns(moves)}
    files["lab.json"] = json.dumps(told, ensure_ascii=False, separators=(",", ":")) + "\n"
    for outcome in answer.outcomes:
        for at, text in enumerate(outcome.inputs, 1):
            part = "" if len(outcome.inputs) == 1 else f"-part{at}"
            files[f"inputs/{outcome.kind.file_name()}{part}.txt"] = text
    files["lab.html"] = lab_page.page_of(answer.head, answer.notes, answer.rows, answer.site.names, plots)
    remove_earlier(folder)
    for name, text in {LIST: "".join(f"{name}\n" for name in files), **files}.items():
        (folder / name).write_bytes(text.encode())


def plots_of(answer: Answer) -> dict[str, str]:
    """All plots by name, in the order of the page."""
    rows = answer.rows
    medians = {outcome.name: medians_by_distance(outcome, answer.network) for outcome in answer.outcomes}
    plots = {}
    if answer.wishes.finds:
        plots["finds"] = lab_plots.finds_plot(rows)
        plots["finds-by-distance"] = lab_plots.distance_plot(rows, medians)
    if answer.wishes.moves:
        plots["moves"] = lab_plots.moves_plot(rows)
    in_all = lab_plots.in_all_plot(rows, rivals_of(rows)["home"])
    if in_all:
        plots["in-all"] = in_all
    plots["visits"] = lab_plots.load_plot(rows)
    known = answer.site.places if len(answer.site.places) == answer.site.nodes else layout(answer.network)
    places = spread(known, answer.site.nodes, 430, 300, 36)
    for row, outcome in zip(rows, answer.outcomes):
        if outcome.kind:
            plots[f"map-{outcome.kind.file_name()}"] = lab_plots.map_plot(row, places, answer.site.edges, answer.site.names)
    return plots


def medians_by_distance(outcome: Outcome, network: directory.Network) -> Points:
    """The median of finds over distance, for distances up to each power of two of the diameter's shares."""
    diameter, ratios = network.diameter(), {}
    for find in outcome.found:
        distance = network.distance(find.start, find.node)
        if distance:
            ratios.setdefault(math.floor(math.log2(distance / diameter) * 2), []).append((distance, find.weight / distance))
    return [(statistics.fmean(far for far, _ in some) / diameter, statistics.median(ratio for _, ratio in some))
            for _, some in sorted(ratios.items()) if len(some) >= 8]


def number_or_none(value: float | None) -> float | None:
    """Where JSON has no infinity, and a table no long fractions."""
    return None if value is None or math.isinf(value) else round(value, 9)


def records_of_rows(answer: Answer) -> list[dict]:
    """A record for each plan and each rival."""
    rivals = rivals_of(answer.rows)
    records = []
    for row in answer.rows:
        record = {name: getattr(row, name) for name in ("name", "covers", "k", "levels", "degree", "own_stretch", "any_stretch")}
        for kind in ("quiet", "met", "all_finds"):
            found = getattr(row, kind)
            record |= {f"{kind}": found.number, f"{kind}_median": number_or_none(found.median),
                       f"{kind}_95": number_or_none(found.most_of), f"{kind}_most": number_or_none(found.most)}
        record |= {name: getattr(row, name) for name in ("at_no_distance", "again", "again_weight", "finds", "find_weight", "moves",
                                                         "moved", "costs", "messages", "busy", "late")}
        record["in_all"] = number_or_none(row.in_all())
        for name, rival in rivals.items():
            record[f"over_{name}"] = number_or_none(over(row, rival))
            record |= record_of_wins(name, wins(row, rival))
        records.append(record)
    return records


def record_of_wins(name: str, where: Wins | None) -> dict[str, float | None]:
    """At how many finds a move a row weighs less than a rival: up to a number, and from one on, which is 0 where it always does."""
    always = where is not None and where.always()
    return {f"less_than_{name}_up_to": number_or_none(where.until or None) if where and not always else None,
            f"less_than_{name}_from": 0.0 if always else number_or_none(where.since if where else None)}


def records_of_nodes(answer: Answer) -> list[dict]:
    return [{"row": row.name, "node": v, "name": name, "visits": row.visits[v], "cells": row.cells[v]}
            for row in answer.rows for v, name in enumerate(answer.site.names)]


def records_of_finds(answer: Answer) -> list[dict]:
    """A record for each find over each plan, and by each rival, which knows no times but when a call falls due."""
    return [{"row": outcome.name, "caller": find.caller, "from": find.start, "sub": find.sub, "due": find.due,
             "began": find.began if outcome.kind else None, "ended": find.ended if outcome.kind else None, "at": find.node,
             "distance": answer.network.distance(find.start, find.node), "level": find.level,
             "weight": find.weight, "met": find.met, "again": find.again, "again_weight": find.again_weight, "looks": find.looks}
            for outcome in answer.outcomes for find in outcome.found]


def records_of_moves(answer: Answer) -> list[dict]:
    return [{"row": outcome.name, "sub": move.sub, "from": move.start, "to": move.to, "distance": move.distance, "due": move.due,
             "began": move.began if outcome.kind else None, "ended": move.ended if outcome.kind else None,
             "costs": move.costs if outcome.kind else None, "messages": move.messages}
            for outcome in answer.outcomes for move in outcome.moved]


def columns(records: list[dict]) -> dict[str, list]:
    """Many records of one shape, each part of them in a list of its own."""
    return {name: [record[name] for record in records] for name in (records[0] if records else ())}


def csv_text(records: list[dict]) -> str:
    """Records of one shape, the names of their parts first; true and false as 1 and 0."""
    text = io.StringIO()
    writer = csv.writer(text, lineterminator="\n")
    if records:
        writer.writerow(records[0])
    for record in records:
        writer.writerow([int(value) if isinstance(value, bool) else value for value in record.values()])
    return text.getvalue()
