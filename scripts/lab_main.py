"""The lab from its words to its answer: examples/lab is its front."""
from __future__ import annotations

import argparse
import math
import os
import pathlib
import shlex
import signal
import sys

import directory
import lab_files
import lab_table
from lab_load import Part, Wishes, draw_load, parts_needed
from lab_measure import Row, row_of
from lab_networks import Site, load_network, printable
from lab_progress import Progress
from lab_rivals import TOLD, Comparison
from lab_run import Kind, Outcome, Runner, plan_of
from program import Program
from texts import BadText
from timed import TooLong

STAY = 50  # diameters that a subscriber stays on average, where nothing else is asked for
BETWEEN = 16  # diameters between two finds of a caller, where the callers aren't told
LARGE = 500  # nodes, from which on distances take more than a second
LATE = 0.1  # of the planned time: a load that ends so much after it is said to be crowded


def run(words: argparse.Namespace, program: Program) -> None:
    """The lab; ends with status 130 at Ctrl-C."""
    progress = Progress()
    sys.stdout.reconfigure(errors="replace")
    try:
        answer(words, program, progress)
    except KeyboardInterrupt:
        signal.signal(signal.SIGINT, signal.SIG_IGN)
        progress.close()
        print(progress.stopped(), file=sys.stderr, flush=True)
        os._exit(130)
    except BaseException:
        progress.close()
        raise


def answer(words: argparse.Namespace, program: Program, progress: Progress) -> None:
    site = load_network(words.network, words.unit, words.weight)
    if 1 in words.k and site.nodes > 256:
        raise BadText(f"k of 1 is taken up to 256 nodes, and this network has {site.nodes}")
    folder = lab_files.folder_for(words.out) if words.out else None
    progress.begin(f"measuring the distances of {site.nodes} nodes", is_long=site.nodes > LARGE)
    network = directory.Network(site.nodes, site.edges)
    wishes = wishes_of(words, network.diameter())
    study = Study(site, network, wishes, program, told_words(words), progress)
    kinds = [Kind(covers, k) for covers in ("cover", "mean") if words.covers in ("both", covers) for k in words.k]
    outcomes = study.outcomes(kinds)
    rows = [row_of(outcome, network) for outcome in outcomes]
    head = head_of(words, site, network, wishes, study.count)
    notes = site.notes + crowded(rows) + same_plans(outcomes)
    progress.close()
    sys.stdout.write("\n".join([*head, *("note: " + note for note in notes), ""]) + "\n")
    sys.stdout.write(lab_table.table_text(rows) + f"\n{lab_table.cheapest_words(rows)}\n\n" + lab_table.nodes_text(rows, site.names))
    sys.stdout.write("\n" + "".join(f"{name}: {told}\n" for name, told in TOLD.items()))
    sys.stdout.flush()
    if folder:
        progress.left = f"the table was written, and {folder} may lack files"
        progress.begin(f"writing {folder}")
        lab_files.write_all(folder, lab_files.Answer(site, network, wishes, head, notes, rows, outcomes))
        print(f"\nthe page is {folder / 'lab.html'}")


def wishes_of(words: argparse.Namespace, diameter: int) -> Wishes:
    stay = words.stay if words.stay is not None else float(STAY * diameter)
    callers = words.callers
    if callers is None:
        time_of_all = stay * words.moves / words.subs if words.moves else math.inf
        callers = min(64, max(8, math.ceil(words.finds * BETWEEN * diameter * words.pace / time_of_all)))
    return Wishes(words.moves, words.finds, words.subs, callers, stay, words.move_to, words.find_from, words.pace, words.zipf,
                  words.seed)


def told_words(words: argparse.Namespace) -> str:
    """The words that make the same inputs, without the folder and the network's place on this machine."""
    told = [shlex.quote(file_name(words))]
    for name, value in sorted(vars(words).items()):
        if name not in ("network", "out") and value is not None:
            told.append(f"--{name.replace('_', '-')} {','.join(map(str, value)) if isinstance(value, list) else value}")
    return " ".join(told)


def file_name(words: argparse.Namespace) -> str:
    return printable(pathlib.Path(words.network).name, 0)


class Study:
    """All plans on one load: in one input, or in several where it is too long for one."""

    def __init__(self, site: Site, network: directory.Network, wishes: Wishes, program: Program, words: str, progress: Progress):
        self.site, self.network, self.wishes, self.program, self.progress = site, network, wishes, program, progress
        self.runner = Runner(program, site, network, wishes, words)
        self.count = 0

    def outcomes(self, kinds: list[Kind]) -> list[Outcome]:
        """An outcome for each kind of plan and for each rival."""
        plans = []
        for kind in kinds:
            self.progress.begin(f"making the plan of {kind.name()}")
            plans.append(plan_of(self.program, self.site, kind))
        self.count = parts_needed(self.wishes, plans)
        while True:
            self.progress.begin("drawing the load")
            load = draw_load(self.network, self.wishes, self.count)
            try:
                return self.over_plans(kinds, plans, load.parts) + Comparison(self.network, load).play()
            except TooLong:
                self.count *= 2
                if self.count > self.wishes.moves + self.wishes.finds:
                    raise BadText("the load finds no room in inputs, however many it is cut into") from None

    def over_plans(self, kinds: list[Kind], plans: list, parts: list[Part]) -> list[Outcome]:
        outcomes = []
        for kind, plan in zip(kinds, plans):
            self.progress.begin(kind.name(), self.wishes.moves + self.wishes.finds)
            outcomes.append(self.runner.run(kind, plan, parts, self.progress.step))
            self.progress.finish()
        self.progress.begin("weighing the others")
        return outcomes


def same_plans(outcomes: list[Outcome]) -> list[str]:
    """Which columns are of the same clusters and homes, and so of the same numbers but the bound."""
    alike: dict[str, list[str]] = {}
    for outcome in outcomes:
        if outcome.plan:
            alike.setdefault(repr(outcome.plan.levels), []).append(outcome.name)
    return [f"{' and '.join(names)} have the same clusters here, so their columns are alike but for what is proved"
            for names in alike.values() if len(names) > 1]


def crowded(rows: list[Row]) -> list[str]:
    """What is to be said of a load that had no time."""
    late = [row for row in rows if row.late is not None and row.late > LATE]
    if not late:
        return []
    worst = max(late, key=lambda row: row.late)
    return [f"calls were too many for their time: over {worst.name} the load ended {100 * worst.late:.0f} % later than planned, "
            "so that calls waited for their actors; a longer --stay, more --callers or a lower --pace gives them room"]


def head_of(words: argparse.Namespace, site: Site, network: directory.Network, wishes: Wishes, count: int) -> list[str]:
    """What was asked, in a few lines."""
    load = f"{wishes.moves:,} moves of {wishes.subs} subscribers to {wishes.move_to}, "
    load += f"{wishes.finds:,} finds by {wishes.callers} callers from {wishes.find_from}"
    load += f", zipf {wishes.zipf:g}" if wishes.zipf else ""
    load += f", pace {wishes.pace}" if wishes.pace != 1 else ""
    parts = "one input" if count == 1 else f"{count} inputs of the same rates, each of which begins where the one before ended"
    edges = "1 edge" if len(site.edges) == 1 else f"{len(site.edges):,} edges"
    diameter, stay = network.diameter(), f"{wishes.stay:,.0f}" if wishes.stay >= 10 else f"{wishes.stay:g}"
    return [
        f"{file_name(words)}: {site.nodes} nodes, {edges}, diameter {diameter:,}; weights: {site.weights}",
        load,
        f"a subscriber stays {stay} on average ({wishes.stay / diameter:.3g} diameters); seed {wishes.seed}; {parts}",
    ]
