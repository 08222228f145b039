"""The lab's page: one HTML file that holds its plots, needs nothing else, and asks no network."""
from __future__ import annotations

from xml.sax.saxutils import escape

from lab_measure import Row, largest, rivals_of
from lab_rivals import TOLD
from lab_table import cheapest_words, full_name, group_of, table_lines, title_of

STYLE = """
body { font-family: sans-serif; color: #222; background: #fff; line-height: 1.45 }
body { max-width: 62rem; margin: 2rem auto; padding: 0 1rem }
h1 { font-size: 1.5rem } h2 { font-size: 1.15rem; margin-top: 2.2rem }
.wide { overflow-x: auto } table { border-collapse: collapse; font-size: .82rem; font-variant-numeric: tabular-nums }
th, td { padding: .18rem .55rem; text-align: right; white-space: nowrap } th:first-child, td:first-child { text-align: left }
thead th { border-bottom: 1px solid #999 } tr.group th { padding-top: .8rem; text-align: left; color: #0072b2 }
.names th, .names td { text-align: left } .names td + td { white-space: normal } td.inner { padding-left: 1.6rem } th.first, td.first { border-left: 1px solid #ccc }
svg { max-width: 100%; height: auto } .maps { display: flex; flex-wrap: wrap; gap: .6rem }
.note { background: #fff3d6; padding: .5rem .8rem }
"""

MODEL = [
    "A message takes as long as its weight, and a visit is made when its message comes to the node. Times and weights are in "
    "the unit of the edges. A find goes to leaders and back, and on from there; its weight is the way to the subscriber, "
    "without the way back.",
    "A move begins when its subscriber has come to the new node. It makes its writes one after another, each a message from the "
    "new node and an answer. By <em>messages there and back</em> each write weighs twice the distance from the new node to the "
    "node of its cell; by the word <code>costs</code> a new address weighs twice the way inside its cluster, an erasure and the "
    "commit twice the distance, and what is purged weighs nothing.",
    "A find is <em>quiet</em> where no write of a move of its subscriber came while it was on its way; the others <em>met a "
    "move</em>. A find that is to be made again was made again, and all its attempts together are one find here.",
    "An input has 16,384 calls at most. A longer load is weighed as several inputs, each stationary and of the same rates: it has "
    "its share of all moves and of all finds, and begins where the one before has left the subscribers, after moves that aren't "
    "counted. What a move weighs and what a find weighs are told apart, each as the mean over all inputs; in all they are added "
    "by their rates, as many finds a move as were asked for. A find stands in one input with the moves around it: in an input of "
    "finds alone none would meet a move.",
    "The program replayed each input in <code>inputs/</code>, and wrote byte for byte what the lab saw.",
    "What people use in place of a directory is weighed call by call, without races: ",
]

CAPTIONS = {
    "finds": "How far finds travelled for each unit of distance. The scale is logarithmic.",
    "finds-by-distance": "The same by distance: near finds on the left, far ones on the right. A directory is made for the left.",
    "moves": "What moves weighed for each unit of distance moved, by two models. The scale is logarithmic.",
    "in-all": "What moves and finds come to in all, for so many finds a move, by the means of this load. Where a line crosses 1 "
              "the two are even.",
    "visits": "How the visits fall to nodes: a line that is flat spreads its load, a steep one has few nodes do the work.",
}

HEADINGS = {"finds": "Finds", "finds-by-distance": "Finds by distance", "moves": "Moves", "in-all": "In all", "visits": "Visits"}


def page_of(head: list[str], notes: list[str], rows: list[Row], names: list[str], plots: dict[str, str]) -> str:
    """The page."""
    title = head[0].partition(":")[0]
    parts = ["<!DOCTYPE html>", '<html lang="en">', "<head>", '<meta charset="utf-8">',
             '<meta name="viewport" content="width=device-width, initial-scale=1">',
             f"<title>A directory on {escape(title)}</title>", f"<style>{STYLE}</style>", "</head>", "<body>",
             f"<h1>A directory on {escape(title)}</h1>", "<p>" + "<br>".join(map(escape, head)) + "</p>"]
    parts += [f'<p class="note">{escape(note)}</p>' for note in notes]
    parts += ["<h2>The table</h2>", '<div class="wide">', *table_of(rows), "</div>",
              f"<p>{escape(cheapest_words(rows))}</p>"]
    for name, caption in CAPTIONS.items():
        if name in plots:
            parts += [f'<h2 id="{name}">{HEADINGS[name]}</h2>', f"<p>{caption}</p>", plots[name].rstrip("\n")]
    parts += ['<h2 id="nodes">Nodes</h2>', "<p>Each node as large as its visits are many; below, the most loaded ones by name.</p>",
              '<div class="maps">', *[text.rstrip("\n") for name, text in plots.items() if name.startswith("map-")], "</div>",
              '<div class="wide">', *nodes_of(rows, names), "</div>", "<h2>The model</h2>"]
    parts += [f"<p>{words}</p>" for words in MODEL[:-1]]
    parts += [f"<p>{MODEL[-1]}</p>", "<ul>", *[f"<li><em>{name}</em>: {words}</li>" for name, words in TOLD.items()], "</ul>"]
    parts += ["<p>All rows stand beside this page: <code>rows.csv</code>, <code>nodes.csv</code>, <code>finds.csv</code>, "
              "<code>moves.csv</code>, and all of them in <code>lab.json</code>.</p>", "</body>", "</html>"]
    return "\n".join(parts) + "\n"


def first_of_group(rows: list[Row]) -> list[bool]:
    return [at == 0 or group_of(row) != group_of(rows[at - 1]) for at, row in enumerate(rows)]


def cells_of(tag: str, words: list[str], firsts: list[bool]) -> str:
    return "".join(f'<{tag}{" class=first" if first else ""}>{escape(word)}</{tag}>' for word, first in zip(words, firsts))


def table_of(rows: list[Row]) -> list[str]:
    """The table of the standard output, as HTML."""
    firsts = first_of_group(rows)
    groups = [group_of(row) if first else "" for row, first in zip(rows, firsts)]
    lines = ["<table>", "<thead>", f"<tr><th></th>{cells_of('th', groups, firsts)}</tr>",
             f"<tr><th></th>{cells_of('th', [title_of(row) for row in rows], firsts)}</tr>", "</thead>", "<tbody>"]
    for name, group in table_lines(rivals_of(rows)):
        lines.append(f'<tr class="group"><th colspan="{len(rows) + 1}">{escape(name)}</th></tr>')
        for words, write in group:
            inner = " class=inner" if words.startswith("    ") else ""
            lines.append(f"<tr><td{inner}>{escape(words.strip())}</td>{cells_of('td', [write(row) for row in rows], firsts)}</tr>")
    return lines + ["</tbody>", "</table>"]


def nodes_of(rows: list[Row], names: list[str]) -> list[str]:
    """The five most loaded nodes of each row."""
    lines = ['<table class="names">', "<thead><tr><th></th><th>most visits</th><th>most cells at once</th></tr></thead>", "<tbody>"]
    for row in rows:
        told = ["; ".join(f"{escape(name)}: {number:,}" for name, number in largest(counts, names, 5))
                for counts in (row.visits, row.cells)]
        lines.append(f"<tr><td>{escape(full_name(row))}</td><td>{told[0]}</td><td>{told[1]}</td></tr>")
    return lines + ["</tbody>", "</table>"]
