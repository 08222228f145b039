"""The network that the lab is asked about: read from an input of track, an edge list or GraphML, and made into one that the
program takes, with whole weights."""
from __future__ import annotations

import math
import statistics
from dataclasses import dataclass

from edge_lists import Graph, read_edge_list
from graphml import read_graphml
from known_networks import EARTH_KM, kilometres
from texts import LIMITS, MOST, MOST_BYTES, BadText, Fault, least_apart, places_and_names, read_input

MOST_FILE = 4 * MOST_BYTES  # an edge list or GraphML is longer than the input that it gives
MARK = b"\xef\xbb\xbf"  # that of UTF-8, which some editors put before a text
MOST_NODES = LIMITS[2].nodes
KILOMETRES, ONES = "kilometres of the great circle", "1 for each edge"


@dataclass
class Site:
    """A network with names: what the program reads of it, and what a picture does."""

    nodes: int
    edges: list[tuple[int, int, int]]
    names: list[str]
    places: dict[int, tuple[float, float]]  # X to the right and Y downwards, of one scale
    weights: str  # what a weight is
    notes: list[str]


def printable(name: str, node: int) -> str:
    """A name without what would move a cursor, and not too long."""
    clean = " ".join("".join(c if c.isprintable() else " " for c in name).split())
    return (clean if len(clean) <= 40 else clean[:37] + "...") or str(node)


def load_network(path: str, unit: float, weight: str | None) -> Site:
    """The network in a file; what is wrong with it is one clear line."""
    with open(path, "rb") as file:
        text = file.read(MOST_FILE + 1)
    if len(text) > MOST_FILE:
        raise BadText(f"{path}: more than {MOST_FILE} bytes")
    try:
        return site_of(text, unit, weight)
    except Fault as fault:
        raise BadText(f"{path}: {fault.text()}: {fault.why}") from None
    except BadText as bad:
        raise BadText(f"{path}: {bad}") from None


def site_of(text: bytes, unit: float, weight: str | None) -> Site:
    start = text.removeprefix(MARK).lstrip()
    if start.startswith((b"<", b"\xff\xfe<", b"\xfe\xff\x00<")):  # also in UTF-16
        return made_site(read_graphml(start, weight), unit)
    if start.startswith(b"{"):
        raise BadText("this looks like JSON; './track fromjson' makes the input of it, which is read here")
    if is_input(text):
        return site_of_input(text, unit)
    try:
        return made_site(read_edge_list(start.decode("utf-8")), unit)
    except UnicodeDecodeError:
        raise BadText("it is no text in UTF-8") from None


def is_input(text: bytes) -> bool:
    """Whether the first line that isn't a comment is that of an input's format."""
    for line in text.removeprefix(MARK).split(b"\n"):
        fields = line.split()
        if fields and not fields[0].startswith(b"#"):
            return fields[0] == b"track"
    return False


def site_of_input(text: bytes, unit: float) -> Site:
    """The network of an input, with the places and names of its comments; its subscribers and calls aren't used."""
    if len(text) > MOST_BYTES:
        raise BadText(f"an input has {MOST_BYTES} bytes at most")
    given = read_input(text)
    places, names = places_and_names(text)
    graph = Graph([utf_8(names.get(v, str(v))) for v in range(given.nodes)], [(a, b, float(w)) for a, b, w in given.edges])
    site = made_site(graph, unit)
    site.places = places
    return site


def utf_8(name: str) -> str:
    """A name of a comment, whose bytes were read one by one."""
    return name.encode("latin-1").decode("utf-8", errors="replace")


def made_site(graph: Graph, unit: float) -> Site:
    """The network with whole weights, once it keeps the limits."""
    nodes = len(graph.names)
    if nodes == 0:
        raise BadText("it has no node and no edge")
    if nodes == 1:
        raise BadText("it has one node alone, so that nothing moves and nothing is found")
    if nodes > MOST_NODES:
        raise BadText(f"{nodes} nodes, and the program takes {MOST_NODES} at most")
    notes: list[str] = []
    links, told = weighed(graph, notes)
    edges = whole(links, unit, notes)
    if len(edges) > MOST["edges"]:
        raise BadText(f"{len(edges)} edges, and the program takes {MOST['edges']} at most")
    apart = least_apart(nodes, edges)
    if apart is not None:
        raise BadText(f"it isn't connected: no edges lead from {printable(graph.names[0], 0)} to "
                      f"{printable(graph.names[apart], apart)}")
    names = [printable(name, v) for v, name in enumerate(graph.names)]
    return Site(nodes, edges, names, flat(graph.places), told if unit == 1 else f"{told}, in units of {unit:g}", notes)


def weighed(graph: Graph, notes: list[str]) -> tuple[list[tuple[int, int, float]], str]:
    """The edges with weights, loops left out, and what these are: as told, else kilometres by coordinates, else 1."""
    links = [(a, b, weight) for a, b, weight in graph.edges if a != b]
    if any(weight is not None for _, _, weight in links):
        return links, "as given"
    far = [apart_on_earth(graph.places[a], graph.places[b]) if {a, b} <= graph.places.keys() else None for a, b, _ in links]
    known = [weight for weight in far if weight is not None]
    if not known:
        return [(a, b, 1.0) for a, b, _ in links], ONES
    unknown = len(far) - len(known)
    middle = float(round(statistics.median(known)))
    if unknown:
        notes.append(f"{unknown} of {len(far)} edges have an end without coordinates; they weigh the median of the others, "
                     f"{middle:,.0f}")
    return [(a, b, middle if weight is None else weight) for (a, b, _), weight in zip(links, far)], KILOMETRES


def apart_on_earth(one: tuple[float, float], other: tuple[float, float]) -> float:
    """Kilometres between two places, 1 at least."""
    try:
        return float(max(1, kilometres(one, other)))
    except ValueError:  # rounding, where one place is just on the other side of the earth
        return float(round(math.pi * EARTH_KM))


def whole(links: list[tuple[int, int, float]], unit: float, notes: list[str]) -> list[tuple[int, int, int]]:
    """The lightest of repeated edges, with weights in whole units, 1 at least."""
    lightest: dict[tuple[int, int], int] = {}
    rounded = 0
    for a, b, weight in links:
        if weight / unit > MOST["weight"]:
            raise BadText(f"an edge weighs {weight / unit:,.10g}, and may weigh {MOST['weight']:,} at most; "
                          "--unit measures in larger units")
        units = max(1, math.floor(weight / unit + 0.5))
        rounded += abs(units - weight / unit) > 0.05 * units
        pair = (min(a, b), max(a, b))
        lightest[pair] = min(units, lightest.get(pair, units))
    if rounded:
        notes.append(f"{rounded} weights are rounded by more than 5 %; with --unit {unit / 10:.3g} they are rounded less, "
                     "and moves weigh more")
    return [(a, b, weight) for (a, b), weight in sorted(lightest.items())]


def flat(places: dict[int, tuple[float, float]]) -> dict[int, tuple[float, float]]:
    """Where a map has these latitudes and longitudes."""
    if not places:
        return {}
    middle = math.cos(math.radians(sum(latitude for latitude, _ in places.values()) / len(places)))
    return {v: (round(longitude * middle, 2), round(-latitude, 2)) for v, (latitude, longitude) in places.items()}
