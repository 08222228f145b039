"""Networks in GraphML, as collections of the internet's topology have them: nodes with a label, a latitude and a longitude, which
stand after keys; edges that are undirected, often several between two nodes, and seldom with a weight."""
from __future__ import annotations

import xml.etree.ElementTree as Xml
from collections import Counter

from edge_lists import Graph, weight_of
from texts import BadText

WEIGHTS = ("weight", "distance", "length", "dist")  # an edge's weight has the first of these names that an edge has


def plain(tag: str) -> str:
    """A tag without its namespace."""
    return tag.rpartition("}")[2]


def parts(element: Xml.Element, tag: str) -> list[Xml.Element]:
    return [part for part in element if plain(part.tag) == tag]


class Keys:
    """What the keys of a GraphML file name, for nodes and for edges, and their defaults."""

    def __init__(self, root: Xml.Element):
        self.names, self.defaults = {}, {"node": {}, "edge": {}}
        for key in parts(root, "key"):
            name = (key.get("attr.name") or key.get("id") or "").lower()
            self.names[key.get("id")] = name
            for default in parts(key, "default"):
                for kind in ("node", "edge"):
                    if key.get("for") in (kind, "all", None):
                        self.defaults[kind][name] = (default.text or "").strip()

    def of(self, element: Xml.Element) -> dict[str, str]:
        """The data of a node or an edge, by name in lowercase."""
        told = dict(self.defaults[plain(element.tag)])
        for data in parts(element, "data"):
            told[self.names.get(data.get("key"), "")] = (data.text or "").strip()
        return told


def place_of(told: dict[str, str]) -> tuple[float, float] | None:
    """Latitude and longitude, where a node has both."""
    try:
        place = float(told["latitude"]), float(told["longitude"])
    except (KeyError, ValueError):
        return None
    return place if abs(place[0]) <= 90 and abs(place[1]) <= 360 else None


def graph_of(root: Xml.Element) -> Xml.Element:
    """The one graph of a file, which is undirected."""
    graphs = parts(root, "graph") if plain(root.tag) == "graphml" else []
    if not graphs:
        raise BadText("it has no graph of GraphML")
    if len(graphs) > 1 or any(plain(part.tag) in ("graph", "hyperedge") for part in graphs[0].iter() if part is not graphs[0]):
        raise BadText("it has several graphs, or graphs within nodes, or hyperedges")
    directed = graphs[0].get("edgedefault") == "directed"
    if any(edge.get("directed", "true" if directed else "false") == "true" for edge in parts(graphs[0], "edge")):
        raise BadText("its edges are directed, and a message may go both ways along an edge; edgedefault='undirected' says so")
    return graphs[0]


def chosen_weight(told: list[dict[str, str]], asked: str | None) -> str | None:
    """The name under which edges have their weights, or none."""
    names = [asked.lower()] if asked else WEIGHTS
    found = next((name for name in names if any(name in one for one in told)), None)
    if asked and found is None:
        raise BadText(f"no edge has an attribute '{asked}'")
    if found and not all(found in one for one in told):
        raise BadText(f"some edges have an attribute '{found}' and others don't")
    return found


def names_of(nodes: list[Xml.Element], told: list[dict[str, str]]) -> list[str]:
    """Each node's label, with its id beside it where several have the same."""
    labels = [one.get("label") or node.get("id") or "" for node, one in zip(nodes, told)]
    often = Counter(labels)
    return [label if often[label] == 1 else f"{label} ({node.get('id')})" for node, label in zip(nodes, labels)]


def read_graphml(text: bytes, weight: str | None = None) -> Graph:
    """The network of a GraphML file; `weight` names the attribute of edges that is taken as their weight."""
    try:
        root = Xml.fromstring(text)
    except (Xml.ParseError, ValueError, LookupError) as bad:
        raise BadText(f"it is no XML that can be read ({bad})") from None
    graph, keys = graph_of(root), Keys(root)
    nodes, links = parts(graph, "node"), parts(graph, "edge")
    numbers = {node.get("id"): at for at, node in enumerate(nodes)}
    if None in numbers or len(numbers) < len(nodes):
        raise BadText("a node has no id, or two have the same")
    ends = [(numbers.get(link.get("source")), numbers.get(link.get("target"))) for link in links]
    if any(None in pair for pair in ends):
        raise BadText("an edge has an end that is no node")
    told = [keys.of(link) for link in links]
    by = chosen_weight(told, weight)
    weights = [weight_of(one[by], f"edge {at}") if by else None for at, one in enumerate(told)]
    data = [keys.of(node) for node in nodes]
    places = {v: place for v, place in enumerate(map(place_of, data)) if place}
    return Graph(names_of(nodes, data), [(a, b, w) for (a, b), w in zip(ends, weights)], places)
