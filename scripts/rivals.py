"""What people use in place of a directory, weighed call by call: a home register, forwarding pointers alone, and telling
everybody; and from which nodes near, far and mixed finds come. docs/PRICE.md says what each of them does."""
import heapq


class Rivals:
    """Where the subscriber of each call is, and what the call costs without the directory."""

    def __init__(self, network, homes):
        self.network, self.homes, self.at = network, list(homes), list(homes)
        self.pointers = [{} for _ in homes]
        self.everybody = 2 * lightest_tree(network)

    def move(self, sub, to):
        """The weights of the home register's update, of the pointer's and of telling everybody."""
        start, self.at[sub] = self.at[sub], to
        self.pointers[sub][start] = to
        self.pointers[sub].pop(to, None)
        far = self.network.distance
        return 2 * far(to, self.homes[sub]), 2 * far(to, start), self.everybody

    def walk(self, sub, nodes):
        """Moves to one of these nodes after another, which nobody weighs."""
        at, pointers = self.at[sub], self.pointers[sub]
        for to in nodes:
            pointers[at] = to
            at = to
        pointers.pop(at, None)
        self.at[sub] = at

    def find(self, start, sub):
        """The weights of a find by the home register, along the pointers, and where everybody knows."""
        far, home, to = self.network.distance, self.homes[sub], self.at[sub]
        chain, node = far(start, home), home
        while node != to:
            chain += far(node, self.pointers[sub][node])
            node = self.pointers[sub][node]
        return far(start, home) + far(home, to), chain, far(start, to)


def lightest_tree(network):
    """The weight of a lightest spanning tree."""
    seen, waiting, weight = set(), [(0, 0)], 0
    while waiting:
        w, u = heapq.heappop(waiting)
        if u not in seen:
            seen.add(u)
            weight += w
            for v, way in network.arcs[u].items():
                heapq.heappush(waiting, (way, v))
    return weight


def origins(network, at, kind):
    """The nodes from which such a find may come: another node than that of the subscriber."""
    others = [v for v in range(network.nodes) if v != at]
    least, most = min(network.distance(v, at) for v in others), max(network.distance(v, at) for v in others)
    if kind == "near":
        return [v for v in others if network.distance(v, at) <= max(least, most / 8)]
    return [v for v in others if kind == "mixed" or network.distance(v, at) >= most / 2]
