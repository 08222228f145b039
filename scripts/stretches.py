"""A plan's own stretches, by their definitions (docs/DIRECTORY.md, "What every find pays") and apart from the program."""
from collections import namedtuple

from texts import BadText

# The stretch of all plans of its degree and reach, its own, and its own of any find.
Stretches = namedtuple("Stretches", "printed own any_find")


def read_stretches(text):
    """What the line of stretches says."""
    fields = text.split()
    if fields[::2] != ["stretch", "own", "any"]:
        raise BadText(f"no line of stretches: {text.strip()}")
    return Stretches(*map(int, fields[1::2]))


def farthest(setting, level, cluster):
    """How far the farthest node whose home a cluster is stands from its leader."""
    leader = setting.leader(level, cluster)
    homed = (node for node, home in enumerate(setting.plan.levels[level].homes) if home == cluster)
    return max((setting.network.distance(leader, node) for node in homed), default=0)


def farthest_of_all(setting):
    """The same for each cluster of each level."""
    return [[farthest(setting, i, c) for c in range(len(level.clusters))] for i, level in enumerate(setting.plan.levels)]


def costs_from(setting, far, node):
    """What a find from a node pays at most up to each level."""
    costs, passed, dearest = [], 0, 0
    for level in range(setting.top + 1):
        for cluster in setting.readers[level][node]:
            passed += 2 * setting.inside[level][cluster][node]
            dearest = max(dearest, passed + 2 * far[level][cluster] + 2 * setting.threshold(level) - 2)
        costs.append(max(passed, dearest))
    return costs


def level_for(setting, distance):
    """The level at which a climb ends at the latest for a distance, where no move renews levels within."""
    return next((i for i in range(setting.top) if 2 * distance <= 2 ** i + 1), setting.top)


def units_of(weight, unit):
    """How many units reach a weight."""
    return -(-weight // unit)


def stretches_of(setting):
    """The stretches of a plan."""
    own = any_find = 0
    far = farthest_of_all(setting)
    for node in range(setting.plan.nodes):
        costs = costs_from(setting, far, node)
        apart = [setting.network.distance(node, other) for other in range(setting.plan.nodes) if other != node]
        own = max([own] + [units_of(costs[level_for(setting, d)] + d, d) for d in apart])
        past = [units_of(costs[min(i + 1, setting.top)], setting.threshold(i)) + 1 for i in range(setting.top + 1)]
        any_find = max(any_find, *past)
    return Stretches(setting.plan.stretch, own, max(own, any_find))
