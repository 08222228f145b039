"""Sentences of docs/PRICE.md below its head, with numbers that are those of the rows and of the loads. Where the rows don't bear a
sentence out, it isn't written."""
from price_head import hold, span, written
from price_tables import FINDS_A_MOVE, find_ratio, short, total
from prices import MOVERS, RIVALS, ROUNDS, SUBS, WANDERED, WARM

MOST_NODES = 1024
COLUMNS = {"small": (("near", 10), ("far", 10)), "large": (*(("near", finds) for finds in FINDS_A_MOVE), ("far", 10))}
# Where the second table of the page says which cover to take: by size and finds, of all covers and of those of `cover`.
CHOSEN = [("small", ("near", 10), "k 2", "k 2"), ("small", ("far", 10), "mean 8", "k 8"), ("large", ("near", 1), "mean 2", None),
          ("large", ("near", 10), None, "k 4"), ("large", ("near", 100), "mean 8", "k 8"), ("large", ("far", 10), "mean 8", "k 8")]
UNKNOWN = {"small": "k 2", "large": "mean 4"}


def over_best(prices, network, way, kind, finds):
    """What a cover costs over the cheapest one."""
    best = prices.best(network, "away", kind, finds)
    return total(prices.of(network, "away")[way], kind, finds) / total(best, kind, finds)


def hold_choice(prices, sizes, ways):
    """That the covers to take are those of the least mean, and with no load known that which does best where it does worst."""
    for size, (kind, finds), any_way, way in CHOSEN:
        mean = {one: sum(over_best(prices, network, one, kind, finds) for network in sizes[size]) for one in ways}
        of_cover = [one for one in ways if one.startswith("k")]
        hold(any_way in (None, min(mean, key=mean.get)), f"{size}, {finds} {kind}: {any_way} is the best")
        hold(way in (None, min(of_cover, key=mean.get)), f"{size}, {finds} {kind}: {way} is the best of cover's")
    for size, way in UNKNOWN.items():
        hold(way == min(ways, key=lambda one: worst(prices, sizes[size], one, size)), f"{size}: {way} is the safest")


def worst(prices, networks, way, size):
    return max(over_best(prices, network, way, kind, finds) for network in networks for kind, finds in COLUMNS[size])


def unknown_words(prices, sizes, ways):
    """What one pays where no load is known, and what k of 1 does."""
    hold_choice(prices, sizes, ways)
    small, large = (worst(prices, sizes[size], UNKNOWN[size], size) for size in ("small", "large"))
    lattices = [name for name in sizes["small"] if name.startswith(("ring", "grid"))]
    near = [total(prices.of(name, "away")["k 2"], "near", 10) / total(prices.of(name, "away")["k 1"], "near", 10) for name in lattices]
    hold(min(near) > 1, "k 1 is cheaper on the ring and the grids")
    far = {name: find_ratio(prices.of(name, "away")["k 1"], "far") for name in ("nsfnet", "grid-64")}
    hold_alike(prices)
    return (written(f"With no load known k 2 costs at most {short(small)} times what the best does in these columns up to some dozens of "
                    f"nodes, and mean 4 at most {short(large)} times on hundreds. For near finds on the ring and the grids k 1 is cheaper "
                    f"still (k 2 costs {span(near, short)} times as much with ten near finds a move); but with it `cover` makes a cluster "
                    f"of each ball, and far finds are dear: {short(far['nsfnet'])} times their distance on NSFNET, in the mean, and "
                    f"{short(far['grid-64'])} on the grid of 64 nodes.") + "\n\n"
            + written("The mean covers of k 1 are those of k 2 on all networks here. A smaller bound needn't mean a cheaper cover: it is for "
                      "the worst case."))


def hold_alike(prices):
    """That mean covers of k 1 and of k 2 are the same."""
    for (network, movers), ways in prices.loads.items():
        if "mean 1" in ways:
            one, two = ways["mean 1"], ways["mean 2"]
            hold(one == two._replace(way=one.way), f"mean 1 and 2 are alike on {network}, {movers}")


def degree_words(prices):
    """How many leaders a caller asks at one level."""
    degree = prices.of("grid-1024", "away")["k 2"].degree
    covers = {finds: over_best(prices, "grid-1024", "mean 8", "near", finds) for finds in (10, 100)}
    hold(set(covers.values()) == {1}, "with mean 8 it gains on the grid of 1,024")
    return written("On the grid with k 2 the directory falls back as the network grows, since at the middle levels clusters don't merge, "
                   f"and a caller asks up to {degree} of them at one level of 1,024 nodes; with mean 8 it gains.")


def dearest_words(prices, networks):
    """Over which cover the dearest find is."""
    for network in networks:
        most = {way: max(max(row.near_most, row.far_most) for row in (prices.of(network, movers)[way] for movers in MOVERS))
                for way in prices.of(network, "away") if way not in RIVALS}
        hold((max(most, key=most.get) == "k 1") == (prices.nodes[network] <= 64), f"the dearest find on {network} is that of k 1")
    return written("The dearest finds over any cover are those of k 1 on up to 64 nodes.")


def units_words(prices, units):
    """What moves cost by the unit."""
    told = {unit: short(row.written / row.moved) for unit, network, _ in units for row in (prices.of(network, "away")["k 2"],)}
    *sizes, last = map(str, told)
    *costs, least = told.values()
    return written(f"**Take about the shortest link for the unit**: the same network, told in units of {', '.join(sizes)} and {last} "
                   f"metres, costs {', '.join(costs)} and {least} times the distance moved by `costs`, since at each level below the "
                   "shortest link each cluster is a single node, and a move erases its old address there, for twice its distance. This "
                   f"is a grid of 256 crossings with blocks of {last} metres; subscribers are away.")


def loads_words():
    """How long the loads are."""
    return written(f"**The loads** have {SUBS} subscribers, each with a home that is drawn. Before the input begins, each subscriber has "
                   f"wandered from its home for {WANDERED} moves for each node of the network, {WANDERED * MOST_NODES:,} at "
                   f"{MOST_NODES:,} nodes: a short load flatters the home register and the pointers, whose subscribers are still at home. "
                   "The directory needs no such time, as it forgets where a subscriber was when it renews its top level; so the input "
                   f"begins where the wanderings end, and makes {WARM} to {WARM + SUBS - 1} moves of each subscriber, so that not all "
                   f"renew their levels together. Then {SUBS * ROUNDS:,} moves, as many near finds and as many far ones are weighed, by "
                   "turns.")
