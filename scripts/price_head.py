"""The head of docs/PRICE.md: where the directory wins and loses, in three sentences whose numbers are those of the rows. Where a
sentence isn't so any more, it isn't written."""
import math
import textwrap

from price_tables import FINDS_A_MOVE, break_even_of, short, total
from prices import KINDS, MOVERS, RIVALS
from texts import BadText

RESEARCH = ("nsfnet", "geant")
BOUNDS = ((16, 32), (64, 256), (1024, 1024))
NUMBERS = ("no", "one", "two", "three", "four", "five", "six", "seven", "eight", "nine")


def hold(is_so, words):
    if not is_so:
        raise BadText(f"the rows don't bear out the head of docs/PRICE.md: {words}")


def written(words):
    """A paragraph in the page's lines."""
    return textwrap.fill(words, 120, break_long_words=False, break_on_hyphens=False)


def in_words(number):
    return NUMBERS[number] if number < len(NUMBERS) else str(number)


def span(values, write=str):
    """The least and the greatest of some numbers."""
    least, most = write(min(values)), write(max(values))
    return least if least == most else f"{least} to {most}"


def first_win(prices, network, movers, kind, rival):
    """From how many whole finds a move on the directory costs less, or nothing where it never does so for good."""
    where = break_even_of(prices.covers(network, movers), prices.of(network, movers)[rival], kind)
    return 1 if where.always(1) else None if where.since == math.inf else max(1, math.ceil(where.since))


def first_loss(prices, network, movers, kind, rival):
    """From how many whole finds a move on it costs no less any more."""
    return math.ceil(break_even_of(prices.covers(network, movers), prices.of(network, movers)[rival], kind).until)


def cheapest_at(prices, network, movers, kind):
    """The numbers of finds a move, of 1 to 100, at which the directory is the cheapest of all."""
    ways = prices.of(network, movers)
    return [finds for finds in range(1, FINDS_A_MOVE[-1] + 1)
            if total(prices.best(network, movers, kind, finds), kind, finds) < min(total(ways[rival], kind, finds) for rival in RIVALS)]


def winning(prices, others):
    since = [first_win(prices, network, "away", "near", "home register") for network in others]
    hold(None not in since, "away and near it wins over a home register on all but the research networks")
    parts = []
    for low, high in BOUNDS:
        group = [network for network in others if low <= prices.nodes[network] <= high]
        until = [first_loss(prices, network, "away", "near", "everybody") for network in group]
        hold(all(cheapest_at(prices, network, "away", "near") for network in group), "it is then the cheapest of all somewhere")
        parts.append(f"from {span(until)} on with {span([low, high], '{:,}'.format)} nodes")
    return ("**It wins** where subscribers are away from home, which is just some node to them, and are called from nearby, within an "
            "eighth of the greatest distance or from the nearest node: on all networks here but the two research "
            f"networks it costs less than a home register from {in_words(min(since))} to {in_words(max(since))} such finds a move on, "
            f"and it is the cheapest of the four ways below until telling everybody is cheaper, {', '.join(parts[:-1])}, and {parts[-1]}.")


def losing(prices, networks):
    """A home register costs less at every number of finds where subscribers are settled, and, but for journeys, where finds are far."""
    ratios = []
    for movers, kind in [("settled", kind) for kind in KINDS] + [(movers, "far") for movers in MOVERS]:
        for network in networks:
            where = break_even_of(prices.covers(network, movers), prices.of(network, movers)["home register"], kind)
            hold(where.until <= 1 and where.since == math.inf, f"{movers}, {kind}: a home register always costs less on {network}")
            for finds in FINDS_A_MOVE:
                best = total(prices.best(network, movers, kind, finds), kind, finds)
                ratios.append(best / total(prices.of(network, movers)["home register"], kind, finds))
    return ("**It loses** to a home register, at every number of finds, where subscribers stay near home, and where finds come from "
            f"far away: there it costs {span(ratios, short)} times as much.")


def covering(prices):
    best = prices.best("nsfnet", "away", "near", 10)
    hold(best.way == "k 2", "k 2 is the best one on NSFNET")
    large = prices.best("grid-1024", "away", "near", 10)
    hold(large.way.startswith("mean"), "the best one on the grid of 1,024 is a mean cover")
    over = total(prices.of("grid-1024", "away")["k 2"], "near", 10) / total(large, "near", 10)
    return ("**Much hangs on the cover**: k 2, which most examples have, is the best one on NSFNET with ten near finds a move, and on a "
            f"grid of 1,024 nodes it costs {short(over)} times what the best one does, which is a mean cover.")


def between(prices, networks, others):
    """What stands after the three sentences."""
    since = [first_win(prices, network, "anywhere", "near", "home register") for network in networks]
    hold(None not in since, "anywhere and near it wins over a home register")
    wins = {network: at for network in others if (at := cheapest_at(prices, network, "anywhere", "near"))}
    wanted = [name for name in others if name.startswith(("grid", "uneven")) and prices.nodes[name] >= 64] + ["geometric-1024"]
    hold(sorted(wins) == sorted(wanted), f"for journeys it is the cheapest somewhere on {', '.join(wanted)} alone")
    for network in RESEARCH:
        hold(not any(cheapest_at(prices, network, movers, kind) for movers in MOVERS for kind in KINDS), f"never the cheapest on {network}")
    sizes = " and ".join(f"{prices.nodes[network]}" for network in RESEARCH)
    return (f"Where each move is a journey, and finds are near, it costs less than a home register from {span(since)} finds a move on; "
            "but by then telling everybody is cheaper still, save on the grids of 64 nodes or more and on the geometric network of "
            f"1,024, where the directory is the cheapest somewhere between {min(map(min, wins.values()))} and "
            f"{max(map(max, wins.values()))}. On the research networks, of {sizes} nodes, another way is cheaper under each load.")


def head_of(prices, networks):
    """The three sentences, and what stands between them and the tables."""
    others = [network for network in networks if network not in RESEARCH]
    told = [winning(prices, others), losing(prices, networks), covering(prices), between(prices, networks, others)]
    return "\n\n".join(map(written, told))
