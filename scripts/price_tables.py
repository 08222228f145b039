"""The tables of docs/PRICE.md, out of the rows of scripts/prices.py: what each way costs by the finds a move, from how many on the
directory is the cheapest, which cover is the best, and what finds and moves weigh over each."""
from break_even import Means, wins_of
from price_networks import PRICED
from prices import KINDS, MOVERS, RIVALS
from texts import BadText

TITLES = {"nsfnet": "NSFNET", "geant": "GEANT", "ring": "ring", "streets": "streets", "grid": "grid", "uneven": "uneven grid",
          "geometric": "geometric", "unit": "grid"}
FINDS_A_MOVE = (1, 10, 100)


class Prices:
    """All rows by network, movers and way."""

    def __init__(self, rows):
        self.rows, self.nodes, self.loads = rows, {}, {}
        for row in rows:
            self.nodes[row.network] = row.nodes
            self.loads.setdefault((row.network, row.movers), {})[row.way] = row

    def of(self, network, movers):
        if (network, movers) not in self.loads:
            raise BadText(f"there are no rows of {movers} subscribers on {network}")
        return self.loads[network, movers]

    def covers(self, network, movers):
        """The rows of the directory."""
        return [row for way, row in self.of(network, movers).items() if way not in RIVALS]

    def best(self, network, movers, kind, finds):
        """The cover over which the directory costs least."""
        return min(self.covers(network, movers), key=lambda row: total(row, kind, finds))

    def title(self, network):
        return f"{TITLES.get(network.split('-')[0], network) if network in PRICED else network}, {self.nodes[network]:,}"


def find_weight(row, kind):
    """The mean weight of a find."""
    return getattr(row, kind + "_weight") / getattr(row, kind + "_finds")


def find_ratio(row, kind):
    return getattr(row, kind + "_weight") / getattr(row, kind + "_distance")


def total(row, kind, finds):
    """What a move weighs with so many finds."""
    return row.messages / row.moves + finds * find_weight(row, kind)


def short(value):
    """A number of two digits that matter, or more before the point."""
    return f"{value:.2f}" if value < 0.995 else f"{value:.1f}" if value < 9.95 else f"{value:,.0f}"


def means(row, kind):
    return Means(row.messages / row.moves, find_weight(row, kind))


def break_even_of(covers, rival, kind):
    """At how many finds a move the directory costs less than the rival over one of the covers."""
    return wins_of([means(row, kind) for row in covers], means(rival, kind))


def break_even(covers, rival, kind):
    """The same in words, from one find a move on."""
    return break_even_of(covers, rival, kind).words(short, least=1)


def table(head, rows):
    """A table in Markdown."""
    return "\n".join("| " + " | ".join(cells) + " |" for cells in [head, ["---"] * len(head), *rows])


def cheapest(prices, network, movers, kind):
    """At how many finds a move, of 1 to 100, the directory over its best cover is the cheapest of all four."""
    ways = prices.of(network, movers)
    won = [finds for finds in range(1, 101)
           if total(prices.best(network, movers, kind, finds), kind, finds) < min(total(ways[rival], kind, finds) for rival in RIVALS)]
    if not won:
        return "never"
    if won != list(range(won[0], won[-1] + 1)):
        raise BadText(f"the numbers of finds at which the directory is the cheapest on {network} have a gap")
    return f"{won[0]} to {won[-1]}" if len(won) > 1 else str(won[0])


def cheapest_table(prices, networks):
    asked = [(movers, kind) for kind in KINDS for movers in MOVERS]
    rows = [[prices.title(network)] + [cheapest(prices, network, movers, kind) for movers, kind in asked] for network in networks]
    return table(["network, nodes"] + [f"{movers}, {kind}" for movers, kind in asked], rows)


def break_even_table(prices, networks):
    head = ["network, nodes", "subscribers"] + [f"{kind}: {rival}" for kind in KINDS for rival in RIVALS]
    rows = []
    for network in networks:
        for movers in MOVERS:
            ways = prices.of(network, movers)
            cells = [break_even(prices.covers(network, movers), ways[rival], kind) for kind in KINDS for rival in RIVALS]
            rows.append([prices.title(network), movers] + cells)
    return table(head, rows)


def ratio_table(prices, networks, movers, kind):
    """What the rivals cost over the directory, at its best cover."""
    head = ["network, nodes"] + [f"{finds} a move: {rival}" for finds in FINDS_A_MOVE for rival in RIVALS]
    rows = []
    for network in networks:
        ways, cells = prices.of(network, movers), [prices.title(network)]
        for finds in FINDS_A_MOVE:
            best = total(prices.best(network, movers, kind, finds), kind, finds)
            cells += [short(total(ways[rival], kind, finds) / best) for rival in RIVALS]
        rows.append(cells)
    return table(head, rows)


def choosing_table(prices, networks, movers="away"):
    """The cheapest cover by the finds a move, and what k of 2 costs over it."""
    asked = [("near", finds) for finds in FINDS_A_MOVE] + [("far", finds) for finds in FINDS_A_MOVE[1:]]
    head = ["network, nodes"] + [f"{finds} {kind} {'find' if finds == 1 else 'finds'} a move" for kind, finds in asked]
    rows = []
    for network in networks:
        cells = [prices.title(network)]
        for kind, finds in asked:
            best, two = prices.best(network, movers, kind, finds), prices.of(network, movers)["k 2"]
            over = total(two, kind, finds) / total(best, kind, finds)
            cells.append(best.way if best == two else f"{best.way} ({over:.2f})")
        rows.append(cells)
    return table(head, rows)


def choice_table(prices, ways, small, large, movers="away"):
    """What each cover costs over the cheapest, in the mean over the networks and at most."""
    asked = [("small", small, "near", 10), ("small", small, "far", 10)]
    asked += [("large", large, "near", finds) for finds in FINDS_A_MOVE] + [("large", large, "far", 10)]
    rows = []
    for way in ways:
        cells = [way]
        for _, networks, kind, finds in asked:
            over = [total(prices.of(network, movers)[way], kind, finds) / total(prices.best(network, movers, kind, finds), kind, finds)
                    for network in networks]
            cells.append(f"{sum(over) / len(over):.2f} / {max(over):.2f}")
        rows.append(cells)
    return table(["cover"] + [f"{size}: {finds} {kind}" for size, _, kind, finds in asked], rows)


def weights_table(prices, network, movers):
    """What finds and moves weigh over each cover, and for the rivals."""
    head = ["way", "near finds: mean", "median / 95 % / most", "far finds: mean", "median / 95 % / most", "proved: at most",
            "moves: messages", "moves: `costs`"]
    rows = []
    for way, row in prices.of(network, movers).items():
        cells = [way]
        for kind in KINDS:
            spread = [getattr(row, f"{kind}_{share}") for share in ("median", "95", "most")]
            cells += [short(find_ratio(row, kind)), " / ".join(map(short, spread))]
        cells += [str(row.own_stretch) if row.own_stretch else "", short(row.messages / row.moved)]
        rows.append(cells + [short(row.written / row.moved) if row.own_stretch else ""])
    return table(head, rows)


def bounds_table(prices, networks):
    """The bound of the plan, and the dearest find of all loads, for k of 2 and over all covers."""
    head = ["network, nodes", "k 2: proved", "k 2: dearest find", "any cover: dearest find", "home register", "pointers"]
    rows = []
    for network in networks:
        def most(ways):
            return short(max(max(row.near_most, row.far_most) for movers in MOVERS
                             for way, row in prices.of(network, movers).items() if way in ways))
        covers = [row.way for row in prices.covers(network, "away")]
        rows.append([prices.title(network), str(prices.of(network, "away")["k 2"].own_stretch)]
                    + [most(ways) for ways in (["k 2"], covers, ["home register"], ["pointers"])])
    return table(head, rows)


def units_table(prices, units):
    """What moves weigh where the same network is told in other units."""
    head = ["unit", "levels below a block", "k 2: `costs`", "k 2: messages", "mean 4: messages"]
    rows = []
    for unit, network, below in units:
        ways = prices.of(network, "away")
        rows.append([f"{unit} m", str(below), short(ways["k 2"].written / ways["k 2"].moved)]
                    + [short(ways[way].messages / ways[way].moved) for way in ("k 2", "mean 4")])
    return table(head, rows)


def halves_words(rows):
    """How alike the halves of the loads are."""
    least, most = min(row.halves for row in rows), max(row.halves for row in rows)
    if least < 0.9 or most > 1.1:
        raise BadText("the halves of a load differ by more than docs/PRICE.md says")
    return (f"The later half of a load, with ten near finds a move, weighs {least:.2f} to {most:.2f} times what the earlier half does, over\n"
            f"all {len(rows)} rows. So a ratio of 0.9 to 1.1 in these tables decides nothing.")
