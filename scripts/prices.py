"""What moves and finds weigh with the directory and with its rivals, on loads that are stationary: subscribers have wandered for
long before anything is weighed. docs/PRICE.md tells the loads, and both ways of weighing a move, in words."""
from collections import namedtuple

from directory import Cells, Course, Network, Setting, Walk
from loads import Draw
from rivals import Rivals, origins
from stretches import read_stretches
from texts import MOST_BYTES, BadText, read_plan
from weights import Account, at_share, costs_text, write_weight

KINDS, MOVERS = ("near", "far"), ("settled", "away", "anywhere")
RIVALS = ("home register", "pointers", "everybody")
SUBS = 64
WANDERED = 32  # moves of each subscriber for each node of the network, before the input begins
WARM, ROUNDS = 48, 58  # moves before the first that is weighed, subscriber s making s more; moves of each that are weighed
SHARE = 8  # near is an eighth of the greatest distance

Cover = namedtuple("Cover", "k mean")
Call = namedtuple("Call", "sub node kind")  # kind: 'warm' or 'move' to the node, 'near' or 'far' from the node


def cover_name(cover):
    return f"{'mean' if cover.mean else 'k'} {cover.k}"


def covers_of(nodes):
    """The covers that are priced. With k of 1 `cover` makes a cluster of each ball, so that finds on large networks look at hundreds."""
    ks, means = [2, 3, 4, 8], [2, 4, 8]
    ks[:0] = [1] if nodes <= 64 else []
    means[:0] = [1] if nodes <= 256 else []
    return [Cover(k, False) for k in ks] + [Cover(k, True) for k in means]


class Ground:
    """A network with its distances, and where moves and finds may go to and come from."""

    def __init__(self, name, nodes, edges):
        self.name, self.nodes, self.edges = name, nodes, edges
        self.network = Network(nodes, edges)
        self.reach = self.network.diameter() / SHARE
        self.near = [sorted(arcs) for arcs in self.network.arcs]
        self.from_where = {kind: [origins(self.network, at, kind) for at in range(nodes)] for kind in KINDS}

    def steps(self, movers, home):
        """For each node where such a subscriber may be, those to which it may move next."""
        if movers == "anywhere":
            return None
        if movers == "away":
            return self.near
        row = self.network.rows[home]
        reach = max(self.reach, min(row[v] for v in self.near[home]))
        return [[v for v in near if row[v] <= reach] for near in self.near]

    def text(self, k):
        """An input without calls on the network."""
        head = [f"track {1 if self.nodes <= 256 else 2}", f"nodes {self.nodes}", f"k {k}"]
        lines = head + [f"edge {a} {b} {weight}" for a, b, weight in self.edges] + ["sub 0", "callers 0"]
        return "\n".join(lines) + "\n"

    def setting(self, program, cover):
        """The setting of the plan that the program makes."""
        return Setting(self.network, read_plan(program.ask("meancover" if cover.mean else "cover", self.text(cover.k))))

    def own_stretch(self, program, cover):
        """How many times its distance a quiet find over this plan weighs at most, as the program tells."""
        return read_stretches(program.ask("meanstretch" if cover.mean else "stretch", self.text(cover.k))).own


class Load:
    """The calls of one kind of movers on one network, and what they weigh for each rival."""

    def __init__(self, ground, movers):
        self.ground, self.movers, draw = ground, movers, Draw(1)
        homes = [draw.below(ground.nodes) for _ in range(SUBS)]
        self.rivals = Rivals(ground.network, homes)
        self.steps = [ground.steps(movers, home) for home in homes]
        for sub in range(SUBS):
            self.rivals.walk(sub, self.way(sub, WANDERED * ground.nodes, draw))
        self.starts, self.calls = list(self.rivals.at), []
        self.prices = {rival: Price() for rival in RIVALS}
        self.moved, self.distances = [], {kind: [] for kind in KINDS}
        for sub in range(SUBS):
            for _ in range(WARM + sub):
                self.move(sub, "warm", draw)
        for _ in range(ROUNDS):
            for sub in range(SUBS):
                self.move(sub, "move", draw)
                for kind in KINDS:
                    self.find(sub, kind, draw)

    def way(self, sub, moves, draw):
        """Where the subscriber goes next, and then, so many times."""
        at, steps, others = self.rivals.at[sub], self.steps[sub], self.ground.nodes - 1
        for _ in range(moves):
            if steps is None:
                to = draw.below(others)
                at = to + (to >= at)
            else:
                at = draw.pick(steps[at])
            yield at

    def move(self, sub, kind, draw):
        at, (to,) = self.rivals.at[sub], self.way(sub, 1, draw)
        self.calls.append(Call(sub, to, kind))
        weights = self.rivals.move(sub, to)
        if kind == "move":
            self.moved.append(self.ground.network.distance(at, to))
            for rival, weight in zip(RIVALS, weights):
                self.prices[rival].messages.append(weight)

    def find(self, sub, kind, draw):
        start = draw.pick(self.ground.from_where[kind][self.rivals.at[sub]])
        self.calls.append(Call(sub, start, kind))
        *weights, distance = self.rivals.find(start, sub)
        self.distances[kind].append(distance)
        for rival, weight in zip(RIVALS, weights + [distance]):
            self.prices[rival].finds[kind].append(weight)


class Price:
    """What the moves and finds of a load weigh in one of the ways, call by call."""

    def __init__(self, own_stretch=0, degree=0):
        self.own_stretch, self.degree = own_stretch, degree
        self.messages, self.finds = [], {kind: [] for kind in KINDS}
        self.written, self.purged = [], []  # of the directory alone


class Weighed:
    """The directory on a load. scripts/directory.py makes each call, which tells how many visits it takes; so the order can say
    that calls run one after another, and the program's `replay` of that order weighs the finds."""

    def __init__(self, load, cover, program):
        self.load, self.cover, self.setting = load, cover, load.ground.setting(program, cover)
        self.cells = Cells(self.setting, load.starts)
        self.courses = [Course(self.setting, start) for start in load.starts]
        self.accounts = [Account() for _ in range(SUBS)]
        self.walks, self.order = [], []
        self.price = Price(load.ground.own_stretch(program, cover), self.setting.plan.degree)
        for call in load.calls:
            (self.find if call.kind in KINDS else self.move)(call)
        text = self.text()
        self.take_finds(program.ask("meanreplay" if cover.mean else "replay", text))
        if not cover.mean and program.ask("costs", text) != costs_text(self.accounts):
            raise BadText("the program tells other costs than scripts/prices.py")

    def move(self, call):
        puts, weight = self.courses[call.sub].move(call.node)
        self.order += [call.sub] * len(puts)
        for put in puts:
            self.cells.put(call.sub, put)
        costs = sum(write_weight(self.setting, put, call.node) for put in puts)
        purged = sum(put.word == ("Empty",) for put in puts)
        own = self.accounts[call.sub]
        own.moves, own.moved = own.moves + 1, own.moved + weight
        own.written, own.purged = own.written + costs, own.purged + purged
        if call.kind == "move":
            row = self.setting.network.rows[call.node]
            self.price.messages.append(sum(2 * row[self.setting.node_of(put)] for put in puts))
            self.price.written.append(costs)
            self.price.purged.append(purged)

    def find(self, call):
        walk = Walk(self.setting, call.node, call.sub)
        while not walk.answer:
            walk.step(self.cells, len(self.order))
            self.order.append(SUBS)
        self.walks.append((call.kind, walk))

    def text(self):
        """The input: one caller makes all finds."""
        ground = self.load.ground
        lines = ["track 2", f"nodes {ground.nodes}", f"k {self.cover.k}"]
        lines += [f"edge {a} {b} {weight}" for a, b, weight in ground.edges]
        lines += [f"sub {start}" for start in self.load.starts] + ["callers 1"]
        for sub, node, kind in self.load.calls:
            lines.append(f"find {SUBS} {node} {sub}" if kind in KINDS else f"move {sub} {node}")
        lines += ["order " + " ".join(map(str, self.order[at:at + 64])) for at in range(0, len(self.order), 64)]
        text = "\n".join(lines) + "\n"
        if len(text) > MOST_BYTES:
            raise BadText(f"the load on {ground.name} takes {len(text)} bytes, and an input has {MOST_BYTES} at most")
        return text

    def take_finds(self, report):
        """The weights of a report's finds, whose answers and weights are those of the walks."""
        found = [line.split(" ") for line in report.splitlines() if line.startswith("find ")]
        if len(found) != len(self.walks):
            raise BadText("the program answers another number of finds than scripts/directory.py")
        for line, (kind, walk) in zip(found, self.walks):
            node, weight = int(line[5]), int(line[11])
            if (node, weight) != (walk.answer[1], walk.weight):
                raise BadText("the program answers or weighs a find otherwise than scripts/directory.py")
            self.price.finds[kind].append(weight)


# Rows: what is kept of a load.

Row = namedtuple("Row", "network nodes movers way own_stretch degree moves moved messages written purged halves "
                        "near_finds near_distance near_weight near_median near_95 near_most "
                        "far_finds far_distance far_weight far_median far_95 far_most")
TEXTS = ("network", "movers", "way")


def halves_of(load, price):
    """All weights of the later half with ten near finds a move, over those of the earlier half, each over the distance moved."""
    middle = len(load.moved) // 2

    def rate(part):
        near = price.finds["near"][part]
        return (sum(price.messages[part]) + 10 * sum(near)) / (sum(load.moved[part]) + 10 * sum(load.distances["near"][part]))
    return rate(slice(middle, None)) / rate(slice(0, middle))


def row_of(load, way, price):
    """The row of one way on a load."""
    finds = []
    for kind in KINDS:
        ratios = sorted(weight / distance for weight, distance in zip(price.finds[kind], load.distances[kind]))
        finds += [len(ratios), sum(load.distances[kind]), sum(price.finds[kind])]
        finds += [round(at_share(ratios, share), 2) for share in (0.5, 0.95, 1)]
    return Row(load.ground.name, load.ground.nodes, load.movers, way, price.own_stretch, price.degree, len(load.moved), sum(load.moved),
               sum(price.messages), sum(price.written), sum(price.purged), round(halves_of(load, price), 3), *finds)


def rows_of(ground, movers, covers, program, tell=lambda words: None):
    """The rows of one kind of movers on a network: the directory over each cover, and the rivals. What comes next is told."""
    load, rows = Load(ground, movers), []
    for cover in covers:
        tell(f"{movers}, {cover_name(cover)} ..")
        rows.append(row_of(load, cover_name(cover), Weighed(load, cover, program).price))
    return rows + [row_of(load, rival, load.prices[rival]) for rival in RIVALS]


def rows_text(rows):
    """The rows as CSV."""
    return "".join(",".join(map(str, row)) + "\n" for row in [Row._fields, *rows])


def read_rows(text):
    """The rows of such a text."""
    head, *lines = text.splitlines() or [""]
    if head != ",".join(Row._fields):
        raise BadText("the rows of prices have another head")
    try:
        return [Row(*(field if name in TEXTS else float(field) if "." in field else int(field)
                      for name, field in zip(Row._fields, line.split(","), strict=True))) for line in lines]
    except ValueError:
        raise BadText("a row of prices isn't whole") from None
