"""The directory once more, in plain Python from docs/FORMATS.md and docs/DIRECTORY.md: the plan of a network, and what moves,
switches and finds do visit by visit. The scripts use it for what a report doesn't tell: the way of a find look by look, and
where a move writes. It shares no line with the program, and `examples/check_scripts` compares the texts of the two."""
import heapq
from collections import Counter, namedtuple

import texts

Look = namedtuple("Look", "ticket kind node word")  # kind: 'presence', or ('entry', level, cluster)
Put = namedtuple("Put", "kind place word")  # place: a node, or (level, cluster)


def arcs_of(nodes, edges):
    """For each node its neighbours, with the lightest of repeated edges."""
    arcs = [{} for _ in range(nodes)]
    for a, b, weight in edges:
        if a != b:
            arcs[a][b] = arcs[b][a] = min(weight, arcs[a].get(b, weight))
    return arcs


def least_weights(arcs, root, inside=None):
    """Least weights of walks from the root, through the nodes inside alone."""
    weights, done, waiting = {root: 0}, set(), [(0, root)]
    while waiting:
        weight, u = heapq.heappop(waiting)
        if u in done:
            continue
        done.add(u)
        for v, w in arcs[u].items():
            if (inside is None or v in inside) and weight + w < weights.get(v, 1 << 60):
                weights[v] = weight + w
                heapq.heappush(waiting, (weight + w, v))
    return weights


class Network:
    """A network with all distances."""

    def __init__(self, nodes, edges):
        self.nodes = nodes
        self.arcs = arcs_of(nodes, edges)
        self.rows = [least_weights(self.arcs, v) for v in range(nodes)]

    def distance(self, u, v):
        return self.rows[u][v]

    def diameter(self):
        return max(max(row.values()) for row in self.rows)


def grow_cluster(center, balls, waiting, at_start, k):
    """The centres whose balls make the cluster round a waiting ball, and those that wait no more."""
    taken = {center}
    while True:
        union = set().union(*(balls[u] for u in taken))
        touched = {u for u in waiting if not union.isdisjoint(balls[u])}
        if len(touched) ** k <= at_start * len(taken) ** k:
            return taken, touched
        taken = touched


def cover_of(balls, k):
    """The clusters of a level as (phase, leader, members), the home of each node, and the number of phases."""
    clusters, homes, phase = [], [None] * len(balls), 0
    while None in homes:
        waiting = {v for v, home in enumerate(homes) if home is None}
        at_start = len(waiting)
        while waiting:
            center = min(waiting)
            taken, touched = grow_cluster(center, balls, waiting, at_start, k)
            for u in taken:
                homes[u] = len(clusters)
            clusters.append((phase, center, sorted(set().union(*(balls[u] for u in taken)))))
            waiting -= touched
        phase += 1
    return clusters, homes, phase


def mean_cover_of(balls, k):
    """The same of a mean cover, of one phase: a cluster is the home of all balls that touch it in its last growth."""
    clusters, homes, waiting = [], [None] * len(balls), set(range(len(balls)))
    while waiting:
        center = min(waiting)
        union, last = balls[center], False
        while not last:
            touched = {u for u in waiting if not union.isdisjoint(balls[u])}
            grown = set().union(*(balls[u] for u in touched))
            last = len(grown) ** k <= len(balls) * len(union) ** k
            union = grown
        for u in touched:
            homes[u] = len(clusters)
        clusters.append((0, center, sorted(union)))
        waiting -= touched
    return clusters, homes, 1


def plan_of(network, k, mean=False):
    """The plan that `cover` writes, or `meancover`, as texts.Plan."""
    nodes, levels, degree, radius = network.nodes, [], 0, 1
    while not levels or levels[-1].radius < network.diameter():
        balls = [{w for w in range(nodes) if network.distance(v, w) <= radius} for v in range(nodes)]
        raw, homes, phases = mean_cover_of(balls, k) if mean else cover_of(balls, k)
        clusters = []
        for phase, leader, members in raw:
            depth = max(least_weights(network.arcs, leader, set(members)).values())
            clusters.append(texts.Cluster(phase, leader, depth, members))
        read = Counter(v for cluster in clusters for v in cluster.members)
        degree = max(degree, max(read.values()))
        levels.append(texts.Level(radius, phases, clusters, homes))
        radius *= 2
    width = 2 * k + 1 if mean else 2 * k - 1
    return texts.Plan(nodes, k, degree, 16 * degree * width + 12 * width + 12, levels)


class Setting:
    """A plan over its network, with what the directory reads of it."""

    def __init__(self, network, plan):
        self.network, self.plan = network, plan
        self.top = len(plan.levels) - 1
        self.inside = [[least_weights(network.arcs, c.leader, set(c.members)) for c in level.clusters]
                       for level in plan.levels]
        self.readers = [[[] for _ in range(plan.nodes)] for _ in plan.levels]
        for i, level in enumerate(plan.levels):
            for c, cluster in enumerate(level.clusters):
                for v in cluster.members:
                    self.readers[i][v].append(c)

    def threshold(self, i):
        return 1 if i == 0 else 2 ** (i - 1)

    def leader(self, i, c):
        return self.plan.levels[i].clusters[c].leader

    def home(self, i, v):
        return self.plan.levels[i].homes[v]

    def node_of(self, put):
        """The node at which a put is made."""
        return self.leader(*put.place) if put.kind == "entry" else put.place


class Course:
    """One subscriber: what its steps have made of it, and its puts."""

    def __init__(self, setting, home):
        levels = setting.top + 1
        self.setting, self.at, self.number = setting, home, 0
        self.gathered, self.address = [0] * levels, [home] * levels
        self.trail = set()

    def move(self, to):
        """The puts of the next move, and its weight."""
        setting, start, self.number = self.setting, self.at, self.number + 1
        weight = setting.network.distance(start, to)
        due = [i for i in range(setting.top + 1) if self.gathered[i] + weight >= setting.threshold(i)]
        renewed = range((due[-1] if due else 0) + 1)
        old = {i: setting.home(i, self.address[i]) for i in renewed}
        puts = [Put("presence", to, ("Coming", self.number, start))]
        puts += [Put("entry", (i, setting.home(i, to)), (self.number, to)) for i in renewed]
        puts += [Put("presence", start, ("Gone", self.number, to)), Put("presence", to, ("Here", self.number))]
        puts += [Put("entry", (i, old[i]), None) for i in renewed if old[i] != setting.home(i, to)]
        self.trail.add(start)
        if len(renewed) == setting.top + 1:
            puts += [Put("presence", v, ("Empty",)) for v in sorted(self.trail - {to})]
            self.trail = set()
        self.gathered = [0 if i in renewed else g + weight for i, g in enumerate(self.gathered)]
        self.address = [to if i in renewed else a for i, a in enumerate(self.address)]
        self.at = to
        return puts, weight

    def switch(self, off):
        return [Put("presence", self.at, ("Off" if off else "Here", self.number))]


class Cells:
    """The words of all cells, as marks and addresses."""

    def __init__(self, setting, homes):
        self.marks, self.addresses = {}, {}
        for sub, home in enumerate(homes):
            self.marks[sub, home] = ("Here", 0)
            for i in range(setting.top + 1):
                self.addresses[sub, (i, setting.home(i, home))] = (0, home)

    def put(self, sub, put):
        (self.marks if put.kind == "presence" else self.addresses)[sub, put.place] = put.word

    def mark(self, sub, node):
        return self.marks.get((sub, node), ("Empty",))

    def address(self, sub, place):
        return self.addresses.get((sub, place))


class Walk:
    """A find under way: `step` makes one look, and `answer` is there in the end."""

    def __init__(self, setting, start, sub):
        self.setting, self.start, self.sub = setting, start, sub
        self.known, self.weight, self.level, self.answer = 0, 0, None, None
        self.climb = [(i, c) for i in range(setting.top + 1) for c in setting.readers[i][start]]
        self.left = setting.plan.nodes + 3  # looks of a chase
        self.looks = []
        self.place = ("origin", start)

    def step(self, cells, ticket):
        state, at = self.place
        if state == "climb":
            node, word = self.setting.leader(*at), cells.address(self.sub, at)
            self.looks.append(Look(ticket, ("entry", *at), node, word))
            self.climbed(at, word)
        else:
            word = cells.mark(self.sub, at)
            self.looks.append(Look(ticket, "presence", at, word))
            (self.stood if state == "origin" else self.chased)(at, word)

    def stood(self, at, mark):
        """At the origin."""
        if mark[0] in ("Here", "Off"):
            self.tell(mark[0], at, mark[1])
        elif mark[0] == "Coming":
            self.hop(at, mark[2])
        else:
            if mark[0] == "Gone":
                self.known = mark[1]
            self.next_entry()

    def next_entry(self):
        if self.climb:
            self.place = ("climb", self.climb.pop(0))
        else:
            self.answer = ("again", "none")

    def climbed(self, at, address):
        level, cluster = at
        inside = self.setting.inside[level][cluster][self.start]
        if address is None:
            self.weight += 2 * inside
            self.next_entry()
        else:
            self.weight += inside
            self.level = level
            self.hop(self.setting.leader(level, cluster), address[1])

    def hop(self, start, to):
        self.weight += self.setting.network.distance(start, to)
        self.place = ("chase", to)

    def chased(self, at, mark):
        self.left -= 1
        if mark[0] in ("Here", "Off") or (mark[0] == "Coming" and mark[1] <= self.known):
            self.tell("Off" if mark[0] == "Off" else "Here", at, mark[1])
        elif mark[0] == "Empty":
            self.answer = ("again", f"empty {at}")
        else:
            if mark[0] == "Gone":
                self.known = max(self.known, mark[1])
            if self.left == 0:
                self.answer = ("again", "chased")
            else:
                self.hop(at, mark[2])

    def tell(self, word, node, count):
        self.answer = ("off" if word == "Off" else "find", node, count)


class Actor:
    """A subscriber or a caller: its script, and the line of each call that is done."""

    def __init__(self, script):
        self.script, self.done, self.puts, self.walk, self.tickets = script, [], [], None, []


class Machine:
    """All actors of an input over the cells; `turn` makes one visit."""

    def __init__(self, setting, homes, scripts):
        self.setting, self.homes = setting, homes
        self.cells = Cells(setting, homes)
        self.courses = [Course(setting, home) for home in homes]
        self.actors = [Actor(list(script)) for script in scripts]
        self.order, self.walks = [], []
        self.moves = []  # of each move: subscriber, its weight, and the nodes at which it writes

    def turn(self, number):
        """The actor's next visit; whether it had one."""
        actor = self.actors[number]
        begun = actor.puts or actor.walk
        if not begun and not actor.script:
            return False
        if not begun:
            self.begin(number, actor, actor.script.pop(0))
        ticket = len(self.order)
        self.order.append(number)
        actor.tickets.append(ticket)
        if number < len(self.homes):
            self.write(number, actor)
        else:
            self.look(number, actor, ticket)
        return True

    def begin(self, number, actor, call):
        actor.tickets, actor.call = [], call
        if number >= len(self.homes):
            actor.walk = Walk(self.setting, *call)
        elif call.word == "move":
            course = self.courses[number]
            actor.start = course.at
            actor.puts, actor.weight = course.move(call.node)
            self.moves.append((number, actor.weight, [self.setting.node_of(put) for put in actor.puts]))
        else:
            actor.puts = self.courses[number].switch(call.word == "off")

    def write(self, number, actor):
        put = actor.puts.pop(0)
        self.cells.put(number, put)
        if put.kind == "presence" and put.word[0] == "Gone":
            actor.commit = actor.tickets[-1]
        if not actor.puts:
            actor.done.append(self.step_line(number, actor))

    def step_line(self, number, actor):
        course, first, last = self.courses[number], actor.tickets[0], actor.tickets[-1]
        if actor.call.word == "move":
            return (f"move {number} {course.number} {actor.start} {course.at} weight {actor.weight}"
                    f" first {first} commit {actor.commit} last {last}")
        return f"switch {number} {actor.call.word} {course.at} number {course.number} ticket {first}"

    def look(self, number, actor, ticket):
        walk = actor.walk
        walk.step(self.cells, ticket)
        if walk.answer:
            word, *rest = walk.answer
            called = f"{word} {number} {walk.start} {walk.sub}"
            if word == "again":
                told = f"{rest[0]}"
            else:
                told = f"at {rest[0]} number {rest[1]} level {'-' if walk.level is None else walk.level}"
            actor.done.append(f"{called} {told} weight {walk.weight} first {actor.tickets[0]} last {ticket}")
            self.walks.append((number, walk))
            actor.walk = None

    def call(self, number):
        """All visits of the actor's next call, one after another."""
        done = len(self.actors[number].done)
        while len(self.actors[number].done) == done:
            if not self.turn(number):
                return

    def run(self, order):
        """The order, and then all that is left."""
        for actor in order:
            self.turn(actor)
        for actor in range(len(self.actors)):
            while self.turn(actor):
                pass

    def report(self):
        """The text that `replay` writes."""
        lines = [line for actor in self.actors for line in actor.done]
        lines += ["order " + " ".join(map(str, self.order[at:at + 64])) for at in range(0, len(self.order), 64)]
        return "\n".join(lines + [f"end {len(self.order)}"]) + "\n"


def plan_text(plan):
    """The text that `cover` writes."""
    lines = [f"plan nodes {plan.nodes} k {plan.k} levels {len(plan.levels)} degree {plan.degree} stretch {plan.stretch}"]
    for i, level in enumerate(plan.levels):
        lines.append(f"level {i} radius {level.radius} clusters {len(level.clusters)} phases {level.phases}")
        for c, cluster in enumerate(level.clusters):
            members = " ".join(map(str, cluster.members))
            lines.append(f"cluster {c} phase {cluster.phase} leader {cluster.leader} depth {cluster.depth} members {members}")
        lines.append("homes " + " ".join(map(str, level.homes)))
    return "\n".join(lines + ["end"]) + "\n"


def run_input(said, mean=False):
    """The machine of an input, once all calls are done, over its plan or the one over mean covers."""
    network = Network(said.nodes, said.edges)
    machine = Machine(Setting(network, plan_of(network, said.k, mean)), said.homes, said.scripts())
    machine.run(said.order)
    return machine
