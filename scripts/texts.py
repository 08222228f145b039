"""Reads what `track` reads and writes: inputs, with the first fault of the first bad line; plans; and reports. From
docs/FORMATS.md, for the scripts of examples/ and bench/; the program has its own reader, and this one is no part of it."""
import math
import os
import sys
from collections import namedtuple

MOST_BYTES = 4194304
Limits = namedtuple("Limits", "nodes calls")
LIMITS = {1: Limits(256, 8192), 2: Limits(1024, 16384)}
MOST = {"k": 8, "edges": 32768, "weight": 1048576, "subs": 64, "callers": 64, "turns": 64}

PLACES = {"track": 1, "nodes": 2, "k": 3, "edge": 4, "sub": 5, "callers": 6,
          "move": 7, "off": 7, "on": 7, "find": 7, "order": 8}
FIELDS = {"track": 1, "nodes": 1, "k": 1, "edge": 3, "sub": 1, "callers": 1, "move": 2, "off": 1, "on": 1, "find": 3}
NAMED = {1: "'track 1' or 'track 2'", 2: "the line of nodes", 3: "the line of k", 4: "an edge", 5: "a subscriber",
         6: "the line of callers", 7: "a call", 8: "an order line"}

Edge = namedtuple("Edge", "a b weight")
Step = namedtuple("Step", "word node")  # of a subscriber; a switch has no node
Find = namedtuple("Find", "start sub")


class Fault(Exception):
    """An input is refused: the line, the cause as the program writes it, and why in words."""

    def __init__(self, line, cause, why):
        super().__init__(why)
        self.line, self.cause, self.why = line, cause, why

    def text(self):
        return f"refused {self.line} {self.cause}"


class Input:
    """What an input says; scripts are by actor."""

    def __init__(self):
        self.format = self.nodes = self.k = 0
        self.edges, self.homes, self.callers = [], [], None
        self.calls, self.order = [], []

    def actors(self):
        return len(self.homes) + self.callers

    def scripts(self):
        scripts = [[] for _ in range(self.actors())]
        for actor, call in self.calls:
            scripts[actor].append(call)
        return scripts


def number(field):
    """The number that a field is, or None."""
    return int(field) if 1 <= len(field) <= 18 and field.isdigit() and field.isascii() else None


class Reader:
    """Takes one line after another, and stops at the first fault."""

    def __init__(self):
        self.input = Input()
        self.line = self.place = 0
        self.at, self.off = [], []

    def fail(self, cause, why):
        raise Fault(self.line, cause, why)

    def take(self, raw):
        """The next line, without its LF, as bytes."""
        self.line += 1
        if raw.endswith(b"\r"):
            raw = raw[:-1]
        fields = [field.decode("latin-1") for field in raw.replace(b"\t", b" ").split(b" ") if field]
        if fields and not fields[0].startswith("#"):
            self.say(fields[0], fields[1:])

    def say(self, word, fields):
        if word not in PLACES:
            self.fail("form", f"'{word}' begins no line of an input")
        place = PLACES[word]
        self.test_place(word, place)
        if word in ("off", "on") and self.input.format == 1:
            self.fail("form", f"format 1 has no '{word}'; begin with 'track 2'")
        if word == "order" and not fields:
            self.fail("form", "an order line has one number at least")
        if word != "order" and len(fields) != FIELDS[word]:
            self.fail("form", f"'{word}' has {FIELDS[word]} numbers after it, and not {len(fields)}")
        numbers = [number(field) for field in fields]
        if None in numbers:
            field = fields[numbers.index(None)]
            self.fail("form", f"'{field}' is no number of 1 to 18 decimal digits")
        self.place = place
        getattr(self, "say_" + word)(*([numbers] if word == "order" else numbers))

    def test_place(self, word, place):
        many = place in (4, 5, 7, 8)
        if place < self.place or (place == self.place and not many):
            self.fail("form", f"{NAMED[place]} may not stand after {NAMED[self.place]}")
        missing = [p for p in range(self.place + 1, place) if p not in (4, 7, 8)]
        if missing:
            self.fail("form", f"before '{word}' {NAMED[missing[0]]} is missing")

    def positive(self, name, value):
        if value == 0:
            self.fail("form", f"{name} is 0, and has to be at least 1")

    def at_most(self, name, value, most):
        if value > most:
            self.fail("too-large", f"{name} is {value}, and may be {most} at most")

    def known_node(self, node):
        if node >= self.input.nodes:
            self.fail("unknown", f"there is no node {node}: nodes are 0 to {self.input.nodes - 1}")

    def known_sub(self, sub):
        if sub >= len(self.input.homes):
            self.fail("unknown", f"{sub} is no subscriber: they are 0 to {len(self.input.homes) - 1}")

    def count_call(self):
        most = LIMITS[self.input.format].calls
        if len(self.input.calls) >= most:
            self.fail("too-many", f"this is call {most + 1}, and format {self.input.format} has {most} at most")

    def say_track(self, format_number):
        if format_number not in LIMITS:
            self.fail("form", f"there is no format {format_number}: formats are 1 and 2")
        self.input.format = format_number

    def say_nodes(self, nodes):
        self.positive("the number of nodes", nodes)
        self.at_most("the number of nodes", nodes, LIMITS[self.input.format].nodes)
        self.input.nodes = nodes

    def say_k(self, k):
        self.positive("k", k)
        self.at_most("k", k, MOST["k"])
        if k == 1 and self.input.nodes > 256:
            self.fail("too-large", "k is 1, and above 256 nodes it has to be 2 at least")
        self.input.k = k

    def say_edge(self, a, b, weight):
        self.positive("a weight", weight)
        self.at_most("a weight", weight, MOST["weight"])
        if len(self.input.edges) >= MOST["edges"]:
            self.fail("too-many", f"this is edge {MOST['edges'] + 1}")
        self.known_node(a)
        self.known_node(b)
        self.input.edges.append(Edge(a, b, weight))

    def say_sub(self, node):
        if len(self.input.homes) >= MOST["subs"]:
            self.fail("too-many", f"this is subscriber {MOST['subs'] + 1}")
        self.known_node(node)
        self.input.homes.append(node)
        self.at.append(node)
        self.off.append(False)

    def say_callers(self, callers):
        self.at_most("the number of callers", callers, MOST["callers"])
        self.input.callers = callers

    def say_move(self, sub, node):
        self.count_call()
        self.known_sub(sub)
        self.known_node(node)
        if self.off[sub]:
            self.fail("switched", f"subscriber {sub} is off by then, and moves only while it is on")
        if self.at[sub] == node:
            self.fail("nowhere", f"subscriber {sub} is at node {node} by then already")
        self.at[sub] = node
        self.input.calls.append((sub, Step("move", node)))

    def switch(self, sub, word):
        self.count_call()
        self.known_sub(sub)
        if self.off[sub] == (word == "off"):
            self.fail("switched", f"subscriber {sub} is {word} by then already")
        self.off[sub] = word == "off"
        self.input.calls.append((sub, Step(word, None)))

    def say_off(self, sub):
        self.switch(sub, "off")

    def say_on(self, sub):
        self.switch(sub, "on")

    def say_find(self, caller, start, sub):
        self.count_call()
        first = len(self.input.homes)
        if not first <= caller < self.input.actors():
            some = f"callers are {first} to {self.input.actors() - 1}" if self.input.callers else "there are none"
            self.fail("unknown", f"{caller} is no caller: {some}")
        self.known_node(start)
        self.known_sub(sub)
        self.input.calls.append((caller, Find(start, sub)))

    def say_order(self, actors):
        if len(actors) > MOST["turns"]:
            self.fail("too-many", f"an order line has {MOST['turns']} numbers at most, and this one {len(actors)}")
        for actor in actors:
            if actor >= self.input.actors():
                self.fail("unknown", f"there is no actor {actor}: actors are 0 to {self.input.actors() - 1}")
        self.input.order += actors

    def end(self):
        if self.input.callers is None:
            self.fail("unfinished", "the text ends before its callers line")
        apart = least_apart(self.input.nodes, self.input.edges)
        if apart is not None:
            self.fail(f"apart {apart}", f"no edges lead from node 0 to node {apart}")
        return self.input


def least_apart(nodes, edges):
    """The least node without a walk from node 0."""
    near = [[] for _ in range(nodes)]
    for a, b, _ in edges:
        near[a].append(b)
        near[b].append(a)
    seen, waiting = {0}, [0]
    while waiting:
        for v in near[waiting.pop()]:
            if v not in seen:
                seen.add(v)
                waiting.append(v)
    return next((v for v in range(nodes) if v not in seen), None)


def read_input(text):
    """What the bytes of an input say; a Fault where they are refused."""
    reader = Reader()
    lines = text.split(b"\n")
    if lines[-1] == b"":
        lines.pop()
    for raw in lines:
        reader.take(raw)
    return reader.end()


# What the scripts take from comments of an input: where a node is drawn, and what it is called.

def places_and_names(text):
    """The comments '# at NODE X Y' (X to the right and Y downwards, of any scale) and '# name NODE WORDS'. Others say nothing."""
    places, names = {}, {}
    for line in text.decode("latin-1").splitlines():
        fields = line.split()
        if fields[:2] == ["#", "at"] and len(fields) == 5 and number(fields[2]) is not None:
            try:
                place = (float(fields[3]), float(fields[4]))
            except ValueError:
                continue
            if all(map(math.isfinite, place)):
                places[int(fields[2])] = place
        if fields[:2] == ["#", "name"] and len(fields) > 3 and number(fields[2]) is not None:
            names[int(fields[2])] = " ".join(fields[3:])
    return places, names


# Plans.

Cluster = namedtuple("Cluster", "phase leader depth members")
Level = namedtuple("Level", "radius phases clusters homes")
Plan = namedtuple("Plan", "nodes k degree stretch levels")


class BadText(Exception):
    """A text isn't what it should be."""


def fields_of(line, wanted, what):
    """The numbers of a line that alternates words and numbers as wanted, as 'level # radius #'."""
    fields, pattern = line.split(" "), wanted.split(" ")
    good = len(fields) == len(pattern) and all(
        number(field) is not None if word == "#" else field == word for field, word in zip(fields, pattern))
    if not good:
        raise BadText(f"{what}: '{line[:60]}' isn't a line '{wanted.replace('#', 'NUMBER')}'")
    return [int(field) for field, word in zip(fields, pattern) if word == "#"]


def whole_lines(text, what):
    if not text.endswith("\n"):
        raise BadText(f"{what}: its last line isn't whole")
    return text[:-1].split("\n")


def numbers_after(line, word, what):
    head, *rest = line.split(" ")
    if head != word or any(number(field) is None for field in rest):
        raise BadText(f"{what}: '{line[:60]}' isn't a line of {word}")
    return [int(field) for field in rest]


def read_plan(text):
    """What `cover` wrote."""
    what = "the plan"
    lines = whole_lines(text, what)
    if lines[-1] != "end":
        raise BadText(f"{what} doesn't end with 'end'")
    nodes, k, count, degree, stretch = fields_of(lines[0], "plan nodes # k # levels # degree # stretch #", what)
    levels, at = [], 1
    try:
        for i in range(count):
            level, radius, size, phases = fields_of(lines[at], "level # radius # clusters # phases #", what)
            clusters = []
            for c in range(size):
                head, _, members = lines[at + 1 + c].partition(" members ")
                named, phase, leader, depth = fields_of(head, "cluster # phase # leader # depth #", what)
                clusters.append(Cluster(phase, leader, depth, numbers_after("m " + members, "m", what)))
            homes = numbers_after(lines[at + 1 + size], "homes", what)
            known = all(v < nodes for cluster in clusters for v in [cluster.leader, *cluster.members])
            if level != i or not known or len(homes) != nodes or any(home >= size for home in homes):
                raise BadText(f"{what}: level {i} isn't whole")
            levels.append(Level(radius, phases, clusters, homes))
            at += 2 + size
    except IndexError:
        raise BadText(f"{what} ends too early") from None
    return Plan(nodes, k, degree, stretch, levels)


# Reports.

Moved = namedtuple("Moved", "actor number start to weight first commit last")
Switched = namedtuple("Switched", "actor off node number ticket")
Found = namedtuple("Found", "word actor start sub node number level weight first last")
Again = namedtuple("Again", "actor start sub why weight first last")
Report = namedtuple("Report", "calls order")

FORMS = {
    "move": "move # # # # weight # first # commit # last #",
    "switch off": "switch # off # number # ticket #",
    "switch on": "switch # on # number # ticket #",
    "level": "{} # # # at # number # level # weight # first # last #",
    "no level": "{} # # # at # number # level - weight # first # last #",
    "off level": "off # # # at # number # level # weight # first # last #",
    "empty": "again # # # empty # weight # first # last #",
    "none": "again # # # none weight # first # last #",
    "chased": "again # # # chased weight # first # last #",
}


def read_call(line):
    """One line of a report that is of a call."""
    what, fields = "the report", line.split(" ")
    word = fields[0]
    if word == "move":
        return Moved(*fields_of(line, FORMS["move"], what))
    if word == "switch" and len(fields) > 2 and fields[2] in ("off", "on"):
        actor, node, count, ticket = fields_of(line, FORMS["switch " + fields[2]], what)
        return Switched(actor, fields[2] == "off", node, count, ticket)
    if word in ("find", "off"):
        # A line of `off` has no word `at` in another place than a line of `find`.
        climbed = len(fields) > 9 and fields[9] != "-"
        form = FORMS["level" if climbed else "no level"].format(word)
        numbers = fields_of(line, form, what)
        if not climbed:
            numbers.insert(5, None)
        return Found(word, *numbers)
    if word == "again" and len(fields) > 4 and fields[4] in ("empty", "none", "chased"):
        numbers = fields_of(line, FORMS[fields[4]], what)
        why = f"empty {numbers.pop(3)}" if fields[4] == "empty" else fields[4]
        return Again(*numbers[:3], why, *numbers[3:])
    raise BadText(f"{what}: '{line[:60]}' is no line of a report")


def read_report(text):
    """What `replay` wrote."""
    lines = whole_lines(text, "the report")
    order = []
    calls = [read_call(line) for line in lines if line.split(" ")[0] not in ("order", "end")]
    for line in lines[len(calls):-1]:
        order += numbers_after(line, "order", "the report")
    (visits,) = fields_of(lines[-1], "end #", "the report")
    if visits != len(order):
        raise BadText(f"the report: its end tells {visits} visits, and its order lines {len(order)}")
    for call in calls:
        tickets = [call.ticket] if isinstance(call, Switched) else [call.first, call.last]
        if tickets[-1] >= visits or any(order[ticket] != call.actor for ticket in tickets):
            raise BadText(f"the report: the tickets of {call} aren't those of its actor")
    return Report(calls, order)


# What all scripts do with files and with faults.

def read_bytes(path):
    with open(path, "rb") as file:
        return file.read()


def load_input(path):
    """The input in a file, and its bytes; a refused one ends the script with a clear line."""
    text = read_bytes(path)
    if len(text) > MOST_BYTES:
        raise BadText(f"{path}: {len(text)} bytes, and an input has {MOST_BYTES} at most")
    try:
        return read_input(text), text
    except Fault as fault:
        raise BadText(f"{path}: {fault.text()}: {fault.why}") from None


def load_text(path, read):
    """The plan or the report in a file."""
    text = read_bytes(path).decode("latin-1")
    if text.startswith("refused "):
        raise BadText(f"{path}: the input was refused ({text.strip()}); examples/explain INPUT says why")
    try:
        return read(text)
    except BadText as bad:
        raise BadText(f"{path}: {bad}") from None


def ends_clearly(main):
    """Runs a script: what is wrong with its input or its files is one line on standard error, and status 1. Where the reader of its
    standard output went away, as `head` does, it ends without a word."""
    try:
        main()
        sys.stdout.flush()
    except BrokenPipeError:
        os.dup2(os.open(os.devnull, os.O_WRONLY), sys.stdout.fileno())  # what is left is written at the exit
        sys.exit(1)
    except (BadText, OSError) as bad:
        told = bad if isinstance(bad, BadText) or not bad.filename else f"{bad.filename}: {bad.strerror}"
        print(f"{sys.argv[0]}: {told}", file=sys.stderr)
        sys.exit(1)
