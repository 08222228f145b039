"""Puts what the processes of a load saw into one order of visits, and holds it to `track replay`: the report has to be what they
saw."""
import collections
import itertools
import json
import os
import pathlib
import re
import statistics
import subprocess
import typing

TOP = pathlib.Path(__file__).resolve().parents[3]
PROGRAM = os.environ.get("TRACK", str(TOP / "track"))


class Call(typing.NamedTuple):
    """A call as a line of an input, and as what its process saw: the line of the report up to its tickets, which of its visits this
    names, and the tickets that the store gave them."""

    line: str
    seen: str
    named: dict
    tickets: list

    def seen_at(self, places):
        """The line of the report, where the call's visits came at these places of the order."""
        return " ".join([self.seen, *(f"{word} {places[visit]}" for word, visit in self.named.items())])


class Differs(Exception):
    """What was seen isn't what the replay tells."""


class Life(typing.NamedTuple):
    """What a subscriber was to do from its home, and its puts in their order: (call, number, node, ticket)."""

    home: int
    calls: list
    puts: list


def steps_of(sub, life):
    """A subscriber's calls, from its puts."""
    done, number, node = [], 0, life.home
    for call, some in itertools.groupby(life.puts, key=lambda put: put[0]):
        some = list(some)
        tickets, word = [put[3] for put in some], life.calls[call - 1]
        if isinstance(word, int):
            commit = next((visit for visit, put in enumerate(some) if put[1] != number), None)
            if commit is None:
                raise Differs(f"move {call} of {sub} has no commit")
            start, number, node = node, some[-1][1], some[-1][2]
            seen, named = f"move {sub} {number} {start} {node} weight -", {"first": 0, "commit": commit, "last": -1}
            done.append(Call(f"move {sub} {word}", seen, named, tickets))
        else:
            done.append(Call(f"{word} {sub}", f"switch {sub} {word} {node} number {number}", {"ticket": 0}, tickets))
    if len(done) != len(life.calls):
        raise Differs(f"of {len(life.calls)} calls of {sub} {len(done)} were made")
    return done


def read_mover(load, number):
    """The lives of a mover's file by the numbers of their subscribers, and what it counted."""
    puts, joined, events, times = collections.defaultdict(dict), {}, collections.Counter(), []
    with open(load.path("mover", number), encoding="ascii") as file:
        for word, *fields in map(json.loads, file):
            if word == "join":
                joined[fields[1]] = (fields[0], fields[2])
            elif word == "counts":
                events.update(fields[0])
                times.append(fields[1])
            else:
                sub, step, call, count, node, *ticket = fields
                if puts[sub].setdefault(step, (call, count, node, tuple(ticket))) != (call, count, node, tuple(ticket)):
                    raise Differs(f"put {step} of {sub} was made twice, with {puts[sub][step]} and {fields}")
    lives = {}
    for sub, (life, home) in joined.items():
        made = puts[sub]
        if sorted(made) != list(range(1, len(made) + 1)):
            raise Differs(f"puts of {sub} are missing: {sorted(set(range(1, len(made) + 1)) - set(made))}")
        lives[sub] = Life(home, load.life(number, life)[1] + ["off"], [made[step] for step in sorted(made)])
    return lives, events, times


def read_caller(load, number, place_of):
    """A caller's finds, and what else it tells. A subscriber's place is that of its number among all that came: a number whose
    drawing was cut off is nobody's."""
    actor = load.subs() + number
    with open(load.path("caller", number), encoding="ascii") as file:
        said = json.load(file)
    calls = []
    for start, number, word, answer, tickets in said["finds"]:
        sub = place_of[number]
        seen = f"{word} {actor} {start} {sub} {answer}"
        calls.append(Call(f"find {actor} {start} {sub}", seen, {"first": 0, "last": -1}, list(map(tuple, tickets))))
    return calls, said


def order_of_counts(visits):
    """An order of all visits that agrees with each actor's and with each node's; visits are lists of (node, count), by actor."""
    by_node = collections.defaultdict(list)
    for actor, tickets in enumerate(visits):
        for place, (node, count) in enumerate(tickets):
            by_node[node].append((count, actor, place))
    waits, after = collections.Counter(), collections.defaultdict(list)
    lines = [[(actor, place) for place in range(len(tickets))] for actor, tickets in enumerate(visits)]
    lines += [[it[1:] for it in sorted(some)] for some in by_node.values()]
    for line in lines:
        for one, next_one in itertools.pairwise(line):
            after[one].append(next_one)
            waits[next_one] += 1
    ready = collections.deque(line[0] for line in lines[:len(visits)] if line and not waits[line[0]])
    order = []
    while ready:
        order.append(ready.popleft())
        for it in after[order[-1]]:
            waits[it] -= 1
            if not waits[it]:
                ready.append(it)
    return order


def order_of_revisions(visits):
    """The order of the store's revisions."""
    sorted_ = sorted((ticket, actor, place) for actor, tickets in enumerate(visits) for place, ticket in enumerate(tickets))
    return [it[1:] for it in sorted_]


def ordered(word, visits):
    order = (order_of_counts if word == "redis" else order_of_revisions)(visits)
    met = [0] * len(visits)
    for actor, place in order:
        if place != met[actor]:
            raise Differs(f"visit {place} of actor {actor} comes in the place of {met[actor]}")
        met[actor] += 1
    if met != [len(tickets) for tickets in visits]:
        raise Differs("the visits of nodes and of actors have no common order")
    return order


def in_lines(order):
    numbers = [actor for actor, _ in order]
    return ["order " + " ".join(map(str, numbers[at:at + 64])) for at in range(0, len(numbers), 64)]


def network_lines(text):
    """The lines of a network, without subscribers and what comes after them."""
    is_network = re.compile(r"(nodes|k|edge)\s")
    return ["track 2"] + [line for line in text.splitlines() if is_network.match(line)]


def seen_lines(scripts, order):
    """The report as the processes saw it."""
    places = [[] for _ in scripts]
    for place, (actor, _) in enumerate(order):
        places[actor].append(place)
    lines = []
    for actor, calls in enumerate(scripts):
        at = iter(places[actor])
        lines += [call.seen_at(list(itertools.islice(at, len(call.tickets)))) for call in calls]
    return lines


class Seen:
    """All that the processes of a load saw: the homes of its subscribers, the calls of each actor, and what they counted."""

    def __init__(self, load):
        self.events, self.failed = collections.Counter(), 0
        looks, puts, lives = [], [], {}
        for number in range(load.movers):
            some, events, times = read_mover(load, number)
            lives.update(some)
            self.events.update(events)
            puts += times
        if len(lives) != load.subs():
            raise Differs(f"{load.subs()} subscribers were to come, and {len(lives)} came")
        place_of = {sub: place for place, sub in enumerate(sorted(lives))}
        self.homes = [lives[sub].home for sub in place_of]
        self.scripts = [steps_of(place, lives[sub]) for sub, place in place_of.items()]
        for number in range(load.callers):
            calls, said = read_caller(load, number, place_of)
            self.scripts.append(calls)
            self.events.update(said["events"])
            self.failed += said["failed"]
            looks.append(said["look"])
        self.look, self.put = statistics.median(looks), statistics.median(puts)


Told = collections.namedtuple("Told", "visits calls again changes failed unknown look put")


def compare(load):
    """Replays a load; raises Differs where the report isn't what was seen."""
    seen_by = Seen(load)
    scripts, events = seen_by.scripts, seen_by.events
    order = ordered(load.description["store"], [[ticket for call in calls for ticket in call.tickets] for calls in scripts])
    lines = network_lines(load.description["network"]) + [f"sub {home}" for home in seen_by.homes] + [f"callers {load.callers}"]
    lines += [call.line for calls in scripts for call in calls] + in_lines(order)
    given = pathlib.Path(load.room, "record.txt")
    given.write_text("\n".join(lines) + "\n", encoding="ascii")
    with open(given, "rb") as file:
        ran = subprocess.run([PROGRAM, "replay"], stdin=file, stdout=subprocess.PIPE, check=False)
    report = re.sub(r"^(move .*) weight \d+ ", r"\1 weight - ", ran.stdout.decode("ascii"), flags=re.M)
    seen = "\n".join(seen_lines(scripts, order) + in_lines(order) + [f"end {len(order)}"]) + "\n"
    pathlib.Path(load.room, "record.txt.seen").write_text(seen, encoding="ascii")
    if ran.returncode != 0 or report != seen:
        raise Differs(f"the replay (status {ran.returncode}) tells another report: {first_difference(report, seen)}")
    again = sum(count for name, count in events.items() if name.startswith("again"))
    changes = sum(one[0] != other[0] for one, other in itertools.pairwise(order))
    return Told(len(order), sum(map(len, scripts)), again, changes, seen_by.failed, events["unknown"], seen_by.look, seen_by.put)


def first_difference(report, seen):
    pairs = itertools.zip_longest(report.splitlines(), seen.splitlines())
    return next((f"line {at}: {told!r}, and seen was {saw!r}" for at, (told, saw) in enumerate(pairs, 1) if told != saw), "none")
