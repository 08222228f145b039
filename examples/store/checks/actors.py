"""The processes of a load: those that move subscribers, and those that look for them. Each writes what it did, and what it was
told, to a file of its own, which outlives it."""
import dataclasses
import http.client
import json
import os
import random
import signal
import time
import typing

import redis
import track

import live
import stores

LOST = 3  # the status of a process that had to stop, since a later one has its handset
WHY = {track.Why.NO_ENTRY: "none", track.Why.CHASED: "chased"}


@dataclasses.dataclass
class Load:
    """What a load is: `movers` processes move `lives` subscribers each, one after another, with `steps` calls each; `callers` make
    `finds` each. At a share `mortal` of all puts the process is killed. A `plant` spoils the store (plants.py)."""

    description: dict
    plan: track.Plan
    room: str
    seed: str
    movers: int = 12
    callers: int = 8
    lives: int = 2
    steps: int = 20
    finds: int = 200
    mortal: float = 0.0
    timeout: float = 1.0
    plant: typing.Optional[type] = None

    def subs(self):
        return self.movers * self.lives

    def path(self, role, number):
        return os.path.join(self.room, f"{role}{number}")

    def directory(self, patience, watcher):
        store = stores.connect(self.description, self.timeout, recording=True)
        return live.Directory(self.plan, self.plant(store) if self.plant else store, patience, watcher=watcher)

    def life(self, number, life):
        """Where the subscriber of a mover's life starts, and its calls: a node to move to, or 'off' or 'on'. It is on at the
        end."""
        choose = random.Random(f"{self.seed} {number} {life}")
        at = home = choose.randrange(self.plan.nodes)
        calls = []
        while len(calls) < self.steps:
            if choose.random() < 0.1:
                calls += ["off", "on"]
                continue
            near = choose.random() < 0.5
            to = (at + choose.choice([-2, -1, 1, 2])) % self.plan.nodes if near else choose.randrange(self.plan.nodes)
            if to != at:
                calls.append(to)
                at = to
        return home, calls


class Book(live.Watcher):
    """A mover's file: a line for each subscriber that joins, and for each put that is answered."""

    def __init__(self, load, number):
        self.file = os.open(load.path("mover", number), os.O_RDWR | os.O_APPEND | os.O_CREAT, 0o600)
        self.handset, self.joined = None, {}
        for line in self.lines():
            if line[0] == "join":
                self.joined[line[1]] = line[2]

    def lines(self):
        size = os.fstat(self.file).st_size
        return [json.loads(line) for line in os.pread(self.file, size, 0).splitlines()]

    def write(self, *fields):
        os.write(self.file, (json.dumps(fields) + "\n").encode())

    def join(self, life, handset, home):
        self.write("join", life, handset.sub, home)
        self.joined[life] = handset.sub

    def put(self, put, state, ticket):
        place = self.handset.place
        self.write("put", place.sub, state.step, state.words[0], place.number, place.node, *ticket)

    def hold(self, handset):
        """Goes on with a handset; of one that was taken over, the last put may not have been written down."""
        self.handset = handset
        if handset.ticket is not None:
            self.put(None, handset.latest, handset.ticket)


def die():
    os.kill(os.getpid(), signal.SIGKILL)


class Mortal:
    """A store whose process is killed at some puts: before the put is sent, before its answer is read, or after that."""

    def __init__(self, store, share):
        self.store, self.share, self.is_dying = store, share, False
        for owner, name in ((redis.connection.Connection, "read_response"), (http.client.HTTPConnection, "getresponse")):
            setattr(owner, name, self.before(getattr(owner, name)))

    def before(self, reading):
        def read(*arguments, **named):
            if self.is_dying:
                die()
            return reading(*arguments, **named)
        return read

    def __getattr__(self, name):
        return getattr(self.store, name)

    def put(self, *arguments):
        end = random.randrange(3) if random.random() < self.share else None
        if end == 0:
            die()
        self.is_dying = end == 1
        ticket = self.store.put(*arguments)
        if end == 2:
            die()
        return ticket


def play_life(directory, load, book, number, life):
    home, calls = load.life(number, life)
    if life in book.joined:
        handset = directory.take_over(book.joined[life])
    else:
        handset = directory.join(home)
        book.join(life, handset, home)
    book.hold(handset)
    handset.finish()
    while handset.calls < len(calls):
        call = calls[handset.calls]
        if isinstance(call, int):
            handset.move(call)
        else:
            handset.switch(call == "off")
    handset.leave()


def play_mover(load, number, life):
    signal.signal(signal.SIGTERM, signal.SIG_DFL)
    random.seed(os.urandom(8))
    book = Book(load, number)
    directory = load.directory(60.0, book)
    directory.store = Mortal(directory.store, load.mortal)
    try:
        play_life(directory, load, book, number, life)
    except stores.Superseded:
        os._exit(LOST)
    book.write("counts", directory.counts.events, directory.counts.puts.quantile(0.5))


class Notes(live.Watcher):
    """The tickets of a caller's looks since they were taken. Now and then it rests after one, so that moves fall within finds."""

    def __init__(self, choose):
        self.choose, self.tickets = choose, []

    def looked(self, cell, word, ticket):
        self.tickets.append(ticket)
        if self.choose.random() < 0.03:
            time.sleep(self.choose.random() * 0.1)

    def take(self):
        taken, self.tickets = self.tickets, []
        return taken


def told(answer):
    """A find's answer, as its line of a report has it, up to its weight."""
    if isinstance(answer, track.Again):
        return "again", f"{WHY.get(answer.why, f'empty {answer.node}')} weight {answer.weight}"
    level = "-" if answer.level is None else answer.level
    return "off" if answer.off else "find", f"at {answer.node} number {answer.number} level {level} weight {answer.weight}"


def play_caller(load, number):
    """Makes finds until so many have an answer; one whose look fails is told why at once, and goes on."""
    choose, failed = random.Random(f"{load.seed} caller {number}"), 0
    notes = Notes(choose)
    directory = load.directory(0.0, notes)
    found = []
    while len(found) < load.finds:
        start, sub = choose.randrange(load.plan.nodes), choose.randrange(load.subs())
        find, answer, end = live.Find(directory, start, sub), None, time.monotonic() + 120
        while answer is None:
            try:
                answer = find.run()
            except stores.Unreachable:
                failed += 1
                if time.monotonic() > end:
                    raise
                time.sleep(0.02)
        if isinstance(answer, live.Unknown):
            time.sleep(0.005)
        else:
            found.append((start, sub, *told(answer), notes.take()))
    with open(load.path("caller", number), "w", encoding="ascii") as file:
        counts = directory.counts
        json.dump({"finds": found, "events": counts.events, "failed": failed, "look": counts.looks.quantile(0.5)}, file)
