"""Inputs of examples/, replayed over the package: cells in a dictionary, one visit at each turn of the order. The report is the stored
one, byte for byte. `python3 -m unittest` runs this, with TRACK_LIBRARY and the package in the path."""
import pathlib
import sys
import unittest

TOP = pathlib.Path(__file__).resolve().parents[3]
sys.path.insert(0, str(TOP / "scripts"))
import texts  # noqa: E402
import track  # noqa: E402

WHY = {track.Why.NO_ENTRY: "none", track.Why.CHASED: "chased"}


class Actor:
    """A subscriber or a caller of an input: its calls that are left, and the lines of those that are done."""

    def __init__(self, number, script):
        self.number, self.script, self.lines, self.tickets = number, list(script), [], []


class Replay:
    """An input under its order."""

    def __init__(self, path):
        self.said, _ = texts.load_input(str(path))
        self.plan = track.Plan.read(path.read_bytes())
        self.cells, self.order = {}, []
        self.movers = []
        for sub, home in enumerate(self.said.homes):
            self.cells.update(self.plan.opening(sub, home))
            self.movers.append(track.Mover(self.plan, sub, home))
        self.actors = [Actor(number, script) for number, script in enumerate(self.said.scripts())]
        self.finders = {}

    def turn(self, actor):
        """The actor's next visit; whether it had one."""
        is_sub = actor.number < len(self.movers)
        begun = self.movers[actor.number].next() if is_sub else actor.number in self.finders
        if not begun and not actor.script:
            return False
        if not begun:
            actor.call, actor.tickets = actor.script.pop(0), []
            self.begin(actor, is_sub)
        actor.tickets.append(len(self.order))
        self.order.append(actor.number)
        (self.put if is_sub else self.look)(actor)
        return True

    def begin(self, actor, is_sub):
        if not is_sub:
            self.finders[actor.number] = track.Finder(self.plan, actor.call.start, actor.call.sub, len(self.movers))
        elif actor.call.word == "move":
            actor.start = self.movers[actor.number].place.node
            self.movers[actor.number].move(actor.call.node)
        else:
            self.movers[actor.number].switch(actor.call.word == "off")

    def put(self, actor):
        mover = self.movers[actor.number]
        put, before = mover.next(), mover.place
        self.cells[put.cell] = put.word
        mover.made()
        if mover.place.number != before.number:
            actor.commit = actor.tickets[-1]
        if mover.next() is None:
            actor.lines.append(self.step_line(actor, mover.place))

    def step_line(self, actor, place):
        first, last = actor.tickets[0], actor.tickets[-1]
        if actor.call.word == "move":
            weight = self.weights[actor.start, place.node]
            return (f"move {place.sub} {place.number} {actor.start} {place.node} weight {weight} first {first}"
                    f" commit {actor.commit} last {last}")
        return f"switch {place.sub} {actor.call.word} {place.node} number {place.number} ticket {first}"

    def look(self, actor):
        finder = self.finders[actor.number]
        finder.saw(self.cells.get(finder.next(), 0))
        if finder.next() is None:
            actor.lines.append(self.find_line(actor, finder.answer()))
            self.finders.pop(actor.number).close()

    def find_line(self, actor, answer):
        call, span = actor.call, f"first {actor.tickets[0]} last {actor.tickets[-1]}"
        if isinstance(answer, track.Again):
            why = WHY.get(answer.why, f"empty {answer.node}")
            return f"again {actor.number} {call.start} {call.sub} {why} weight {answer.weight} {span}"
        word, level = "off" if answer.off else "find", "-" if answer.level is None else answer.level
        return (f"{word} {actor.number} {call.start} {call.sub} at {answer.node} number {answer.number} level {level}"
                f" weight {answer.weight} {span}")

    def report(self):
        self.weights = Distances(self.said)
        for number in self.said.order:
            self.turn(self.actors[number])
        for actor in self.actors:
            while self.turn(actor):
                pass
        lines = [line for actor in self.actors for line in actor.lines]
        lines += ["order " + " ".join(map(str, self.order[at:at + 64])) for at in range(0, len(self.order), 64)]
        return "\n".join(lines + [f"end {len(self.order)}"]) + "\n"


class Distances(dict):
    """The distance of two nodes."""

    def __init__(self, said):
        super().__init__()
        self.said = said

    def __missing__(self, pair):
        import directory
        weights = directory.least_weights(directory.arcs_of(self.said.nodes, self.said.edges), pair[0])
        self.update({(pair[0], node): weight for node, weight in weights.items()})
        return self[pair]


class Replays(unittest.TestCase):
    def test_stored_reports(self):
        count = 0
        for stored in sorted((TOP / "examples").rglob("*.replay")):
            wanted = stored.read_text()
            if not wanted.startswith("refused"):
                with self.subTest(stored.name):
                    self.assertEqual(Replay(stored.with_suffix(".txt")).report(), wanted)
                count += 1
        self.assertGreater(count, 20)


if __name__ == "__main__":
    unittest.main()
