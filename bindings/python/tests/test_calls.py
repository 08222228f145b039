"""What each call refuses, what stands after a refusal, and what words say: tables that one function plays."""
import ctypes
import pathlib
import sys
import threading
import unittest

import track

TOP = pathlib.Path(__file__).resolve().parents[3]
LINE = (TOP / "examples/line-of-four.txt").read_bytes()


def opened():
    """The line of four, with subscriber 0 at node 3."""
    plan = track.Plan.read(LINE)
    return plan, dict(plan.opening(0, 3)), track.Mover(plan, 0, 3)


def begun():
    plan, cells, mover = opened()
    mover.move(1)
    return plan, cells, mover


def reloaded(them, change):
    return track.Mover.load(them[0], change(them[2].save()))


def closed(it):
    it.close()
    return it


# What is called, and what it raises.
REFUSALS = [
    (lambda: track.Plan.read("track 1\nnodes 0\n"), track.BadNetwork),
    (lambda: closed(track.Plan.read(LINE)).share(), track.EmptyHandle),
    (lambda: list(opened()[0].opening(0, 4)), track.NoNode),
    (lambda: opened()[0].start(9), track.NoSubscriber),
    (lambda: track.Finder(opened()[0], 4, 0), track.NoNode),
    (lambda: track.Finder(opened()[0], 3, 1, subs=1), track.NoSubscriber),
    (lambda: track.Finder(opened()[0], 3, 2**32), ctypes.ArgumentError),
    (lambda: track.Finder(opened()[0], 3, 0).answer(), track.Looking),
    (lambda: track.Finder(opened()[0], 3, 0).saw(2**64 - 1), track.BadWord),
    (lambda: closed(track.Finder(opened()[0], 3, 0)).next(), track.EmptyHandle),
    (lambda: track.Mover(opened()[0], 0, 4), track.NoNode),
    (lambda: opened()[2].move(4), track.NoNode),
    (lambda: opened()[2].move(3), track.SamePlace),
    (lambda: opened()[2].made(), track.AtRest),
    (lambda: opened()[2].switch(False), track.Already),
    (lambda: begun()[2].move(2), track.UnderWay),
    (lambda: begun()[2].switch(True), track.UnderWay),
    (lambda: track.read_mark(2**64 - 1), track.BadWord),
    (lambda: track.read_entry(2**64 - 1), track.BadWord),
    (lambda: track.pack_mark(track.Gone(1, 2**32 - 1)), track.BadFields),
    (lambda: reloaded(opened(), lambda state: state[:11]), track.ShortState),
    (lambda: reloaded(opened(), lambda state: state + [4]), track.GarbledState),
    (lambda: reloaded(opened(), lambda state: [0, 4, *state[2:]]), track.NoNode),
    (lambda: reloaded(opened(), lambda state: [*state[:6], 9, *state[7:]]), track.MixedState),
]
MARKS = [None, track.Here(0), track.Here(7, off=True), track.Gone(3, 2), track.Coming(2**32 - 1, 1023)]
ADDRESSES = [None, track.Address(0, 0), track.Address(2**32 - 1, 1023)]


class Calls(unittest.TestCase):
    def test_refusals(self):
        for place, (call, wanted) in enumerate(REFUSALS):
            with self.subTest(place), self.assertRaises(wanted):
                call()

    def test_a_refused_network_says_why(self):
        with self.assertRaises(track.BadNetwork) as caught:
            track.Plan.read("track 1\nnodes 3\nk 2\nedge 0 1 1\nsub 0\ncallers 0\n")
        error = caught.exception
        self.assertEqual((error.cause, error.node), (track.Cause.APART, 2))

    def test_edges_make_the_same_plan(self):
        edges = [(0, 1, 1), (1, 2, 1), (2, 3, 1)]
        built, read = track.Plan.build(4, 2, edges), opened()[0]
        self.assertEqual([list(built.opening(0, node)) for node in range(4)], [list(read.opening(0, node)) for node in range(4)])
        with self.assertRaises(track.BadNetwork) as caught:
            track.Plan.build(4, 2, [*edges, (3, 4, 1)])
        self.assertEqual((caught.exception.cause, caught.exception.line), (track.Cause.UNKNOWN, 4))

    def test_words(self):
        for mark in MARKS:
            self.assertEqual(track.read_mark(track.pack_mark(mark)), mark)
        for address in ADDRESSES:
            self.assertEqual(track.read_entry(track.pack_entry(address)), address)

    def test_a_put_that_fails_comes_again(self):
        _, cells, mover = begun()
        puts = []

        def fails_once(cell, word):
            puts.append(cell)
            if len(puts) == 2:
                raise OSError("gone")
            cells[cell] = word

        with self.assertRaises(OSError):
            mover.run(fails_once)
        mover.run(fails_once)
        self.assertEqual(puts[1], puts[2])
        self.assertEqual(mover.place, track.Place(0, 1, 1, False))

    def test_a_mover_outlives_its_process(self):
        for made in range(12):
            plan, cells, mover = opened()
            mover.move(0)
            for _ in range(made):
                if mover.next() is not None:
                    mover.made()
            again = track.Mover.load(plan, mover.save())
            self.assertEqual((again.place, again.next(), again.save()), (mover.place, mover.next(), mover.save()))
            again.run(cells.__setitem__)
            self.assertEqual(again.place, track.Place(0, 0, 1, False))

    def test_a_find_takes_a_call_for_each_look(self):
        plan, cells, _ = opened()
        finder = track.Finder(plan, 0, 0, subs=1)
        cell = finder.next()
        looks = 0
        while isinstance(cell, track.Cell):
            cell, looks = finder.look(cells.get(cell, 0)), looks + 1
        self.assertEqual(cell, finder.answer())
        self.assertEqual((cell.node, finder.look(0)), (3, cell))
        self.assertLessEqual(looks, plan.room(0).looks)
        with self.assertRaises(track.NoNode):
            finder.again(4, 0, subs=1)
        with self.assertRaises(track.NoSubscriber):
            finder.again(0, 1, subs=1)
        self.assertEqual(finder.answer(), cell)
        finder.again(3, 0)
        with self.assertRaises(track.BadWord):
            finder.look(2**64 - 1)
        self.assertEqual(finder.run(lambda cell: cells.get(cell, 0))[:2], (3, 0))

    def test_a_plan_tells_how_much_room_visits_want(self):
        plan, _, _ = opened()
        self.assertEqual(plan.room(0).puts, 3 + 2 * plan.levels + plan.nodes)
        with self.assertRaises(track.NoNode):
            plan.room(4)

    def test_objects_outlive_their_plan(self):
        plan, cells, mover = opened()
        finder = track.Finder(plan, 0, 0)
        plan.close()
        mover.move(2)
        mover.run(cells.__setitem__)
        self.assertEqual(finder.run(lambda cell: cells.get(cell, 0)).node, 2)

    def test_threads_use_objects_of_their_own(self):
        plan, cells, _ = opened()
        found = []

        def look(shared):
            for _ in range(200):
                with track.Finder(shared, 0, 0) as finder:
                    found.append(finder.run(lambda cell: cells.get(cell, 0)).node)

        threads = [threading.Thread(target=look, args=(plan.share(),)) for _ in range(4)]
        for thread in threads:
            thread.start()
        for thread in threads:
            thread.join()
        self.assertEqual(found, [3] * 800)

    def test_a_crew_is_refused(self):
        plan, _, _ = opened()
        for starts, cause in [([], track.NoSubscriber), ([0] * 65, track.CountTooLarge), ([4], track.NoNode)]:
            with self.subTest(starts=starts), self.assertRaises(cause):
                track.Crew(plan, starts, 1)

    def test_members_of_a_crew_move_and_find(self):
        plan, _, _ = opened()
        crew = track.Crew(plan, [3], 1)
        caller, subscriber = crew.next(), crew.next()
        self.assertIsNone(crew.next())
        self.assertEqual((caller.number, subscriber.number), (1, 0))
        with self.assertRaises(track.Unreserved):
            caller.find(0, 0)
        caller.reserve(1000)
        subscriber.reserve(1000)
        subscriber.move(1)
        puts = threading.Thread(target=lambda: list(iter(subscriber.step, None)))
        puts.start()
        puts.join()
        self.assertEqual(caller.find(0, 0)[:3], (1, 1, False))
        self.assertEqual([caller.census(node).subs for node in range(4)], [(), (0,), (), ()])
        with self.assertRaises(track.NoNode):
            caller.census(4)
        subscriber.switch(True)
        with self.assertRaises(track.UnderWay):
            subscriber.switch(True)


if __name__ == "__main__":
    unittest.main()
