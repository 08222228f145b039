"""A Redis server that comes back without its data, and an etcd cluster without a majority."""
import time

import live
import stores

from checks.handsets import directories, must, raised


def check_lost_data(servers, text, plan):
    first, second = directories(servers, plan, text, "d")
    lost = servers.all[1]
    at_lost = [node for node in range(plan.nodes) if node % len(servers.all) == 1]
    elsewhere = next(node for node in range(plan.nodes) if node % len(servers.all) != 1)
    handset = first.join(elsewhere)
    must(first.find(elsewhere, handset.sub).node == elsewhere, "a subscriber isn't found at its node")
    lost.lose_data()
    begun = time.monotonic()
    must(raised(live.Find(second, at_lost[0], handset.sub).run) == "Unreachable", "a find looks at a server that is gone")
    must(time.monotonic() - begun < 6, "a find waits longer than its patience")
    lost.start()
    servers.wait(lost)
    told = {raised(second.find, node, handset.sub) for node in at_lost}
    must(told == {"NoData"}, f"looks at a server without its data are {told}")
    must(raised(handset.move, at_lost[0]) == "NoData", "a put goes to a server without its data")
    must(raised(second.take_over, handset.sub) == "NoData", "a handset is taken over though a server lost its data")
    must(second.find(elsewhere, handset.sub).node == elsewhere, "a find that needs no lost cell fails")
    return (f"a server without its data: looks from {len(at_lost)} nodes, a put and a restart are told so; what needs none of its "
            "cells goes on")


def check_majority(servers, text, plan):
    first, second = directories(servers, plan, text, "m")
    handset = first.join(3)
    for it in servers.all[1:]:
        it.kill()
    first.patience = second.patience = 0.7
    for call, what in ((lambda: handset.move(5), "a move"), (lambda: second.find(3, handset.sub), "a find")):
        begun = time.monotonic()
        must(raised(call) == "Unreachable", f"{what} without a majority isn't told why")
        must(time.monotonic() - begun < 6, f"{what} without a majority takes longer than the time set")
    try:
        second.find_until_answered(3, handset.sub, seconds=1)
        must(False, "a find without a majority has an answer")
    except live.NotAnswered as told:
        must(isinstance(told.__cause__, stores.Unreachable), "a find that isn't answered doesn't tell the cause")
    for it in servers.all[1:]:
        it.start()
    for it in servers.all:
        servers.wait(it)
    first.patience = second.patience = 20.0
    handset.finish()
    must(handset.place.node == 5, "a move doesn't go on once the majority is back")
    must(second.find_until_answered(3, handset.sub).node == 5, "a find doesn't go on once the majority is back")
    return "without a majority a move and a find are told so within the time set, and go on once it is back"
