#!/usr/bin/env python3
"""Holds the stored examples to tell wrong readings of the pages apart. Each reading is one line of scripts/directory.py changed;
some stored text has to be another under it. So who writes a program from docs/ alone and agrees on all examples has none of these
readings.

Usage, at the top of the repository: bench/check_readings.py"""
import glob
import os
import sys
import types

sys.dont_write_bytecode = True
TOP = os.path.join(os.path.dirname(os.path.realpath(__file__)), "..")
sys.path.insert(0, os.path.join(TOP, "scripts"))
from texts import BadText, Fault, ends_clearly, read_bytes, read_input  # noqa: E402

# What is misread, the line, and the line as the wrong reading has it.
READINGS = [
    ("readers descend", "self.readers[i][v].append(c)", "self.readers[i][v].insert(0, c)"),
    ("a cluster has the nodes of the growth that was tried last", "sorted(set().union(*(balls[u] for u in taken)))",
     "sorted(set().union(*(balls[u] for u in touched)))"),
    ("the balls that wait are counted anew for each cluster", "taken, touched = grow_cluster(center, balls, waiting, at_start, k)",
     "taken, touched = grow_cluster(center, balls, waiting, len(waiting), k)"),
    ("weights inside a cluster are distances", "least_weights(network.arcs, c.leader, set(c.members)) for c in level",
     "network.rows[c.leader] for c in level"),
    ("depths are distances", "max(least_weights(network.arcs, leader, set(members)).values())",
     "max(network.rows[leader][v] for v in members)"),
    ("the last of repeated edges counts", "min(weight, arcs[a].get(b, weight))", "weight"),
    ("a level is renewed where all below it reach their thresholds too", "self.gathered[i] + weight >= setting.threshold(i)]",
     "all(self.gathered[j] + weight >= setting.threshold(j) for j in range(i + 1))]"),
    ("the purge descends", "sorted(self.trail - {to})", "sorted(self.trail - {to}, reverse=True)"),
    ("a level gathers the distance from its address", "self.gathered[i] + weight >= setting.threshold(i)]",
     "setting.network.distance(self.address[i], to) >= setting.threshold(i)]"),
    ("a find follows a Gone at its origin", 'self.known = mark[1]\n            self.next_entry()',
     'self.known = mark[1]\n                return self.hop(at, mark[2])\n            self.next_entry()'),
    ("a Coming at the end of a chase is always an answer", 'mark[0] == "Coming" and mark[1] <= self.known', 'mark[0] == "Coming"'),
]


def module_of(text):
    module = types.ModuleType("directory")
    exec(compile(text, "scripts/directory.py", "exec"), module.__dict__)
    return module


def texts_of(module, said):
    """The plan and the report of an input, or what stops it."""
    try:
        machine = module.run_input(said)
        return module.plan_text(machine.setting.plan), machine.report()
    except (KeyError, IndexError, ValueError) as stopped:
        return repr(stopped)


def misread(text, line, wrong):
    if text.count(line) != 1:
        raise BadText(f"scripts/directory.py has not once, but {text.count(line)} times: {line}")
    return module_of(text.replace(line, wrong))


def main():
    os.chdir(TOP)
    text = read_bytes("scripts/directory.py").decode()
    modules = [(what, misread(text, line, wrong)) for what, line, wrong in READINGS]
    told, count, right = {what: [] for what, _ in modules}, 0, module_of(text)
    for path in sorted(glob.glob("examples/*.txt")):
        try:
            said = read_input(read_bytes(path))
        except Fault:
            continue
        wanted, count = texts_of(right, said), count + 1
        for what, module in modules:
            if texts_of(module, said) != wanted:
                told[what].append(os.path.basename(path))
    for what, examples in told.items():
        if not examples:
            raise BadText(f"no stored example tells it: {what}")
        if "--list" in sys.argv:
            print(f"{what}: {', '.join(examples)}")
    print(f"readings: {len(modules)} wrong ones, each told by one of {count} stored inputs")


if __name__ == "__main__":
    ends_clearly(main)
