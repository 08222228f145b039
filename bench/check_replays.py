#!/usr/bin/env python3
"""Compares what `replay` and `census` write with what another program of the same words does, byte for byte, on made inputs
with moves, switches, finds and orders: seeds from FIRST on, each one input.

Usage, at the top of the repository: bench/check_replays.py OTHER [COUNT [FIRST]]   It runs crates/track_main/out/track_main, or
the program that the variable TRACK names."""
import os
import random
import subprocess
import sys

sys.dont_write_bytecode = True
sys.path.insert(0, os.path.join(os.path.dirname(os.path.realpath(__file__)), "../scripts"))
from program import PROVED, tried_program  # noqa: E402

OURS = tried_program(PROVED)


def network(rng, nodes):
    """A connected network: a random tree, and some edges more."""
    most = rng.choice((1, 5, 1000, 1048576))
    edges = [(rng.randrange(node), node, rng.randint(1, most)) for node in range(1, nodes)]
    for _ in range(rng.randrange(nodes + 1)):
        one, other = rng.randrange(nodes), rng.randrange(nodes)
        if one != other:
            edges.append((one, other, rng.randint(1, most)))
    return edges


def course(rng, sub, home, nodes, steps):
    """The calls of a subscriber: moves while it is on, and switches."""
    lines, here, off = [], home, False
    for _ in range(steps):
        if rng.random() < 0.3:
            off = not off
            lines.append(f"{'off' if off else 'on'} {sub}")
        elif not off and nodes > 1:
            here = rng.choice([node for node in range(nodes) if node != here])
            lines.append(f"move {sub} {here}")
    return lines


def turns(rng, actors):
    """Whose turn it is: some turns of an actor, then some of another."""
    order, most = [], rng.choice((1, 3, 40))
    for _ in range(rng.randrange(120)):
        order += [str(rng.randrange(actors))] * rng.randint(1, most)
    return order


def made(seed):
    """The input of a seed, in the second format."""
    rng = random.Random(seed)
    nodes = rng.randint(1, 24)
    subs, callers = rng.randint(1, 4), rng.randint(0, 4)
    homes = [rng.randrange(nodes) for _ in range(subs)]
    calls = []
    for sub, home in enumerate(homes):
        calls += course(rng, sub, home, nodes, rng.randrange(7))
    for caller in range(subs, subs + callers):
        calls += [f"find {caller} {rng.randrange(nodes)} {rng.randrange(subs)}" for _ in range(rng.randrange(6))]
    order = turns(rng, subs + callers)
    lines = ["track 2", f"nodes {nodes}", f"k {rng.randint(1, 4)}"]
    lines += [f"edge {one} {other} {weight}" for one, other, weight in network(rng, nodes)]
    lines += [f"sub {home}" for home in homes] + [f"callers {callers}"] + calls
    lines += ["order " + " ".join(order[i:i + 64]) for i in range(0, len(order), 64)]
    return "\n".join(lines).encode() + b"\n"


def answer(program, word, text):
    """What a program writes, and its status."""
    done = subprocess.run([program, word], input=text, stdout=subprocess.PIPE, check=False)
    return done.returncode, done.stdout


def main():
    other = sys.argv[1]
    count = int(sys.argv[2]) if len(sys.argv) > 2 else 1000
    first = int(sys.argv[3]) if len(sys.argv) > 3 else 1
    served = again = 0
    for seed in range(first, first + count):
        text = made(seed)
        status, report = answer(OURS, "replay", text)
        if (status, report) != answer(other, "replay", text):
            sys.exit(f"seed {seed}: another report")
        if answer(OURS, "census", text) != answer(other, "census", text):
            sys.exit(f"seed {seed}: another census")
        served += status == 0
        again += (b"\n" + report).count(b"\nagain ")
    print(f"{count} inputs from seed {first} on: all reports and censuses equal; {served} were served,",
          f"{again} finds are to be made again")


if __name__ == "__main__":
    main()
