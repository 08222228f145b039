#!/usr/bin/env python3
"""The text of a made workload, from the rules of docs/FORMATS.md in the standard library alone.
`scripts/made.py START N K S C CALLS` writes it."""
import sys

WIDE = 2**64


class Draws:
    """PCG XSH RR 64/32 on stream 54: a word is made of the state before its step."""

    def __init__(self, start):
        self.increment = 54 * 2 + 1
        self.state = (start + self.increment) % WIDE
        self.step()

    def step(self):
        self.state = (self.state * 6364136223846793005 + self.increment) % WIDE

    def word(self):
        old = self.state
        self.step()
        mixed = ((old >> 18) ^ old) >> 27 & 0xFFFFFFFF
        turn = old >> 59
        return (mixed >> turn | mixed << (32 - turn)) & 0xFFFFFFFF

    def below(self, most):
        return self.word() % most


def lines(start, nodes, k, subs, callers, calls):
    """The lines of the text, in the order in which they are drawn."""
    draws = Draws(start)
    yield f"track {1 if nodes <= 256 and calls <= 8192 else 2}"
    yield f"nodes {nodes}"
    yield f"k {k}"
    for node in range(1, nodes):
        yield f"edge {(node - 1) // 2} {node} {1 + draws.below(16)}"
    for _ in range(nodes // 2):
        a, b = draws.below(nodes), draws.below(nodes)
        yield f"edge {a} {b} {1 + draws.below(16)}"
    places = [draws.below(nodes) for _ in range(subs)]
    yield from [f"sub {place}" for place in places]
    yield f"callers {callers}"
    for j in range(calls):
        if nodes > 1 and (j % 2 == 0 or callers == 0):
            sub, far = draws.below(subs), draws.below(nodes - 1)
            places[sub] = (places[sub] + 1 + far) % nodes
            yield f"move {sub} {places[sub]}"
        else:
            caller, node, sub = draws.below(callers), draws.below(nodes), draws.below(subs)
            yield f"find {subs + caller} {node} {sub}"
    order = [draws.below(subs + callers) for _ in range(8 * calls)]
    for at in range(0, len(order), 64):
        yield "order " + " ".join(map(str, order[at:at + 64]))


def text(*numbers):
    """The text of a load."""
    return "".join(line + "\n" for line in lines(*numbers))


if __name__ == "__main__":
    sys.stdout.write(text(*map(int, sys.argv[1:7])))
