"""Stores with a fault planted: a check that passes over one of them checks nothing."""
import random


class Planted:
    """A store, all but for its fault."""

    def __init__(self, store):
        self.store = store

    def __getattr__(self, name):
        return getattr(self.store, name)


class Stale(Planted):
    """A look may be answered from what was read before."""

    def __init__(self, store):
        super().__init__(store)
        self.read = {}

    def look(self, cell):
        word, ticket = self.store.look(cell)
        return self.read.setdefault(cell, word) if random.random() < 0.5 else word, ticket


class Torn(Planted):
    """A put may write the state and not its cell."""

    def put(self, put, sub, state):
        if put.word and random.random() < 0.1:
            put = put._replace(word=self.store.look(put.cell)[0])
        return self.store.put(put, sub, state)


class Misplaced(Planted):
    """A look may be told what another subscriber's cell holds."""

    def look(self, cell):
        return self.store.look(cell._replace(sub=cell.sub ^ 1) if random.random() < 0.05 else cell)


PLANTS = [Stale, Torn, Misplaced]
