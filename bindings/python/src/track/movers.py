"""Subscribers that move: what a move or a switch writes next."""
from __future__ import annotations

from typing import Callable, NamedTuple, Optional, Sequence

from ._library import Owner, PlaceFields, PutFields, calls, must, u32, u64, word
from .cells import Cell, Put, put_of
from .errors import AtRest
from .plans import Plan


class Place(NamedTuple):
    """Where a mover stands, by the puts made: `number` counts its moves."""

    sub: int
    node: int
    number: int
    off: bool


class Mover(Owner):
    """The one mover of a subscriber, at rest at its start node. It goes on after its plan is closed. Raises NoNode, NoMemory."""

    def __init__(self, plan: Plan, sub: int, node: int) -> None:
        super().__init__()
        must(calls.track_mover_new(plan._handle, sub, node, self._handle))

    @classmethod
    def load(cls, plan: Plan, state: Sequence[int]) -> Mover:
        """The mover of a state that `save` told, over the plan that it was saved over. Raises ShortState, GarbledState, NoNode,
        MixedState, where the words are no state for this plan; NoMemory; OverflowError, where one has more than 64 bits."""
        mover = cls.__new__(cls)
        Owner.__init__(mover)
        words = (u64 * len(state))(*map(word.from_param, state))
        must(calls.track_mover_load(plan._handle, words, len(state), mover._handle))
        return mover

    def save(self) -> list[int]:
        """The state: words of 64 bits, of which `load` makes a mover that is as this one, at rest or in the middle of a step. Raises
        NoMemory."""
        count = u32()
        must(calls.track_mover_length(self._handle, count))
        words = (u64 * count.value)()
        must(calls.track_mover_save(self._handle, words, count.value))
        return list(words)

    def move(self, to: int) -> None:
        """Begins a move. Raises NoNode, SamePlace, UnderWay, IsOff, NumbersSpent."""
        must(calls.track_mover_move(self._handle, to))

    def switch(self, off: bool) -> None:
        """Begins a switch off, or on. Raises UnderWay, Already."""
        must(calls.track_mover_switch(self._handle, off))

    def next(self) -> Optional[Put]:
        """The put that comes next, or None where none is left."""
        fields = PutFields()
        try:
            must(calls.track_mover_next(self._handle, fields))
        except AtRest:
            return None
        return put_of(fields)

    def made(self) -> None:
        """That put is made. Raises AtRest."""
        must(calls.track_mover_made(self._handle))

    @property
    def place(self) -> Place:
        fields = PlaceFields()
        must(calls.track_mover_place(self._handle, fields))
        return Place(fields.sub, fields.node, fields.number, bool(fields.off))

    def run(self, write: Callable[[Cell, int], object]) -> None:
        """All puts that are left, by `write`, which writes a word into a cell. If it raises, that put comes next again."""
        while (put := self.next()) is not None:
            write(put.cell, put.word)
            self.made()
