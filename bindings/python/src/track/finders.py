"""Finds under way: which cell is looked at next, and what the answer is."""
from __future__ import annotations

from enum import IntEnum
from typing import Callable, NamedTuple, Optional, Union

from ._library import AnswerFields, CellFields, Owner, calls, must
from .cells import Cell, cell_of
from .errors import Ended
from .plans import Plan

UNCOUNTED = 2**32 - 1
_AT, _OFF, _AGAIN = range(3)


class Why(IntEnum):
    """Why a find is to be made again: in each case a move of its subscriber fell within it. A find of a subscriber that was never
    opened answers NO_ENTRY however often it is made: know which are open, or set a limit."""

    EMPTY_MARK = 1
    NO_ENTRY = 2
    CHASED = 3


class Found(NamedTuple):
    """The subscriber stood at the node at the find's last look, since the move of this number, and was off, or not. The find met
    an address at `level`, or needed none; it travelled `weight`."""

    node: int
    number: int
    off: bool
    level: Optional[int]
    weight: int


class Again(NamedTuple):
    """The find is to be made again. `node` is where the empty mark was, of that cause alone."""

    why: Why
    node: Optional[int]
    level: Optional[int]
    weight: int


def answer_of(told: AnswerFields) -> Union[Found, Again]:
    level = told.level if told.climbed else None
    if told.kind == _AGAIN:
        why = Why(told.why)
        return Again(why, told.node if why is Why.EMPTY_MARK else None, level, told.weight)
    return Found(told.node, told.number, told.kind == _OFF, level, told.weight)


class Finder(Owner):
    """A find of a subscriber from a node, step by step. It goes on after its plan is closed. Raises NoNode, NoSubscriber (`sub` isn't
    below `subs`, where subscribers are counted), NoMemory."""

    def __init__(self, plan: Plan, start: int, sub: int, subs: Optional[int] = None) -> None:
        super().__init__()
        must(calls.track_finder_new(plan._handle, start, sub, UNCOUNTED if subs is None else subs, self._handle))

    def next(self) -> Optional[Cell]:
        """The cell to look at, or None once the find has its answer."""
        fields = CellFields()
        try:
            must(calls.track_finder_next(self._handle, fields))
        except Ended:
            return None
        return cell_of(fields)

    def saw(self, word: int) -> None:
        """The look at that cell read this word. Raises BadWord, Ended."""
        must(calls.track_finder_saw(self._handle, word))

    def answer(self) -> Union[Found, Again]:
        """The answer. Raises Looking while there is none."""
        told = AnswerFields()
        must(calls.track_finder_answer(self._handle, told))
        return answer_of(told)

    def look(self, word: int) -> Union[Cell, Found, Again]:
        """`saw`, and then `next` or `answer`, in one call: the look at the cell that came next read this word. It tells the cell to
        look at then, or the answer, which stays once it is there. Raises BadWord."""
        fields, told = CellFields(), AnswerFields()
        try:
            must(calls.track_finder_look(self._handle, word, fields, told))
        except Ended:
            return answer_of(told)
        return cell_of(fields)

    def again(self, start: int, sub: int, subs: Optional[int] = None) -> None:
        """Begins another find in the place of this one, over the same plan. Raises NoNode, NoSubscriber, and then this one stands."""
        must(calls.track_finder_again(self._handle, start, sub, UNCOUNTED if subs is None else subs))

    def run(self, look: Callable[[Cell], int]) -> Union[Found, Again]:
        """All looks that are left, by `look`, which reads a cell; and the answer. If it raises, the find can go on: a look changes
        nothing."""
        came = self.next()
        if came is None:
            return self.answer()
        while isinstance(came, Cell):
            came = self.look(look(came))
        return came
