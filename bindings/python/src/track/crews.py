"""A directory that the threads of one program share: the library keeps its cells in memory."""
from __future__ import annotations

import ctypes
from typing import NamedTuple, Optional, Sequence, Union

from ._library import AnswerFields, CensusFields, Handle, Owner, calls, must
from .errors import AtRest, PastEnd
from .finders import Again, Found, answer_of
from .plans import Plan


class Census(NamedTuple):
    """The subscribers that are at a node, and how many visits of all came before it."""

    ticket: int
    subs: tuple[int, ...]


class Member(Owner):
    """A member of a crew, with its number. It goes on after its crew is closed."""

    def __init__(self, handle: Handle, number: int) -> None:
        super().__init__()
        self._handle, self.number = handle, number

    def reserve(self, visits: int) -> None:
        """Sees to room for so many visits, each look and each put being one; it takes 8 bytes a visit. Raises CountTooLarge,
        NoMemory."""
        must(calls.track_actor_reserve(self._handle, visits))


class Caller(Member):
    """Looks for subscribers."""

    def find(self, start: int, sub: int) -> Union[Found, Again]:
        """Finds a subscriber from a node. Raises NoNode, NoSubscriber; Unreserved where there may be more looks than there is room
        for; Held where another member was inside a node just then."""
        told = AnswerFields()
        must(calls.track_caller_find(self._handle, start, sub, told))
        return answer_of(told)

    def census(self, node: int) -> Census:
        """The subscribers that are at a node; it is one visit. Raises NoNode, Unreserved; Held where another member was inside the
        node just then."""
        told = CensusFields()
        must(calls.track_caller_census(self._handle, node, told))
        return Census(told.ticket, tuple(sub for sub in range(64) if told.who >> sub & 1))


class Subscriber(Member):
    """Moves, and is found."""

    def move(self, to: int) -> None:
        """Begins a move. Raises NoNode, SamePlace, UnderWay, IsOff, NumbersSpent."""
        must(calls.track_subscriber_move(self._handle, to))

    def switch(self, off: bool) -> None:
        """Begins a switch off, or on. Raises UnderWay, Already."""
        must(calls.track_subscriber_switch(self._handle, off))

    def step(self) -> Optional[int]:
        """Makes the next put of what was begun: its ticket, or None where none is left. Raises Unreserved, Held."""
        ticket = ctypes.c_uint64()
        try:
            must(calls.track_subscriber_step(self._handle, ticket))
        except AtRest:
            return None
        return ticket.value


class Crew(Owner):
    """The members that nobody has taken yet: 1 to 64 subscribers, which start at these nodes, and at most 64 callers. Raises
    NoSubscriber where there is none, CountTooLarge, NoNode, NoMemory."""

    def __init__(self, plan: Plan, starts: Sequence[int], callers: int) -> None:
        super().__init__()
        self._subs = len(starts)
        nodes = (ctypes.c_uint32 * len(starts))(*starts)
        must(calls.track_crew_new(plan._handle, nodes, len(starts), callers, self._handle))

    def next(self) -> Union[Caller, Subscriber, None]:
        """The next member, or None where all are taken: the callers from the last one on, and then the subscribers from the last
        one on. Raises NoMemory, and then a later call gives that member."""
        handle, number = Handle(), ctypes.c_uint32()
        try:
            must(calls.track_crew_next(self._handle, handle, number))
        except PastEnd:
            return None
        kind = Subscriber if number.value < self._subs else Caller
        return kind(handle, number.value)
