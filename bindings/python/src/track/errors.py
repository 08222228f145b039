"""Why a call did nothing: an exception for each code of track.h, named as its cause."""
from __future__ import annotations

from enum import IntEnum


class Cause(IntEnum):
    """Why a network is refused."""

    FORM = 1
    TOO_LARGE = 2
    TOO_MANY = 3
    UNKNOWN = 4
    SWITCHED = 5
    NOWHERE = 6
    UNFINISHED = 7
    APART = 8
    TOO_LONG = 9


class TrackError(Exception):
    """A call did nothing; every object is as it was before."""


class NoMemory(TrackError, MemoryError):
    """There was no memory."""


class EmptyHandle(TrackError):
    """The object is closed."""


class OtherKind(TrackError):
    """The object is of another kind."""


class FullHandle(TrackError):
    """There is an object already where the answer should go."""


class BadNetwork(TrackError, ValueError):
    """The text or the edges of a network are refused: `cause`, `line` and, for a node that is apart, `node`."""

    def __init__(self, cause: Cause, line: int, node: int) -> None:
        apart = f": no walk leads from node 0 to {node}" if cause is Cause.APART else ""
        super().__init__(f"line {line}: {cause.name.lower().replace('_', ' ')}{apart}")
        self.cause, self.line, self.node = cause, line, node


class NoNode(TrackError, ValueError):
    """The plan has no such node."""


class NoSubscriber(TrackError, ValueError):
    """There is no such subscriber."""


class SamePlace(TrackError):
    """The subscriber stands there."""


class UnderWay(TrackError):
    """A step that was begun has puts left."""


class IsOff(TrackError):
    """The subscriber is off, and doesn't move."""


class NumbersSpent(TrackError):
    """The subscriber has moved 2^32 - 1 times."""


class Already(TrackError):
    """The subscriber is off, or on, already."""


class AtRest(TrackError):
    """No put is left."""


class Ended(TrackError):
    """No look is left: the find has its answer."""


class Looking(TrackError):
    """A look is left: the find has no answer yet."""


class PastEnd(TrackError, IndexError):
    """There are no more."""


class BadWord(TrackError, ValueError):
    """The cell can't hold this word."""


class BadFields(TrackError, ValueError):
    """No word has these fields."""


class NoRoom(TrackError):
    """The state has another number of words than there is room for."""


class ShortState(TrackError, ValueError):
    """There are fewer words than a state for this plan has."""


class GarbledState(TrackError, ValueError):
    """No mover over a plan of this size has just these words."""


class MixedState(TrackError, ValueError):
    """The levels, numbers or weights of the state don't go with one another, or with the plan."""


class CountTooLarge(TrackError, ValueError):
    """There may not be so many."""


class Unreserved(TrackError):
    """There is no room for so many visits."""


class Held(TrackError):
    """Another member of the crew was inside a node just then."""


BY_CODE: dict[int, type[TrackError]] = {
    1: NoMemory, 2: EmptyHandle, 3: OtherKind, 4: FullHandle, 6: NoNode, 7: NoSubscriber, 8: SamePlace, 9: UnderWay,
    10: IsOff, 11: NumbersSpent, 12: Already, 13: AtRest, 14: Ended, 15: Looking, 16: PastEnd, 17: BadWord, 18: BadFields,
    19: NoRoom, 20: ShortState, 21: GarbledState, 22: MixedState,
    23: CountTooLarge, 24: Unreserved, 25: Held,
}
