"""The proved decisions of a directory of mobile subscribers: plans, finders and movers, over cells of one's own (docs/EMBEDDING.md)."""
from .cells import (
    Address, Cell, CellKind, Coming, Gone, Here, Mark, Put, pack_entry, pack_mark, read_entry, read_mark,
)
from .crews import Caller, Census, Crew, Subscriber
from .errors import *  # noqa: F401,F403
from .errors import Cause, TrackError
from .finders import Again, Finder, Found, Why
from .movers import Mover, Place
from .plans import Plan, Room

__all__ = [
    "Address", "Again", "Caller", "Cause", "Cell", "CellKind", "Census", "Coming", "Crew", "Finder", "Found", "Gone", "Here", "Mark", "Mover", "Place",
    "Plan", "Put", "Room", "Subscriber", "TrackError", "Why", "pack_entry", "pack_mark", "read_entry", "read_mark",
]
