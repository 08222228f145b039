"""What every store of cells keeps to: the causes for which a request isn't made, what it writes of a handset, and which module a
word names. The directory (live.py) knows this alone, and none of the modules."""
from __future__ import annotations

import importlib
import struct
from typing import Any, Iterable, NamedTuple, Optional, Protocol

import track

STORES = {"redis": "redis_store", "etcd": "etcd_store"}


class StoreError(Exception):
    """A request wasn't answered as it should be. Cells are as before, but for Unreachable."""


class Unreachable(StoreError):
    """No answer came in time: the request may have been made, or not. It can be made again: a look changes nothing, and a put that
    was made is answered as made."""


class NoData(StoreError):
    """The server is there and its cells aren't: it came back without its data, or it is another one."""


class Superseded(StoreError):
    """The subscriber's handset is held by a later process; this one has to stop."""


class Late(StoreError):
    """A put that isn't the handset's next: a later one stands."""


class BadCell(StoreError):
    """A cell holds what the directory never writes into it."""


class NoHandset(StoreError):
    """The store holds no state of a subscriber of this number."""


class Occupied(StoreError):
    """There is a directory of this name already."""


class State(NamedTuple):
    """What a store keeps of a handset, written with each put: the epoch counts who has held it, the step its puts, and the words
    are what it goes on from."""

    epoch: int
    step: int
    words: tuple[int, ...]

    def packed(self) -> bytes:
        return struct.pack(f"<{len(self.words)}Q", *self.words)


def unpacked(state: bytes) -> tuple[int, ...]:
    return struct.unpack(f"<{len(state) // 8}Q", state)


# When a visit was made, for whoever puts visits into one order: each store has tickets of its own. None where it isn't recorded.
Ticket = Optional[tuple[int, int]]


class Held(NamedTuple):
    """A handset that was taken over: its state under the new epoch, and the ticket of its last put (None before any)."""

    state: State
    ticket: Ticket


class Store(Protocol):
    """One register a cell, linearizable. Each request is made once: it raises Unreachable where no answer comes in time."""

    def look(self, cell: track.Cell) -> tuple[int, Ticket]:
        """The word of a cell, 0 where nobody has written it. Raises NoData, BadCell."""

    def put(self, put: track.Put, sub: int, state: State) -> Ticket:
        """Writes the cell and the state of the handset, both or none. Of a put that is made already: its ticket, and nothing
        changes. Raises NoData, Superseded, Late."""

    def draw_number(self) -> int:
        """A subscriber's number that nobody else has or had. Raises NoData."""

    def open(self, sub: int, puts: Iterable[track.Put], state: State) -> None:
        """Writes the cells of a new subscriber, the state of its handset, and last that it is open. Raises NoData."""

    def is_open(self, sub: int) -> bool:
        """Whether an opening has come to its end. Raises NoData."""

    def highest_epoch(self, sub: int) -> int:
        """The epoch of who holds the handset now. Raises NoData, NoHandset."""

    def raise_epoch(self, sub: int, epoch: int, holder: str) -> Held:
        """Takes the handset over for a holder of this random name: from now on puts of lower epochs are refused. Raises NoData,
        NoHandset; Superseded, where as high an epoch stands already of another."""

    def close(self) -> None:
        """Ends the connections."""


def module(word: str) -> Any:
    if word not in STORES:
        raise ValueError(f"there is no store {word!r}: they are {', '.join(STORES)}")
    return importlib.import_module(STORES[word])


def set_up(word: str, addresses: list[str], network: str, name: str = "track") -> dict:
    """Sets a directory up over servers (HOST:PORT), and says what every process has to know of it: a description, to be kept as
    JSON. Raises Unreachable, Occupied, track.BadNetwork."""
    track.Plan.read(network).close()
    return {"store": word, "name": name, "servers": module(word).set_up(addresses, name), "network": network}


def connect(description: dict, timeout: float = 1.0, recording: bool = False) -> Store:
    """The store of a description. A request waits for its answer for `timeout` seconds. With `recording` visits have tickets."""
    return module(description["store"]).connect(description["servers"], description["name"], timeout, recording)


def read_word(value: bytes, cell: track.Cell) -> int:
    """The number that a store holds in a cell."""
    if not (value.isdigit() and len(value) <= 20 and int(value) < 1 << 64):
        raise BadCell(f"{cell} holds {value[:32]!r}, which is no word")
    return int(value)
