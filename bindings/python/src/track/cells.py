"""Cells, what is put into them, and what their words say."""
from __future__ import annotations

from enum import IntEnum
from typing import NamedTuple, Optional, Union

from ._library import CellFields, PutFields, WordFields, calls, must, u64


class CellKind(IntEnum):
    PRESENCE = 0
    ENTRY = 1


class Cell(NamedTuple):
    """A cell, and the node at which it lies: of a presence that of the subscriber there, of an entry the leader of the cluster.
    `str` gives a key for stores that have keys; it has the node first, so that a store can be parted by nodes."""

    kind: CellKind
    node: int
    level: int
    cluster: int
    sub: int

    def __str__(self) -> str:
        if self.kind is CellKind.PRESENCE:
            return f"{self.node}/presence/{self.sub}"
        return f"{self.node}/entry/{self.level}/{self.cluster}/{self.sub}"


class Put(NamedTuple):
    """What is to be written: from now on the cell holds the word."""

    cell: Cell
    word: int


def cell_of(fields: CellFields) -> Cell:
    return Cell(CellKind(fields.kind), fields.node, fields.level, fields.cluster, fields.sub)


def put_of(fields: PutFields) -> Put:
    return Put(cell_of(fields.cell), fields.word)


class Here(NamedTuple):
    """The subscriber is here since this move; and off, or not."""

    number: int
    off: bool = False


class Gone(NamedTuple):
    """It left with this move, to a node."""

    number: int
    to: int


class Coming(NamedTuple):
    """It is coming with this move, from a node."""

    number: int
    start: int


class Address(NamedTuple):
    """It went to a node with this move."""

    number: int
    node: int


Mark = Union[Here, Gone, Coming]
_NOTHING, _HERE, _GONE, _COMING, _HERE_OFF = range(5)


def read_mark(word: int) -> Optional[Mark]:
    """What the word of a presence says; None: the subscriber isn't here, or not any more. Raises BadWord."""
    fields = WordFields()
    must(calls.track_mark_read(word, fields))
    return {
        _NOTHING: None,
        _HERE: Here(fields.number),
        _HERE_OFF: Here(fields.number, off=True),
        _GONE: Gone(fields.number, fields.node),
        _COMING: Coming(fields.number, fields.node),
    }[fields.kind]


def pack_mark(mark: Optional[Mark]) -> int:
    """The word of a presence that says this. Raises BadFields."""
    fields = WordFields()
    if isinstance(mark, Here):
        fields = WordFields(_HERE_OFF if mark.off else _HERE, mark.number, 0)
    elif isinstance(mark, (Gone, Coming)):
        fields = WordFields(_GONE if isinstance(mark, Gone) else _COMING, *mark)
    word = u64()
    must(calls.track_mark_pack(fields, word))
    return word.value


def read_entry(word: int) -> Optional[Address]:
    """What the word of an entry says. Raises BadWord."""
    fields = WordFields()
    must(calls.track_entry_read(word, fields))
    return Address(fields.number, fields.node) if fields.kind else None


def pack_entry(address: Optional[Address]) -> int:
    """The word of an entry that says this. Raises BadFields."""
    fields = WordFields(1, *address) if address else WordFields()
    word = u64()
    must(calls.track_entry_pack(fields, word))
    return word.value
