"""The calls of track.h, by ctypes. Calls keep the interpreter's lock, so that no object is used by two threads at once; the
one that can take long, the reading of a network, works on an object that nobody else has yet, and lets others run."""
from __future__ import annotations

import ctypes
import ctypes.util
import os
from pathlib import Path

from .errors import BY_CODE, BadNetwork, Cause

OK, BAD_NETWORK = 0, 5
u32, u64, size_t, boolean = ctypes.c_uint32, ctypes.c_uint64, ctypes.c_size_t, ctypes.c_bool


class Checked:
    """Numbers of a width, of which ctypes would drop what is beyond it."""

    def __init__(self, kind: type, bits: int) -> None:
        self.kind, self.bits = kind, bits

    def from_param(self, value: int):
        if not 0 <= value < 1 << self.bits:
            raise OverflowError(f"{value} isn't a number of {self.bits} bits")
        return self.kind(value)


number, word = Checked(u32, 32), Checked(u64, 64)


def _numbers(names: str) -> list[tuple[str, type]]:
    return [(name, u32) for name in names.split()]


class Handle(ctypes.Structure):
    _fields_ = [("full", boolean), ("at", ctypes.c_void_p)]


class Refusal(ctypes.Structure):
    _fields_ = _numbers("cause line node")


class Sizes(ctypes.Structure):
    _fields_ = _numbers("nodes levels k subs")


class Edge(ctypes.Structure):
    _fields_ = [*_numbers("a b"), ("weight", u64)]


class CellFields(ctypes.Structure):
    _fields_ = _numbers("kind node level cluster sub")


class PutFields(ctypes.Structure):
    _fields_ = [("cell", CellFields), ("word", u64)]


class AnswerFields(ctypes.Structure):
    _fields_ = [*_numbers("kind why node number climbed level"), ("weight", u64)]


class CensusFields(ctypes.Structure):
    _fields_ = [("ticket", u64), ("who", u64), ("count", u32)]


class RoomFields(ctypes.Structure):
    _fields_ = [("looks", u64), ("puts", u64)]


class PlaceFields(ctypes.Structure):
    _fields_ = _numbers("sub node number off")


class WordFields(ctypes.Structure):
    _fields_ = _numbers("kind number node")


_to = ctypes.POINTER
_handle = _to(Handle)
SIGNATURES: dict[str, list] = {
    "track_plan_read": [ctypes.c_char_p, size_t, _handle, _to(Refusal)],
    "track_plan_build": [number, number, _to(Edge), size_t, _handle, _to(Refusal)],
    "track_plan_share": [_handle, _handle],
    "track_plan_sizes": [_handle, _to(Sizes)],
    "track_plan_start": [_handle, number, _to(u32)],
    "track_plan_opening": [_handle, number, number, number, _to(PutFields)],
    "track_plan_room": [_handle, number, _to(RoomFields)],
    "track_finder_new": [_handle, number, number, number, _handle],
    "track_finder_next": [_handle, _to(CellFields)],
    "track_finder_saw": [_handle, word],
    "track_finder_answer": [_handle, _to(AnswerFields)],
    "track_finder_look": [_handle, word, _to(CellFields), _to(AnswerFields)],
    "track_finder_again": [_handle, number, number, number],
    "track_mover_new": [_handle, number, number, _handle],
    "track_mover_move": [_handle, number],
    "track_mover_switch": [_handle, boolean],
    "track_mover_next": [_handle, _to(PutFields)],
    "track_mover_made": [_handle],
    "track_mover_place": [_handle, _to(PlaceFields)],
    "track_mover_length": [_handle, _to(u32)],
    "track_mover_save": [_handle, _to(u64), size_t],
    "track_mover_load": [_handle, _to(u64), size_t, _handle],
    "track_crew_new": [_handle, _to(u32), size_t, number, _handle],
    "track_crew_next": [_handle, _handle, _to(u32)],
    "track_actor_reserve": [_handle, word],
    "track_caller_find": [_handle, number, number, _to(AnswerFields)],
    "track_caller_census": [_handle, number, _to(CensusFields)],
    "track_subscriber_move": [_handle, number],
    "track_subscriber_switch": [_handle, boolean],
    "track_subscriber_step": [_handle, _to(u64)],
    "track_mark_read": [word, _to(WordFields)],
    "track_mark_pack": [_to(WordFields), _to(u64)],
    "track_entry_read": [word, _to(WordFields)],
    "track_entry_pack": [_to(WordFields), _to(u64)],
    "track_close": [_handle],
}


def _find() -> str:
    beside = Path(__file__).with_name("libtrack.so")
    named = os.environ.get("TRACK_LIBRARY") or (str(beside) if beside.exists() else ctypes.util.find_library("track"))
    if not named:
        raise ImportError("there is no libtrack.so in the package, and TRACK_LIBRARY names none (bindings/build makes it)")
    return named


def _declare(library: ctypes.CDLL) -> ctypes.CDLL:
    for name, arguments in SIGNATURES.items():
        function = getattr(library, name)
        function.argtypes, function.restype = arguments, u32
    return library


_found = _find()
calls = _declare(ctypes.PyDLL(_found))
long_calls = _declare(ctypes.CDLL(_found))


def must(code: int) -> None:
    """Raises what a code says, where it isn't that all is well."""
    if code != OK:
        raise BY_CODE[code](BY_CODE[code].__doc__)


def must_read(code: int, refusal: Refusal) -> None:
    """The same of a call that reads a network."""
    if code == BAD_NETWORK:
        raise BadNetwork(Cause(refusal.cause), refusal.line, refusal.node)
    must(code)


class Owner:
    """An object of the library: closed at the end of a `with`, by `close`, or once nobody has it."""

    def __init__(self) -> None:
        self._handle = Handle()

    def close(self) -> None:
        """Frees the object. To close it again is nothing."""
        if self._handle.full:
            must(calls.track_close(self._handle))

    def __enter__(self):
        return self

    def __exit__(self, *_: object) -> None:
        self.close()

    def __del__(self) -> None:
        if getattr(self, "_handle", None) is not None:
            self.close()
