"""The plan of a network: its levels, clusters and homes."""
from __future__ import annotations

from typing import Iterable, Iterator, NamedTuple, Union

from ._library import Edge, Owner, PutFields, Refusal, RoomFields, Sizes, calls, long_calls, must, must_read, u32
from .cells import Put, put_of


def _checked(value: int, bits: int) -> int:
    if not 0 <= value < 1 << bits:
        raise OverflowError(f"{value} isn't a number of {bits} bits")
    return value


class Room(NamedTuple):
    """No find from a node has more looks, and no move more puts."""

    looks: int
    puts: int


class Plan(Owner):
    """A plan. `nodes`, `levels`, `k`, and `subs`, how many subscribers its text says."""

    def __init__(self) -> None:
        super().__init__()
        self.nodes = self.levels = self.k = self.subs = 0

    @classmethod
    def read(cls, text: Union[str, bytes]) -> Plan:
        """The plan of the network that a text says (docs/FORMATS.md). Raises BadNetwork, NoMemory."""
        plan, refusal = cls(), Refusal()
        given = text.encode() if isinstance(text, str) else bytes(text)
        must_read(long_calls.track_plan_read(given, len(given), plan._handle, refusal), refusal)
        return plan._measured()

    @classmethod
    def build(cls, nodes: int, k: int, edges: Iterable[tuple[int, int, int]]) -> Plan:
        """The plan of a network of so many nodes with edges (A, B, WEIGHT), within the limits of texts. Raises BadNetwork, whose line
        is the place of an edge from 1 on; NoMemory; OverflowError, where a number has more than its 32 or 64 bits."""
        plan, refusal = cls(), Refusal()
        given = [Edge(*map(_checked, edge, (32, 32, 64))) for edge in edges]
        array = (Edge * len(given))(*given)
        must_read(long_calls.track_plan_build(nodes, k, array, len(given), plan._handle, refusal), refusal)
        return plan._measured()

    def share(self) -> Plan:
        """One more object for the same plan, for another thread. Raises NoMemory."""
        other = Plan()
        must(calls.track_plan_share(self._handle, other._handle))
        return other._measured()

    def _measured(self) -> Plan:
        sizes = Sizes()
        must(calls.track_plan_sizes(self._handle, sizes))
        self.nodes, self.levels, self.k, self.subs = sizes.nodes, sizes.levels, sizes.k, sizes.subs
        return self

    def start(self, sub: int) -> int:
        """Where a subscriber of the plan's text starts. Raises NoSubscriber."""
        node = u32()
        must(calls.track_plan_start(self._handle, sub, node))
        return node.value

    def room(self, node: int) -> Room:
        """How many visits a find from a node may make, and how many a move. Raises NoNode."""
        room = RoomFields()
        must(calls.track_plan_room(self._handle, node, room))
        return Room(room.looks, room.puts)

    def opening(self, sub: int, node: int) -> Iterator[Put]:
        """The cells of a new subscriber at its start node that aren't 0. Write them, in any order, before its first find or move.
        Raises NoNode."""
        put = PutFields()
        for index in range(1 + self.levels):
            must(calls.track_plan_opening(self._handle, sub, node, index, put))
            yield put_of(put)
