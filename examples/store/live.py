"""The directory over a store: subscribers come, move, switch and leave, and are found, from any number of processes. What is
written next, where a find looks next and what it answers is the library's; this module carries its visits to a store, one after
another."""
from __future__ import annotations

import secrets
import time
from typing import Callable, NamedTuple, Optional, TypeVar, Union

import track

import stores
from counts import Counts
from stores import BadCell, NoHandset, State, Store, StoreError, Superseded, Ticket, Unreachable

T = TypeVar("T")


class Unknown(NamedTuple):
    """There is no subscriber of this number, or its opening hasn't come to its end."""

    sub: int


Answer = Union[track.Found, track.Again, Unknown]


class NotAnswered(StoreError):
    """A find had no answer within its limits; `last` is the answer of the last try, None where none came to its end."""

    def __init__(self, tries: int, last: Optional[Answer], cause: Optional[StoreError]) -> None:
        super().__init__(f"no answer after {tries} tries: {cause or last}")
        self.tries, self.last = tries, last


class Watcher:
    """Is told of each visit that was answered; this one does nothing with it."""

    def looked(self, cell: track.Cell, word: int, ticket: Ticket) -> None:
        pass

    def put(self, put: track.Put, state: State, ticket: Ticket) -> None:
        pass


class Directory:
    """A process's hold on a directory: one thread uses it at a time. A request that isn't answered is made again for `patience`
    seconds, with `pause` between; then the call raises Unreachable, and can be gone on with."""

    def __init__(
        self, plan: track.Plan, store: Store, patience: float = 5.0, pause: float = 0.02, watcher: Watcher = Watcher()
    ) -> None:
        self.plan, self.store, self.patience, self.pause, self.watcher = plan, store, patience, pause, watcher
        self.counts = Counts()
        self._open: set[int] = set()

    @classmethod
    def connect(cls, description: dict, timeout: float = 1.0, patience: float = 5.0) -> Directory:
        """A directory by its description (stores.set_up)."""
        return cls(track.Plan.read(description["network"]), stores.connect(description, timeout), patience)

    def close(self) -> None:
        self.store.close()

    def __enter__(self) -> Directory:
        return self

    def __exit__(self, *_: object) -> None:
        self.close()

    def asked(self, request: Callable[[], T]) -> T:
        """What a request answers, which is made again while no answer comes and patience lasts."""
        end = time.monotonic() + self.patience
        while True:
            try:
                return request()
            except StoreError as cause:
                self.counts.events[type(cause).__name__] += 1
                if not isinstance(cause, Unreachable) or time.monotonic() + self.pause > end:
                    raise
            time.sleep(self.pause)

    def join(self, node: int) -> Handset:
        """A new subscriber at a node. Raises track.NoNode; NoData, Unreachable: the number is then nobody's, and finds of it answer
        Unknown."""
        list(self.plan.opening(0, node))
        sub = self.asked(self.store.draw_number)
        mover = track.Mover(self.plan, sub, node)
        state = State(1, 0, (0, *mover.save()))
        self.asked(lambda: self.store.open(sub, self.plan.opening(sub, node), state))
        self._open.add(sub)
        return Handset(self, mover, state, None)

    def take_over(self, sub: int) -> Handset:
        """The handset of a subscriber whose process is gone, or has to go: it goes on from the last put that was made, and the
        other one's next put raises Superseded. Every server is asked. Raises NoHandset, where no such subscriber is open; NoData,
        Unreachable; Superseded, where somebody else takes it over at the same time."""
        if not self.is_open(sub):
            raise NoHandset(f"there is no subscriber {sub}")
        holder = secrets.token_hex(8)
        epoch = self.asked(lambda: self.store.highest_epoch(sub)) + 1
        held = self.asked(lambda: self.store.raise_epoch(sub, epoch, holder))
        return Handset(self, track.Mover.load(self.plan, list(held.state.words[1:])), held.state, held.ticket)

    def find(self, start: int, sub: int) -> Answer:
        """Looks for a subscriber from a node, once. Raises track.NoNode; Unreachable, NoData, BadCell (see Find)."""
        return Find(self, start, sub).run()

    def find_until_answered(self, start: int, sub: int, tries: int = 100, seconds: float = 30.0) -> Union[track.Found, Unknown]:
        """Looks for a subscriber until it is found, going on after Again and after a look that failed. Raises track.NoNode;
        NotAnswered after so many finds and failed looks, or so many seconds."""
        end, made, last, cause = time.monotonic() + seconds, 0, None, None
        find = Find(self, start, sub)
        while made < tries and time.monotonic() < end:
            made += 1
            try:
                last, cause = find.run(), None
            except StoreError as failed:
                cause = failed
                time.sleep(min(self.pause, max(0.0, end - time.monotonic())))
                continue
            if not isinstance(last, track.Again):
                return last
            find = Find(self, start, sub)
        raise NotAnswered(made, last, cause) from cause

    def is_open(self, sub: int) -> bool:
        """Whether a subscriber is there. Whoever was once is: a number is never used again."""
        if sub not in self._open and self.asked(lambda: self.store.is_open(sub)):
            self._open.add(sub)
        return sub in self._open


class Find:
    """A find of a subscriber from a node. Raises track.NoNode."""

    def __init__(self, directory: Directory, start: int, sub: int) -> None:
        self.directory, self.sub = directory, sub
        self._finder = track.Finder(directory.plan, start, sub)
        self._begun = time.monotonic()

    def run(self) -> Answer:
        """Makes the looks that are left, and answers. After Unreachable, NoData or BadCell (a cell holds a word that nothing
        packs to) it can be run again: it looks at the same cell again."""
        directory, counts = self.directory, self.directory.counts
        if not directory.is_open(self.sub):
            counts.events["unknown"] += 1
            return Unknown(self.sub)
        while (cell := self._finder.next()) is not None:
            self._look(cell)
        answer = self._finder.answer()
        if isinstance(answer, track.Again):
            counts.events[f"again {answer.why.name.lower()}"] += 1
        else:
            counts.events["off" if answer.off else "found"] += 1
        counts.finds.add(time.monotonic() - self._begun)
        return answer

    def _look(self, cell: track.Cell) -> None:
        directory = self.directory
        with directory.counts.timed(directory.counts.looks):
            word, ticket = directory.asked(lambda: directory.store.look(cell))
        try:
            self._finder.saw(word)
        except track.BadWord:
            directory.counts.events["BadCell"] += 1
            raise BadCell(f"{cell} holds {word}, which nothing packs to") from None
        directory.watcher.looked(cell, word, ticket)


class Handset:
    """The one handset of a subscriber. A put is taken off the mover, and sent with the state after it until it is answered: so
    the latest state that the store holds is that of the puts that were made, no more and no less."""

    def __init__(self, directory: Directory, mover: track.Mover, state: State, ticket: Ticket) -> None:
        self.directory, self.latest, self.ticket = directory, state, ticket
        self._mover, self._waiting = mover, None
        self._calls, self._over = state.words[0], False

    @property
    def place(self) -> track.Place:
        """Where the subscriber stands."""
        return self._mover.place

    @property
    def sub(self) -> int:
        return self.place.sub

    @property
    def calls(self) -> int:
        """How many moves and switches were begun, the one under way with them: so a program that goes on after a crash knows
        which of its calls are left, once `finish` has ended the last."""
        return self._calls

    def move(self, to: int) -> None:
        """Moves to a node. Raises track.NoNode, SamePlace, IsOff, NumbersSpent: nothing is begun; Superseded, NoData: this
        handset is at its end, or can't go on; Unreachable: the move is under way, and the next call, or `finish`, goes on with
        it."""
        self._step(lambda: self._mover.move(to))

    def switch(self, off: bool) -> None:
        """Switches the subscriber off, or on. Raises track.Already: nothing is begun; else as `move`."""
        self._step(lambda: self._mover.switch(off))

    def leave(self) -> None:
        """Switches the subscriber off where it is on. Its number isn't used again."""
        self.finish()
        if not self.place.off:
            self.switch(True)

    def finish(self) -> None:
        """Ends what is under way, if something is."""
        if self._over:
            raise Superseded(f"the handset of {self.sub} is held by a later process")
        while self._waiting or self._mover.next():
            self._put()

    def _step(self, begin: Callable[[], None]) -> None:
        self.finish()
        counts = self.directory.counts
        with counts.timed(counts.steps):
            begin()
            self._calls += 1
            self.finish()

    def _put(self) -> None:
        """Makes the put that waits for its answer, or takes the next one."""
        if self._waiting is None:
            put = self._mover.next()
            self._mover.made()
            self._waiting = (put, State(self.latest.epoch, self.latest.step + 1, (self._calls, *self._mover.save())))
        put, state = self._waiting
        directory = self.directory
        try:
            with directory.counts.timed(directory.counts.puts):
                self.ticket = directory.asked(lambda: directory.store.put(put, self.sub, state))
        except Superseded:
            self._over = True
            raise
        self.latest, self._waiting = state, None
        directory.watcher.put(put, state, self.ticket)
