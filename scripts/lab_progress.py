"""What the lab says on standard error while it works, and at an end by Ctrl-C."""
from __future__ import annotations

import sys
import time


class Progress:
    """Says on standard error what is done, once a second has passed; and what was done at an end by Ctrl-C."""

    def __init__(self):
        self.began = self.told = time.monotonic()
        self.ready: list[str] = []
        self.doing, self.done, self.of = "reading the network", 0, 0
        self.screen, self.open_line = sys.stderr.isatty(), False
        self.left = "nothing was written"

    def begin(self, doing: str, of: int = 0, is_long: bool = False) -> None:
        """What comes next; where it is known to be long and has no steps, it is said at once."""
        self.doing, self.done, self.of = doing, 0, of
        self.say(is_long)

    def step(self) -> None:
        self.done += 1
        if self.done % 256 == 0:
            self.say()

    def finish(self) -> None:
        self.ready.append(self.doing)

    def words(self) -> str:
        return self.doing + (f", {self.done:,} of {self.of:,} calls" if self.of else "")

    def say(self, at_once: bool = False) -> None:
        now = time.monotonic()
        if not at_once and (now - self.began < 1 or now - self.told < (0.2 if self.screen else 5)):
            return
        self.told = now
        if self.screen:
            print(f"\r\x1b[Klab: {self.words()}", end="", file=sys.stderr, flush=True)
            self.open_line = True
        else:
            print(f"lab: {self.words()}", file=sys.stderr, flush=True)

    def close(self) -> None:
        if self.open_line:
            print("\r\x1b[K", end="", file=sys.stderr, flush=True)
            self.open_line = False

    def stopped(self) -> str:
        whole = ", ".join(self.ready) if self.ready else "nothing"
        return f"lab: stopped; under way: {self.words()}; done: {whole}; {self.left}"
