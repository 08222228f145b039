"""The finder in Rust (bindings/rust/examples/find_in_redis.rs), over a directory whose subscribers move in the meantime."""
import os
import pathlib
import random
import subprocess
import threading

from checks.handsets import directories, must

TOP = pathlib.Path(__file__).resolve().parents[3]
BUILT = pathlib.Path(os.environ.get("CARGO_TARGET_DIR", TOP / "bindings/rust/target")) / "release/examples/find_in_redis"
NETWORK = TOP / "examples/networks/nsfnet.txt"
THREADS = 8


class LeftOut(Exception):
    """A part that can't be played here, and why."""


class Moves(threading.Thread):
    """Moves handsets in turn, until it is ended."""

    def __init__(self, handsets, nodes):
        super().__init__()
        self.handsets, self.nodes, self.ending, self.made = handsets, nodes, threading.Event(), 0

    def run(self):
        while not self.ending.is_set():
            handset = random.choice(self.handsets)
            handset.move((handset.place.node + random.randrange(1, self.nodes)) % self.nodes)
            self.made += 1


def find_all(description, subs, finds):
    """What the Rust program counts, by name."""
    servers = [f"{it['address']}={it['generation']}" for it in description["servers"]]
    words = [BUILT, NETWORK, description["name"], str(subs), str(THREADS), str(finds), *servers]
    ran = subprocess.run(words, stdout=subprocess.PIPE, text=True, check=True).stdout.split()
    return dict(zip(ran[::2], map(int, ran[1::2])))


def check(servers, text, plan, finds):
    if not BUILT.exists():
        raise LeftOut("the finder in Rust isn't built: cargo build --release --examples")
    first, _ = directories(servers, plan, text, "x")
    handsets = [first.join(node) for node in range(6)]
    handsets[5].leave()
    description = {"name": "x", "servers": [{"address": it.address, "generation": it.generation} for it in first.store.servers]}
    still = find_all(description, 8, finds)
    must(still["again"] == 0 and all(still[word] > 0 for word in ("on", "off", "unknown")), f"at rest Rust finds {still}")
    moves = Moves(handsets[:5], plan.nodes)
    moves.start()
    told = find_all(description, 6, finds)
    moves.ending.set()
    moves.join()
    must(told["on"] + told["off"] == THREADS * finds, f"{THREADS * finds} finds were made in Rust, and {told} answered")
    rate = THREADS * finds / (told["micros"] / 1e6)
    return (f"in Rust {THREADS * finds} finds of {THREADS} threads during {moves.made} moves: {rate:,.0f} a second, "
            f"{told['median'] / 1000:.2f} ms in the median, {told['again']} to make again")
