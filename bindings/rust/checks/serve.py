#!/usr/bin/env python3
"""Holds examples/serve.rs to the program: loads of 64 clients at once are recorded, and `replay` of each record tells every answer as
the clients were told it. Then it meets clients that send rubbish, half a line or nothing, or go in the middle of a call.

Usage: bindings/rust/checks/serve.py [--loads N] [--calls N] [--plain]      64 clients make N calls in each load, 16,384 at most.
TRACK names the program, ./track where it isn't set; the two examples are in target/release (cargo build --release --examples).
--plain tells the throughput of a plain map behind one lock, and of the directory without a record, beside it."""
import argparse
import os
import pathlib
import re
import signal
import socket
import subprocess
import sys
import tempfile
import time

HERE = pathlib.Path(__file__).resolve().parent.parent
TOP = HERE.parent.parent
PROGRAM = os.environ.get("TRACK", str(TOP / "track"))
BUILT = pathlib.Path(os.environ.get("CARGO_TARGET_DIR", HERE / "target")) / "release/examples"
NETWORKS = ["examples/networks/nsfnet.txt", "examples/networks/geant.txt", "examples/networks/ring.txt", "examples/networks/grid.txt"]


class Server:
    """A server of its own, on a free port."""

    def __init__(self, network, *words):
        self.process = subprocess.Popen([BUILT / "serve", TOP / network, *words], stdout=subprocess.PIPE, text=True)
        self.port = int(self.process.stdout.readline().split()[1])

    def __enter__(self):
        return self

    def end(self):
        """Ends it by a signal; how it ended."""
        self.process.send_signal(signal.SIGTERM)
        status = self.process.wait(timeout=30)
        self.process.stdout.close()
        return status

    def __exit__(self, *_):
        if self.process.poll() is None:
            self.process.kill()
            self.process.wait()


def nodes_of(network):
    return re.search(r"^nodes (\d+)$", (TOP / network).read_text(), flags=re.M)[1]


def run_load(server, network, calls, seed):
    ran = subprocess.run([BUILT / "load", str(server.port), nodes_of(network), "64", str(calls), str(seed)], capture_output=True, text=True, check=False)
    if ran.returncode:
        sys.exit(f"serve: a load failed: {ran.stderr}")
    words = ran.stdout.split()
    return int(words[1]), int(words[3]), int(words[5]) / 1e6


def without_weights_of_moves(text):
    return re.sub(r"^(move .*) weight \S+ ", r"\1 weight - ", text, flags=re.M)


def play_load(room, network, calls, seed):
    """A load on a server of its own, recorded and replayed; how many calls, how many finds to make again, visits and seconds."""
    record = room / "record.txt"
    with Server(network, "--record", record) as server:
        made, again, seconds = run_load(server, network, calls, seed)
        if server.end() != 0:
            sys.exit("serve: the server didn't end cleanly")
    with open(record, "rb") as given:
        replayed = subprocess.run([PROGRAM, "replay"], stdin=given, stdout=subprocess.PIPE, check=False)
    seen = pathlib.Path(f"{record}.seen").read_text()
    found = without_weights_of_moves(replayed.stdout.decode())
    if replayed.returncode != 0 or found != seen:
        sys.exit(f"serve: the replay of load {seed} on {network} tells another report (status {replayed.returncode})")
    return made, again, int(seen.split()[-1]), seconds


def connect(port):
    return socket.create_connection(("127.0.0.1", port), timeout=20)


def ask(port, text):
    """What comes of these bytes, up to the end of the connection."""
    with connect(port) as client:
        client.sendall(text)
        client.shutdown(socket.SHUT_WR)
        told = b""
        while piece := client.recv(4096):
            told += piece
        return told


# What a client sends, and what it is told.
LINES = [
    (b"new 3\nfind 0 0\n", b"sub 0\nat 3\n"),
    (b"move 0 1\nfind 2 0\nquit\nfind 2 0\n", b"ok\nat 1\n"),
    (b"off 0\nfind 0 0\nmove 0 2\noff 0\non 0\n", b"ok\noff 1\nrefused off\nrefused already\nok\n"),
    (b"find 9999 0\nfind 0 99\nmove 0 1\nnew 9999\n", b"refused node\nrefused subscriber\nrefused place\nrefused node\n"),
    (b"\nfnd 0 0\nfind 0\nfind 0 0 0\nfind -1 0\nfind 99999999999 0\n", b"refused line\n" * 6),
    (b"\xff\xfe\x00\n", b"refused line\n"),
    (b"find 0 0", b"refused line\n"),
    (b"", b""),
    (b"f" * 100000, b"refused line\n"),
]


def wait_for_answer(port):
    """Until clients that went away are gone for the server too: before that it may be full."""
    deadline = time.monotonic() + 20
    while time.monotonic() < deadline:
        try:
            if ask(port, b"find 0 0\n") in (b"at 5\n", b"at 6\n", b"at 1\n"):
                return
        except ConnectionError:
            pass
        time.sleep(0.05)
    sys.exit("serve: after clients that went away the server doesn't answer")


def meet_odd_clients():
    """Lines of all kinds; connections that are silent, broken off, or too many; and the server goes on, and ends by a signal."""
    with Server(NETWORKS[0]) as server:
        for text, wanted in LINES:
            try:
                told = ask(server.port, text)
            except ConnectionError:
                # A server that has left a line unread resets the connection; what it said may be lost by it.
                told = wanted if len(text) > 64 else b"reset"
            if told != wanted:
                sys.exit(f"serve: {text[:40]!r} is told {told!r}, and not {wanted!r}")
        silent = [connect(server.port) for _ in range(40)]
        for _ in range(50):
            with connect(server.port) as client:
                client.sendall(b"move 0 5\nmove 0 6\nfind 1 0\n")
                client.setsockopt(socket.SOL_SOCKET, socket.SO_LINGER, b"\x01\x00\x00\x00\x00\x00\x00\x00")
        wait_for_answer(server.port)
        crowd = [connect(server.port) for _ in range(40)]
        crowd[-1].settimeout(20)
        if crowd[-1].recv(64) != b"refused full\n":
            sys.exit("serve: a connection too many isn't refused")
        if server.end() != 0:
            sys.exit("serve: with silent clients the server doesn't end cleanly")
        for client in silent + crowd:
            client.close()


def compare(calls):
    """Throughput of the directory and of a plain map, in calls a second; the load is one of 64 clients over loopback."""
    for network in NETWORKS:
        rates = []
        for words in ((), ("--plain",)):
            with Server(network, *words) as server:
                made, _, seconds = run_load(server, network, calls, 1)
                server.end()
            rates.append(made / seconds)
        print(f"{network}: directory {rates[0]:,.0f} calls a second, plain map {rates[1]:,.0f}")


def main():
    parser = argparse.ArgumentParser(description=__doc__, formatter_class=argparse.RawDescriptionHelpFormatter)
    parser.add_argument("--loads", type=int, default=4)
    parser.add_argument("--calls", type=int, default=16384)
    parser.add_argument("--plain", action="store_true")
    told = parser.parse_args()
    meet_odd_clients()
    sums = [0, 0, 0, 0.0]
    with tempfile.TemporaryDirectory() as room:
        for seed in range(told.loads):
            load = play_load(pathlib.Path(room), NETWORKS[seed % len(NETWORKS)], told.calls, seed)
            sums = [one + more for one, more in zip(sums, load)]
    if told.plain:
        compare(told.calls)
    print(f"serve: {told.loads} loads of 64 clients, {sums[0]} calls, {sums[1]} finds to make again, {sums[2]} visits in {sums[3]:.1f} seconds: "
          "each replay is what was seen")


if __name__ == "__main__":
    main()
