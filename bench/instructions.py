#!/usr/bin/env python3
"""Counts the instructions of standard runs (valgrind --tool=callgrind) and compares them with those that
bench/instructions.txt keeps, so that work that is thrown away is seen: no clause speaks of it. A count of one binary repeats to
within one in a thousand, that of threads too where one alone makes visits; a run fails here that takes more than three in a
hundred more than is kept. One that takes five in a hundred less fails too: it may do less than is wanted, as where no thread
plays, and what was won is lost unseen until it is kept. A run of which no number is kept yet is counted, told, and fails nothing.
Where valgrind is missing nothing is counted: it says that it was skipped, and ends with status 77, which is neither that of a
pass nor that of a failure.

Usage, at the top of the repository: bench/instructions.py [--keep]        With --keep it writes the numbers anew, once a change
has been found to be worth them. It runs crates/track_main/out/track_main, or the program that the variable TRACK names."""
import os
import re
import shutil
import subprocess
import sys

sys.dont_write_bytecode = True
sys.path.insert(0, os.path.join(os.path.dirname(os.path.realpath(__file__)), "../scripts"))
from networks import edges, text  # noqa: E402
from program import PROVED, tried_program  # noqa: E402

OURS = tried_program(PROVED)
KEPT = "bench/instructions.txt"
MOST, LEAST = 1.03, 0.95
MOST_BYTES = 4194304
SKIPPED = 77


def wide():
    """A line of 256 nodes with heavy edges: as many levels as a network of so many nodes may have."""
    return text(256, 2, edges("path", 256, 1048576)).encode()


def commented():
    """A line of four nodes behind comments, in as many bytes as an input may have."""
    given = text(4, 2, edges("path", 4, 1)).encode()
    line = b"# plain words that say nothing, and are read to the line's end\n"
    return line * ((MOST_BYTES - len(given)) // len(line)) + given


def make(words):
    """The input that `make` makes of these numbers."""
    return subprocess.run([OURS, "make", *words.split()], stdout=subprocess.PIPE, check=True).stdout


def nothing():
    """What words read that make an input."""
    return b""


# The load of most runs.
LOAD = "42 256 4 64 64 8192"


def busy():
    """A made input of 256 nodes with 8,192 calls."""
    return make(LOAD)


def ended():
    """That input with a carriage return at the end of each line."""
    return busy().replace(b"\n", b"\r\n")


def largest():
    """A made input of 1,024 nodes with 16,384 calls."""
    return make("7 1024 3 64 64 16384")


def answered(word):
    """What a word answers to the made input of 256 nodes."""
    return subprocess.run([OURS, word], input=busy(), stdout=subprocess.PIPE, check=True).stdout


def judged():
    """That input, and the report that its replay writes."""
    return busy() + b"report\n" + answered("replay")


def listed():
    """That input as JSON."""
    return answered("tojson")


def moving():
    """A made input of 64 nodes, where one subscriber makes 2,000 moves and nobody looks for it."""
    return make("5 64 2 1 0 2000")


def moving_far():
    """A made input of 256 nodes, where one subscriber makes 40 moves: most of a run is the plan and its distances."""
    return make("5 256 4 1 0 40")


def sought():
    """A grid of 64 nodes, where one caller makes 2,000 finds, from each node in turn, of a subscriber that stays."""
    calls = "".join(f"find 1 {call % 64} 0\n" for call in range(2000))
    return (text(64, 2, edges("grid", 64, 3)).replace("callers 0", "callers 1") + calls).encode()


RUNS = [
    ("cover of a line of 256 nodes", "cover", wide),
    ("cover of a made input", "cover", busy),
    ("replay of a made input", "replay", busy),
    ("census of a made input", "census", busy),
    ("check of a made input", "check", judged),
    ("cover of four nodes behind comments", "cover", commented),
    ("replay of a made input of 1,024 nodes", "replay", largest),
    ("cover of a made input by mean covers", "meancover", busy),
    ("costs of a made input", "costs", busy),
    ("a made input as JSON", "tojson", busy),
    ("a made input from JSON", "fromjson", listed),
    ("report of a made input as JSON", "replayjson", busy),
    ("moves of one subscriber in its thread", "run", moving),
    ("finds of one caller in its thread", "run", sought),
    ("a made input", f"make {LOAD}", nothing),
    ("the sums of a made input's replay", f"trial {LOAD}", nothing),
    ("replay of a made input by mean covers", "meanreplay", busy),
    ("census of a made input with carriage returns", "census", ended),
    ("few moves over 256 nodes in a thread", "run", moving_far),
]


def count(command, given):
    """The instructions of one run."""
    words = ["valgrind", "--tool=callgrind", "--callgrind-out-file=/dev/null", OURS, *command.split()]
    ran = subprocess.run(words, input=given, stdout=subprocess.DEVNULL, stderr=subprocess.PIPE, check=True)
    return int(re.search(rb"Collected : (\d+)", ran.stderr).group(1))


def kept():
    """The numbers that are kept, by the run's name."""
    with open(KEPT, encoding="utf-8") as lines:
        return {name: int(number) for number, name in (line.rstrip("\n").split(" ", 1) for line in lines)}


def main():
    if not shutil.which("valgrind"):
        print("bench/instructions.py: skipped, there is no valgrind here")
        return SKIPPED
    counted = [(name, count(command, given())) for name, command, given in RUNS]
    if sys.argv[1:] == ["--keep"]:
        with open(KEPT, "w", encoding="utf-8") as file:
            file.writelines(f"{number} {name}\n" for name, number in counted)
        return 0
    wanted = kept()
    beyond = [name for name, number in counted if name in wanted and number > MOST * wanted[name]]
    below = [name for name, number in counted if name in wanted and number < LEAST * wanted[name]]
    for name, number in counted:
        beside = f"{number / wanted[name]:.3f} of those that are kept" if name in wanted else "and none are kept yet"
        print(f"{name}: {number:,} instructions, {beside}")
    for name in beyond:
        print(f"bench/instructions.py: {name} takes more than {MOST} times what is kept", file=sys.stderr)
    for name in below:
        print(f"bench/instructions.py: {name} takes less than {LEAST} times what is kept: see why, and keep it", file=sys.stderr)
    return 1 if beyond or below else 0


if __name__ == "__main__":
    sys.exit(main())
