#!/usr/bin/env python3
"""Compares what the program's word `costs` writes with what scripts/directory.py makes of each move, byte for byte: the stored inputs,
those of examples/networks/ but the largest, and made inputs with moves, switches, finds and orders.

Usage, at the top of the repository: bench/check_costs.py [COUNT [FIRST]]        so many made inputs, of the seeds from FIRST on.
TRACK names the program, ./track where it isn't set."""
import glob
import os
import subprocess
import sys

sys.dont_write_bytecode = True
TOP = os.path.join(os.path.dirname(os.path.realpath(__file__)), "..")
sys.path.insert(0, os.path.join(TOP, "scripts"))
import directory  # noqa: E402
from check_replays import made  # noqa: E402
from program import tried_program  # noqa: E402
from texts import BadText, Fault, ends_clearly, number, read_bytes, read_input  # noqa: E402

PROGRAM = tried_program()


def weight_of(setting, put, to):
    """What a put weighs, by a subscriber that goes to a node."""
    if put.kind == "presence":
        return 2 * setting.network.distance(put.place, to) if put.word[0] == "Gone" else 0
    level, cluster = put.place
    if put.word is None:
        return 2 * setting.network.distance(to, setting.leader(level, cluster))
    return 2 * setting.inside[level][cluster][put.word[1]]


def line_of(setting, sub, home, script):
    """The line of a subscriber, held to the bounds of the plan."""
    course = directory.Course(setting, home)
    moves = moved = written = purged = 0
    for call in script:
        if call.word != "move":
            continue
        puts, weight = course.move(call.node)
        moves, moved = moves + 1, moved + weight
        written += sum(weight_of(setting, put, call.node) for put in puts)
        purged += sum(put.word == ("Empty",) for put in puts)
    if written > (16 * (2 * setting.plan.k - 1) + 4) * (setting.top + 1) * moved or purged > moves:
        raise BadText(f"subscriber {sub} is past a bound")
    return f"cost {sub} moves {moves} moved {moved} written {written} purged {purged}\n"


def costs_of(said):
    """The text that `costs` writes."""
    machine = directory.run_input(said)
    scripts = said.scripts()
    lines = [line_of(machine.setting, sub, home, scripts[sub]) for sub, home in enumerate(said.homes)]
    return "".join(lines) + "end\n"


def compare(name, text):
    """Whether the input is served; ends the script where the two differ."""
    done = subprocess.run([PROGRAM, "costs"], input=text, stdout=subprocess.PIPE, check=False)
    try:
        wanted, served = costs_of(read_input(text)), True
    except Fault as fault:
        wanted, served = fault.text() + "\n", False
    if done.stdout.decode("latin-1") != wanted:
        raise BadText(f"{name}: the program tells other costs")
    return served


def main():
    words = sys.argv[1:] or ["20"]
    if len(words) > 2 or None in [number(word) for word in words]:
        raise BadText("the words are COUNT and FIRST, numbers")
    os.chdir(TOP)
    first = int(words[1]) if len(words) == 2 else 1
    inputs = [(path, read_bytes(path)) for path in sorted(glob.glob("examples/*.txt") + glob.glob("examples/networks/*.txt"))]
    inputs += [(f"seed {seed}", made(seed)) for seed in range(first, first + int(words[0]))]
    served = sum(compare(name, text) for name, text in inputs)
    print(f"costs: {len(inputs)} inputs, {served} of them served; all texts equal, and within the bounds")


if __name__ == "__main__":
    ends_clearly(main)
