#!/usr/bin/env python3
"""Compares what the program writes with what scripts/directory.py does, byte for byte: the plans and reports of both covers, of the stored
inputs, of those of examples/networks/ but the largest, and of made inputs with moves, switches, finds and orders.

Usage, at the top of the repository: bench/check_python.py [COUNT [FIRST]]        so many made inputs, of the seeds from FIRST on.
TRACK names the program, ./track where it isn't set."""
import glob
import os
import subprocess
import sys

sys.dont_write_bytecode = True
TOP = os.path.join(os.path.dirname(os.path.realpath(__file__)), "..")
sys.path.insert(0, os.path.join(TOP, "scripts"))
import directory  # noqa: E402
from check_replays import made  # noqa: E402
from program import tried_program  # noqa: E402
from texts import BadText, Fault, ends_clearly, number, read_bytes, read_input  # noqa: E402

PROGRAM = tried_program()


def written(word, text):
    done = subprocess.run([PROGRAM, word], input=text, stdout=subprocess.PIPE, check=False)
    return done.stdout.decode("latin-1")


def compare(name, text):
    """Whether the input is served; ends the script where the two differ."""
    try:
        said = read_input(text)
    except Fault as fault:
        if written("cover", text) != fault.text() + "\n":
            raise BadText(f"{name}: it isn't refused as '{fault.text()}'") from None
        return False
    for before, mean in (("", False), ("mean", True)):
        machine = directory.run_input(said, mean)
        if written(before + "cover", text) != directory.plan_text(machine.setting.plan):
            raise BadText(f"{name}: another plan by {before}cover")
        if written(before + "replay", text) != machine.report():
            raise BadText(f"{name}: another report by {before}replay")
    return True


def main():
    words = sys.argv[1:] or ["20"]
    if len(words) > 2 or None in [number(word) for word in words]:
        raise BadText("the words are COUNT and FIRST, numbers")
    os.chdir(TOP)
    first = int(words[1]) if len(words) == 2 else 1
    inputs = [(path, read_bytes(path)) for path in sorted(glob.glob("examples/*.txt") + glob.glob("examples/networks/*.txt"))]
    inputs += [(f"seed {seed}", made(seed)) for seed in range(first, first + int(words[0]))]
    served = sum(compare(name, text) for name, text in inputs)
    print(f"python: {len(inputs)} inputs, {served} of them served; all plans, reports and refusals equal")


if __name__ == "__main__":
    ends_clearly(main)
