"""The commands of the README, as somebody types them."""
import json
import os
import pathlib
import re
import subprocess
import sys

from checks.handsets import must

HERE = pathlib.Path(__file__).resolve().parent.parent
# What is called, and what it answers.
CALLS = [
    ("new 3", "sub 0"), ("find 8 0", "at 3"), ("move 0 5", "ok"), ("find 8 0", "at 5"), ("off 0", "ok"), ("find 8 0", "off 5"),
    ("find 8 7", "unknown"), ("move 0 1", "refused IsOff"), ("on 0", "ok"), ("move 0 5", "refused SamePlace"),
    ("move 7 1", "refused NoHandset"), ("new 99", "refused NoNode"), ("find 99 0", "refused NoNode"),
]


def call(*words):
    ran = subprocess.run([HERE / "call", *words], stdout=subprocess.PIPE, stderr=subprocess.DEVNULL, text=True, check=False)
    return ran.stdout.strip()


def run_program(room):
    """The program of the README, in the folder of its directory.json; what it prints."""
    lines = re.search(r"^    import json, live\n(?:^    .*\n)+", (HERE / "README.md").read_text(encoding="utf-8"), flags=re.M)[0]
    text = re.sub(r"^    ", "", lines, flags=re.M)
    paths = os.environ | {"PYTHONPATH": os.pathsep.join(map(str, (HERE, HERE.parent.parent / "bindings/python/src")))}
    ran = subprocess.run([sys.executable, "-c", text], cwd=room, env=paths, stdout=subprocess.PIPE, text=True, check=False)
    return ran.stdout


def check(servers, room):
    network = HERE.parent / "networks/nsfnet.txt"
    said = call("set-up", servers.word, network, *servers.addresses)
    must(json.loads(said)["store"] == servers.word, "set-up says nothing")
    must(call("set-up", servers.word, network, *servers.addresses) == "refused Occupied", "a directory is set up over another")
    path = pathlib.Path(room, "directory.json")
    path.write_text(said, encoding="utf-8")
    for words, wanted in CALLS:
        found = call(path, *words.split())
        must(found == wanted, f"{words} answers {found!r}, and not {wanted!r}")
    said = run_program(room)
    must(said.count("Found(node=12, number=1") == 2 and "'found': 2" in said, f"the program of the README prints {said!r}")
    return f"the program and {len(CALLS)} commands answer what they should"
