"""The parts of the check, for each store in a short form and a long one."""
import os
import pathlib
import statistics
import sys
import time

import track

import stores
from checks import commands, handsets, outages, records, rust, schedules
from checks.loads import Crew, Faults
from checks.actors import Load
from checks.plants import PLANTS
from checks.servers import Servers

TOP = pathlib.Path(__file__).resolve().parents[3]
NETWORKS = ["nsfnet", "geant", "ring", "grid"]
FEW = {"movers": 8, "callers": 8, "lives": 1}
# Of each part and store: how many loads, and what they are like; first the short form.
SIZES = {
    ("a", "redis"): (dict(loads=1, steps=4, finds=20, **FEW), dict(loads=20, steps=9, finds=100)),
    ("b", "redis"): (dict(loads=1, steps=3, finds=8, mortal=0.05, **FEW), dict(loads=5, steps=10, finds=60, mortal=0.03)),
    ("c", "redis"): (dict(loads=1, steps=3, finds=8, faults=2, **FEW), dict(loads=4, steps=20, finds=120, faults=14, mortal=0.01)),
    ("a", "etcd"): (dict(loads=1, steps=1, finds=3, **FEW), dict(loads=1, steps=20, finds=200)),
    ("b", "etcd"): (dict(loads=1, steps=1, finds=3, mortal=0.1, **FEW), dict(loads=1, steps=10, finds=100, mortal=0.03)),
    ("c", "etcd"): (dict(loads=1, steps=1, finds=6, faults=2, **FEW), dict(loads=8, steps=25, finds=300, faults=26, mortal=0.003)),
}


class Networks:
    """Texts and plans, each read once."""

    def __init__(self):
        self.read = {}

    def __getitem__(self, name):
        if name not in self.read:
            text = (TOP / f"examples/networks/{name}.txt").read_text(encoding="utf-8")
            self.read[name] = (text, track.Plan.read(text))
        return self.read[name]


def play_load(servers, plans, room, name, number, sizes):
    """One load, over a directory of its own; what came of it."""
    text, plan = plans[NETWORKS[number % len(NETWORKS)]]
    folder = os.path.join(room, f"{name}{number}")
    os.mkdir(folder)
    description = stores.set_up(servers.word, servers.addresses, text, f"{name}{number}")
    sizes = dict(sizes)
    faults = Faults(servers, sizes.pop("faults", 0), 1.0)
    load = Load(description, plan, folder, f"{name} {number}", timeout=faults.timeout, **sizes)
    crew = Crew(load)
    with faults:
        crew.play()
    return records.compare(load), crew, faults


def play_loads(servers, room, plans, part, sizes):
    sizes, begun = dict(sizes), time.monotonic()
    played = [play_load(servers, plans, room, part, number, sizes) for number in range(sizes.pop("loads"))]
    told, crews, faults = zip(*played)
    if sizes.get("mortal") and not any(it.kills for it in crews) or sizes.get("faults") and not any(it.kills for it in faults):
        raise records.Differs("nothing was killed: the loads are too short")
    said = f"{sum(it.visits for it in told)} visits of {sum(it.calls for it in told)} calls in {len(told)} loads"
    said += f", {sum(it.again for it in told)} finds to make again, {sum(it.unknown for it in told)} too early"
    said += f", {sum(it.changes for it in told)} changes of the actor"
    for many, words in ((sum(it.kills for it in crews), "movers killed"), (sum(it.lost for it in crews), "second movers refused"),
                        (sum(it.kills for it in faults), "servers killed"), (sum(it.holds for it in faults), "held up"),
                        (sum(it.failed for it in told), "looks failed and made again")):
        said += f", {many} {words}" if many else ""
    look, put = (1000 * statistics.median(times) for times in zip(*((it.look, it.put) for it in told)))
    said += f", {time.monotonic() - begun:.0f} seconds, a look {look:.1f} ms and a put {put:.1f} ms in the median"
    print(f"store: {servers.word} ({part}): {said}: each replay is what was seen", flush=True)


def check_plants(servers, room, plans):
    """Each planted fault has to be found."""
    for plant in PLANTS:
        try:
            play_load(servers, plans, room, plant.__name__, 0, dict(steps=3, finds=15, plant=plant, **FEW))
        except records.Differs:
            continue
        raise records.Differs(f"a store that is {plant.__name__.lower()} passes")
    return f"{len(PLANTS)} faults that were planted into the store are found"


# The parts that aren't loads: what they tell, given the servers, a folder, the networks, and whether the form is the short one.
OTHERS = {
    "h": lambda servers, room, plans, is_short: handsets.check(servers, *plans["nsfnet"]),
    "e": lambda servers, room, plans, is_short: handsets.check_cells(servers, *plans["nsfnet"]),
    "d": lambda servers, room, plans, is_short: outages.check_lost_data(servers, *plans["nsfnet"]),
    "m": lambda servers, room, plans, is_short: outages.check_majority(servers, *plans["nsfnet"]),
    "p": lambda servers, room, plans, is_short: check_plants(servers, room, plans),
    "r": lambda servers, room, plans, is_short: commands.check(servers, room),
    "s": lambda servers, room, plans, is_short: schedules.check(servers, *plans["nsfnet"], SCHEDULES[servers.word][not is_short]),
    "x": lambda servers, room, plans, is_short: rust.check(servers, *plans["nsfnet"], 200 if is_short else 5000),
}
SCHEDULES = {"redis": (15, 1000), "etcd": (3, 100)}
ALL = {"redis": "rhsxpabedc", "etcd": "rhsabemc"}
# The commands are the same over each store; the short form tries them over one.
SHORT = {"redis": "rhsxpabedc", "etcd": "hsabemc"}


def play_part(servers, room, plans, letter, is_short):
    """Whether the part could be played here; exits where it fails."""
    folder = os.path.join(room, letter)
    os.mkdir(folder)
    try:
        if letter in OTHERS:
            print(f"store: {servers.word} ({letter}): {OTHERS[letter](servers, folder, plans, is_short)}", flush=True)
        else:
            play_loads(servers, folder, plans, letter, SIZES[letter, servers.word][not is_short])
    except records.Differs as differs:
        sys.exit(f"store: {servers.word} ({letter}): {differs}")
    except rust.LeftOut as why:
        print(f"store: {servers.word} ({letter}): left out, since {why}", flush=True)
        return False
    return True


def run(word, room, is_short, wanted):
    """Runs the parts over a store, and gives the letters of those that were left out; exits where one fails. Redis servers that
    are killed have a journal, and are others."""
    plans = Networks()
    letters = [letter for letter in ALL[word] if letter in (wanted or (SHORT if is_short else ALL)[word])]
    left_out = []
    for has_journal in (False, True):
        some = [letter for letter in letters if (word == "redis" and letter == "c") == has_journal]
        if some:
            with Servers(word, os.path.join(room, f"servers{has_journal:d}"), has_journal=has_journal) as servers:
                left_out += [letter for letter in some if not play_part(servers, room, plans, letter, is_short)]
    return left_out
