#!/usr/bin/env python3
"""Tells how far `./track prove` is: how many crates are proved, which ones are being proved, and a guess of what is left by the times
of docs/PROVING. Usage: checks/progress.py ROOM PROVING SECONDS, where ROOM holds the crates, and the log of `rt ci` in .git/log, PROVING
is that page, and SECONDS have gone since it began."""
import os
import pathlib
import re
import sys

# The seconds of a crate that the page doesn't tell yet.
UNTOLD = 30


def listed(text):
    """The crates that each crate of crates.txt stands on; those of the kit aren't told."""
    lines = [line.partition(":") for line in text.splitlines() if re.match("[a-z]", line)]
    names = {name.split()[0] for name, _, _ in lines}
    return {name.split()[0]: [it for it in below.split() if it in names] for name, _, below in lines}


def seconds_of(page):
    """The seconds of each crate's proof: the page has three crates a row, each with those of its edits behind them."""
    rows = [re.findall(r"([a-z_]+) *\| *(\d+) *\| *(\d*) *(?=\|)", line) for line in page.splitlines() if line.startswith("| ")]
    return {name: int(proof) for row in rows for name, proof, _ in row}


def wall(crates, seconds, lanes):
    """What crates with these seconds left take at the least: all of them by their lanes, and the longest chain one after another."""
    chains = {}

    def chain(name):
        if name not in chains:
            chains[name] = seconds.get(name, 0) + max(map(chain, crates[name]), default=0)
        return chains[name]

    return max(sum(seconds.values()) / lanes, *map(chain, crates))


def far(crates, begun, log, page, gone, lanes):
    kept = set(re.findall(r"^rt: (\w+) is kept: ", log, flags=re.M)) & set(crates)
    proved = set(re.findall(r"^rt: (\w+) proved$", log, flags=re.M)) & set(crates)
    done = kept | proved
    now = sorted(begun - done)
    known = seconds_of(page)
    whole = {name: known.get(name, UNTOLD) for name in crates}
    # Of one that is being proved, half is left in the mean.
    left = {name: whole[name] / (2 if name in now else 1) for name in crates if name not in done}
    spent = {name: whole[name] / (2 if name in now else 1) for name in proved | set(now)}
    pace = max(gone / max(wall(crates, spent, lanes), 1), 0.3) if proved else 1
    minutes = round(wall(crates, left, lanes) * pace / 60)
    told = f"{len(done)} of {len(crates)} crates proved"
    told += f", {len(kept)} of them by earlier runs" if kept else ""
    told += f"; now {' '.join(now)}" if now else ""
    return told + (f"; some {minutes} minutes left, by the times of docs/PROVING.md" if known and minutes else "")


def main():
    room, page, gone = pathlib.Path(sys.argv[1]), pathlib.Path(sys.argv[2]), int(sys.argv[3])
    crates = listed((room / "crates.txt").read_text(encoding="utf-8"))
    # A crate's library is begun as an empty folder; the program has none, and comes last.
    begun = {name for name in crates if (room / f"crates/{name}/out/rlib").is_dir()}
    log = (room / ".git/log").read_text(encoding="utf-8", errors="replace")
    print(far(crates, begun, log, page.read_text(encoding="utf-8") if page.exists() else "", gone, len(os.sched_getaffinity(0))))


if __name__ == "__main__":
    main()
