#!/usr/bin/env python3
"""Compares crates.txt with what each crate names: by `use` and `pub use` in its code, by
`ghost use` and `use` in its clauses, definitions and proofs, and by paths in full. Each crate is to
list just what it names, and no chain of crates may be longer than LONGEST. Run it at the top of the
repository; it ends with status 1 where something differs.
"""
import pathlib
import re
import sys

LONGEST = 8
CODE = re.compile(r"\b([a-z][a-z0-9_]*)::")
MODULE = re.compile(r"^\s*(?:pub(?:\(crate\))? )?mod ([a-z0-9_]+)")
CLAUSE = re.compile(r"\bRattle\.([a-z][a-z0-9_]*)\.")


def listed():
    """What each crate lists."""
    crates = {}
    for line in pathlib.Path("crates.txt").read_text().splitlines():
        line = line.split("#")[0].strip()
        if line:
            head, _, rest = line.partition(":")
            crates[head.split()[0]] = set(rest.split())
    return crates


def named(crate, known):
    """What a crate names, but for its own modules."""
    found, modules = set(), set()
    for path in pathlib.Path("crates", crate).rglob("*"):
        if "out" in path.parts or path.suffix not in (".rt", ".antt"):
            continue
        for line in path.read_text().splitlines():
            line = re.sub(r"//.*|--.*", "", line)
            found.update(CLAUSE.findall(line))
            if path.suffix == ".rt":
                found.update(CODE.findall(line))
                modules.update(MODULE.findall(line))
    return (found & known) - modules - {crate}


def chain(crate, crates, seen):
    """The longest chain of crates from one down."""
    if crate not in seen:
        below = [chain(other, crates, seen) for other in crates.get(crate, ()) if other in crates]
        seen[crate] = [crate] + max(below, key=len, default=[])
    return seen[crate]


def main():
    crates = listed()
    known = set(crates).union(*crates.values())
    faults = []
    for crate, others in sorted(crates.items()):
        names = named(crate, known)
        faults += [f"{crate} lists {other}, and doesn't name it" for other in sorted(others - names)]
        faults += [f"{crate} names {other}, and doesn't list it" for other in sorted(names - others)]
    seen = {}
    longest = max((chain(crate, crates, seen) for crate in crates), key=len)
    if len(longest) > LONGEST:
        faults.append("a chain of %d crates: %s" % (len(longest), " ".join(longest)))
    for fault in faults:
        print("crates.txt:", fault)
    print("crates.txt: %d crates, the longest chain %d (%s), %d faults"
          % (len(crates), len(longest), " ".join(longest), len(faults)))
    return 1 if faults else 0


if __name__ == "__main__":
    sys.exit(main())
