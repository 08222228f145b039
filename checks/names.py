#!/usr/bin/env python3
"""Lists lemmas whose name has `_` between two functions that their statement names, where the rule
of docs/CHANGING.md wants a dash: `has-append`, and not `has_append`. It can't tell the other way
round, since a part of a name that no function has may stand for a word of the statement all the
same. Run it at the top of the repository; it ends with status 1 where it finds one.
"""
import pathlib
import re
import sys

LEMMA = re.compile(r"^(?:pub )?([a-z]\w*) : (.*)$")
BOUND = re.compile(r"[({]([^(){}:]+) : |λ ([^.()]+)\.|\((\w+) : ")
WORD = re.compile(r"(?<![\w.])[a-z]\w*(?![\w-])")


def statements(lines):
    """Each lemma of a file with the place and the words of its statement."""
    for place, line in enumerate(lines):
        found = LEMMA.match(line)
        if found:
            words = [found[2]]
            for more in lines[place + 1:]:
                if not more.startswith(" "):
                    break
                words.append(more)
            yield place + 1, found[1], " ".join(words)


def wants_dash(name, statement):
    """Two functions of the statement of which the name is made, if there are any."""
    bound = {word for names in BOUND.findall(statement) for part in names for word in part.split()}
    named = set(WORD.findall(statement)) - bound
    parts = name.split("_")
    cuts = [("_".join(parts[:cut]), "_".join(parts[cut:])) for cut in range(1, len(parts))]
    return next((cut for cut in cuts if named.issuperset(cut)), None)


def main():
    faults = 0
    for path in sorted(pathlib.Path("crates").glob("*/[ps]*/**/*.antt")):
        if "out" in path.parts or path.name in ("Answers.antt", "Invariants.antt"):
            continue
        for place, name, statement in statements(path.read_text().splitlines()):
            cut = wants_dash(name, statement)
            if cut:
                faults += 1
                print(f"{path}:{place}: {name} is about {cut[0]} and {cut[1]}: {'-'.join(cut)}")
    return 1 if faults else 0


if __name__ == "__main__":
    sys.exit(main())
