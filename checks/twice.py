#!/usr/bin/env python3
"""Lists lemmas that two files state with the same words, whatever they call their variables: one
of them should stand in the specs/ of the lowest crate that both stand on. Run it at the top of the
repository; it ends with status 1 where it finds some. What is said otherwise it doesn't see: facts
in another order, a predicate in place of what it means, or a statement that has none of the words
of SAYS.
"""
import collections
import pathlib
import re
import sys

HEAD = re.compile(r"^(?:pub )?([^\s(){}:]+) :(?!$)(.*)")
GROUP = re.compile(r"[({]([^(){}:]+) :")
WORD = re.compile(r"[^\s(){}]+|[(){}]")
SAYS = set("≡ ≢ < ≤ ⊎ ⊥ ↔".split()) | {"All", "Each", "MaySteps"}


def statements(lines):
    """The name and the statement of each lemma of a file that says something of values."""
    for place, line in enumerate(lines):
        head = HEAD.match(line)
        if head and not line.startswith(("abbrev ", "unfoldable ", "mod ", "use ", "record ")):
            rest = [head[2]]
            for more in lines[place + 1 :]:
                if not more.startswith("    ") or more.lstrip().startswith("--"):
                    break
                rest.append(more)
            yield head[1], " ".join(rest)


def plain(statement):
    """A statement with numbers for its variables, and one kind of brackets; empty if it says
    nothing of values."""
    words = WORD.findall(statement)
    if not SAYS & set(words) or words[-2:] == ["Type", "0"]:
        return ""
    names = [name for group in GROUP.findall(statement) for name in group.split()]
    numbers = {name: f"v{number}" for number, name in enumerate(dict.fromkeys(names))}
    same = {"{": "(", "}": ")"}
    return " ".join(same.get(word, numbers.get(word, word)) for word in words)


def main():
    found = collections.defaultdict(list)
    for path in sorted(pathlib.Path("crates").glob("*/*/**/*.antt")):
        if path.parts[2] in ("proofs", "specs"):
            for name, statement in statements(path.read_text(encoding="utf-8").splitlines()):
                found[plain(statement)].append((name, path))
    twice = [its for said, its in found.items() if said and len({path for _, path in its}) > 1]
    for its in twice:
        print("twice: " + ", ".join(f"{name} ({path})" for name, path in its), file=sys.stderr)
    sys.exit(1 if twice else 0)


if __name__ == "__main__":
    main()
