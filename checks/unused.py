#!/usr/bin/env python3
"""Lists definitions and lemmas that nothing uses: no other one of their file, and no file that
imports them. A key law, which the first paragraph of its file names, may stand for its own sake.
Run it at the top of the repository; it ends with status 1 where it finds one.
"""
import collections
import pathlib
import re
import sys

IMPORT = re.compile(r"^\s*(?:ghost )?use (Rattle\.[\w.]+)\.\{(.*)\}", re.M)
PATH = re.compile(r"(Rattle(?:\.\w+)+)\.([^\s(){}\[\],;.]+)")
HEAD = re.compile(r"^(?:unfoldable |abbrev |pub )*(record )?([^\s(){}\[\],;.:]+)")
TYPED = re.compile(r"^(?: \(.*)? : (?!goal\.)")
WORD = re.compile(r"[^\s(){}\[\],;.]+")
NO_NAMES = ("use ", "--", "mod ", "pub mod ", "module ", "unfolding ", "syntax ")


def names_of(listed):
    """The names of an import's list: of `a, b as c, ◌+◌` they are a, b and ◌+◌."""
    return {one.split(" as ")[0].strip() for one in listed.split(",")}


def imports_in(texts):
    """The names that files import, by module."""
    found = collections.defaultdict(set)
    for text in texts:
        for module, listed in IMPORT.findall(text):
            found[module] |= names_of(listed)
        for module, name in PATH.findall(text):
            found[module].add(name)
    return found


def declared(lines):
    """Each name that a file declares, with its place and the lines that declare it."""
    for place, line in enumerate(lines):
        head = HEAD.match(line)
        if not head or line.startswith(NO_NAMES):
            continue
        name = head[2]
        if head[1] or TYPED.match(line[head.end():]):
            end = place + 1
            while end < len(lines) and is_of(lines[end], name):
                end += 1
            yield name, place, range(place, end)


def is_of(line, name):
    """Whether a line goes on with what declares a name."""
    return not line or line[0] in " )}]" or line.startswith("unfolding ") or line.split()[0] == name


def first_paragraph(lines):
    """The words of the comment at a file's head."""
    words = set()
    for line in lines:
        if not line.startswith("--"):
            break
        words |= {word.strip("`:") for word in WORD.findall(line)}
    return words


# Files whose names the check asks for: invariants, whole proofs by hand, and what may go to another thread.
ASKED_FOR = {"Invariants.antt", "Proof.antt", "Send.antt"}


def unused(path, imported):
    """The names of a file that nothing uses, with their places."""
    lines = path.read_text().splitlines()
    module = "Rattle." + ".".join(path.with_suffix("").parts[1:])
    known = imported[module] | first_paragraph(lines)
    words = [() if line.startswith(("use ", "--")) else set(WORD.findall(line)) for line in lines]
    for name, place, own in declared(lines):
        users = (at for at, line in enumerate(words) if name in line and at not in own)
        if name not in known and next(users, None) is None:
            yield name, place + 1


def main():
    crates = pathlib.Path("crates")
    paths = [path for path in sorted(crates.glob("*/[ps]*/**/*.antt")) if "out" not in path.parts]
    sources = [path for path in crates.glob("*/src/**/*.rt")]
    imported = imports_in(path.read_text() for path in [*paths, *sources])
    faults = 0
    for path in paths:
        if path.name not in ASKED_FOR:
            for name, place in unused(path, imported):
                faults += 1
                print(f"{path}:{place}: nothing uses {name}")
    return 1 if faults else 0


if __name__ == "__main__":
    sys.exit(main())
