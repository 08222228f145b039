#!/usr/bin/env python3
"""Tells how many lines of proof what stood at a commit takes today: checks/since.py COMMIT, at the
top of the repository.

It counts the answers of each function that has a name of then, in whatever crate; of each function
that such a one names, and so on; and each lemma that these answers name, with those that it names,
and the heads of their files. So what a function of then says more fully today is counted in full, as
are functions and lemmas that came since and serve it: the number is a bound from above. Names are
compared as words, so that a function or a lemma that only shares a name is counted too.

A function that got another name since, and that none of these names, is missed: the functions that
are left out are told, so that one can see that none is such.

Crates that came since have proofs of what came since, and are left out, but for those that took over
parts of crates of then (PARTS), which count in full.
"""
import collections
import os
import re
import subprocess
import sys
import tempfile

# Parts of region_plan, net_reader, machine and report_text, and the tests, which stood in the crates that they test.
PARTS = (
    "plan_laws scripts text_line test_networks network_tests text_tests actor_tests tracker_tests runner_tests top_tests"
).split()
BEGINS = re.compile(r"(?:(?:unfoldable|pub|abbrev|record|data|ruleset) )*([^\s:(){}]+)")
DECLARED = re.compile(r"^ *(?:(?:unfoldable|pub|abbrev) )*([^\s:(){}]+) :", re.M)
FUNCTION = re.compile(r"^ *(?:pub(?:\(\w+\))? )?(?:const |unsafe )?fn (\w+)", re.M)
WORD = re.compile(r"\w+")
NAME = re.compile(r"[^\s(){}\[\],;.]+")


def files(folder, ending):
    """The files below a folder with that ending, and their texts."""
    for at, _, names in sorted(os.walk(folder)):
        for name in sorted(names):
            if name.endswith(ending):
                with open(f"{at}/{name}", encoding="utf-8") as file:
                    yield os.path.relpath(f"{at}/{name}", folder), file.read()


def functions_in(top, crate):
    """The functions of a crate: each one's name, and its text up to the next one."""
    for _, text in files(f"{top}/crates/{crate}/src", ".rt"):
        begins = list(FUNCTION.finditer(text))
        ends = [begin.start() for begin in begins[1:]] + [len(text)]
        for begin, end in zip(begins, ends):
            yield begin[1], text[begin.start() : end]


def reached(first, texts, names):
    """What is named from the first ones on, where `names` tells the names in a text."""
    found, left = set(first), list(first)
    while left:
        for text in texts[left.pop()]:
            new = {name for name in names(text) if name in texts} - found
            found |= new
            left += new
    return found


def function_of(path):
    """The function whose answers a file of proofs has, or None for a file of lemmas."""
    folders = path.split("/")
    name = folders.pop()
    if folders and folders[-1] == "Answers":
        return folders[-2]
    return folders[-1] if name in ("Answers.antt", "Invariants.antt") else None


def parts_of(text):
    """The parts of a file of lemmas, its head first: each one's lines, and the names that it declares.
    A part is a lemma, a record or a whole section (`module _ ..`)."""
    parts, own = [([], set())], ""
    for line in text.splitlines():
        begins = BEGINS.match(line)
        if begins and begins[1] not in ("use", "mod", "unfolding", "where", "--", "]", own):
            own = begins[1]
            parts.append(([], {own}))
        parts[-1][0].append(line)
    for lines, names in parts:
        names.update(DECLARED.findall("\n".join(lines)))
    return parts


def lines_of(crate, functions, known):
    """How many lines of proof these functions of a crate take; `known` has all functions."""
    cited, texts, of_files, count = set(), collections.defaultdict(list), [], 0
    for path, text in files(f"crates/{crate}/proofs", ".antt"):
        function = function_of(path)
        if function is None:
            head, *parts = parts_of(text)
            of_files.append((head, parts))
            for lines, names in parts:
                for name in names:
                    texts[name].append("\n".join(lines))
        elif function in functions or function not in known:
            cited.update(NAME.findall(text))
            count += text.count("\n")
    cited = reached(cited & set(texts), texts, NAME.findall)
    for head, parts in of_files:
        used = [lines for lines, names in parts if names & cited]
        count += sum(map(len, used)) + (len(head[0]) if used else 0)
    return count


def lines_in(top, crate):
    """All lines of a crate's proofs."""
    return sum(text.count("\n") for _, text in files(f"{top}/crates/{crate}/proofs", ".antt"))


def main(words):
    if len(words) != 1:
        sys.exit(__doc__)
    with tempfile.TemporaryDirectory(prefix="since-") as room:
        archive = subprocess.run(["git", "archive", words[0], "crates"], stdout=subprocess.PIPE, check=True)
        subprocess.run(["tar", "-x", "-C", room], input=archive.stdout, check=True)
        crates = sorted(os.listdir(f"{room}/crates"))
        then = {name for crate in crates for name, _ in functions_in(room, crate)}
        were = sum(lines_in(room, crate) for crate in crates)
    texts = collections.defaultdict(list)
    for crate in os.listdir("crates"):
        for name, text in functions_in(".", crate):
            texts[name].append(text)
    functions = reached(then & set(texts), texts, WORD.findall)
    counts = {crate: lines_of(crate, functions, texts) for crate in crates}
    for crate in crates:
        others = sorted({name for name, _ in functions_in(".", crate)} - functions)
        print(f"{crate}: {counts[crate]:,} of {lines_in('.', crate):,}", *(["without", *others] if others else []))
    parts = sum(lines_in(".", crate) for crate in PARTS)
    now = sum(lines_in(".", crate) for crate in crates)
    print(f"{len(crates)} crates had {were:,} lines of proof at {words[0]}, and have {now:,}")
    print(f"what stood then takes at most {sum(counts.values()) + parts:,}, {parts:,} of them in crates made of parts")


if __name__ == "__main__":
    main(sys.argv[1:])
