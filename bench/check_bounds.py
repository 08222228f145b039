#!/usr/bin/env python3
"""Holds finds to their bounds, from the input, the plan and the report alone.

First each example of examples/false-bounds: the program is to write its .replay, and a claim that seems likely is to fail there,
with the numbers that it fails by. Then made loads of two kinds, those of `make` and those of scripts/loads.py: no find may weigh
more than the plan's stretch times its distance, the least at any of its tickets, and what the moves within had gathered, and
twice the passage that was open before it; nor than by the moves within alone, where the stretch is doubled for each; with the
distance before its first look it is held to the sharper price, and to the plan's own stretches, and the finds of a caller in all to
theirs. An Again that met no entry has a move within that renews the top level, with its commit and an erasure of that level. One
that met an Empty has the move that put it, whose first Empty and last erasure come after the look at which the chase began. One
whose chase was given up has three commits within the chase. No two of a caller have the same move.

Usage, at the top of the repository: bench/check_bounds.py [--long]    The loads are 200, and 10,000 with --long. TRACK names the
program, ./track where it isn't set."""
import pathlib
import subprocess
import sys
from collections import defaultdict

sys.path.insert(0, str(pathlib.Path(__file__).resolve().parent.parent / "scripts"))
import directory  # noqa: E402
import loads  # noqa: E402
import stretches  # noqa: E402
import texts  # noqa: E402
from bounds import Story, bounds_of, charge  # noqa: E402
from program import tried_program  # noqa: E402

PROGRAM = tried_program()
FALSE = pathlib.Path("examples/false-bounds")
def written(word, text):
    """What the program writes for an input."""
    return subprocess.run([PROGRAM, *word.split()], input=text, stdout=subprocess.PIPE, check=True).stdout


def story_of(text):
    """What the program makes of an input, with what its finds may weigh."""
    said = texts.read_input(text)
    plan = texts.read_plan(written("cover", text).decode())
    setting = directory.Setting(directory.Network(said.nodes, said.edges), plan)
    own_stretches = stretches.read_stretches(written("stretch", text).decode())
    return Story(said, setting, texts.read_report(written("replay", text).decode()), own_stretches)


def bounded(story, priced):
    """What keeps a find from its bounds; nothing where it is within them."""
    weight = priced.find.weight
    return next((f"weighs {weight}, and by {name} {bound}" for name, bound in bounds_of(story, priced) if weight > bound), None)


def charges(story):
    """What keeps an Again from its charge, or two of a caller from having each their own."""
    charged = set()
    for priced in story.finds:
        if isinstance(priced.find, texts.Again):
            to = charge(story, priced)
            key = (priced.find.actor, priced.find.sub, to.number)
            if to.why or key in charged:
                return to.why or f"two Agains of caller {priced.find.actor} are charged to move {to.number}"
            if to.number:
                charged.add(key)
    return None


def in_all(story):
    """What keeps the finds of a caller in all from their bound."""
    sums = defaultdict(lambda: [0, 0, 0])
    for priced in story.finds:
        for place, part in enumerate((priced.find.weight, priced.first_apart, priced.first_open)):
            sums[priced.find.actor, priced.find.sub][place] += part
    for (_, sub), (weight, apart, passages) in sums.items():
        moved = sum(move.weight for move in story.moves[sub])
        if weight > story.setting.plan.stretch * (apart + (story.top + 1) * moved) + 2 * passages:
            return f"{weight} in all > {story.setting.plan.stretch} * ({apart} + {story.top + 1} * {moved}) + 2 * {passages}"
    return None


# The claims that fail. Each tells how, or nothing where it holds.

def by_weight_moved(story, apart):
    """That a find weighs at most the stretch times its distance and the weight of the moves within, and twice the passage."""
    for priced in story.finds:
        moved, base = sum(move.weight for move in priced.within), getattr(priced, apart)
        if priced.find.weight > story.setting.plan.stretch * (base + moved) + 2 * priced.first_open:
            return f"{priced.find.weight} > {story.setting.plan.stretch} * ({base} + {moved}), {len(priced.within)} moves within"
    return None


def from_the_first(story):
    return by_weight_moved(story, "first_apart")


def from_the_last(story):
    return by_weight_moved(story, "last_apart")


def passage_at_last(story):
    """That the passage may be told at the last look."""
    for priced in story.finds:
        gathered = sum(move.gathered for move in priced.within)
        if priced.find.weight > story.setting.plan.stretch * (priced.last_apart + gathered) + 2 * priced.last_open:
            return f"{priced.find.weight} > {story.setting.plan.stretch} * ({priced.last_apart} + {gathered}) + 2 * {priced.last_open}"
    return None


def commit_within(story):
    """That a find is made again only where a commit falls within it."""
    for priced in story.finds:
        if isinstance(priced.find, texts.Again) and not priced.within:
            return f"again at {priced.find.first} to {priced.find.last}, and the commits are {[m.commit for m in story.moves[0]]}"
    return None


def fewer_agains(story):
    """That there are fewer Agains than moves that renew the top level."""
    agains = sum(isinstance(priced.find, texts.Again) for priced in story.finds)
    moves = sum(move.level == story.top for move in story.moves[0])
    return f"{agains} Agains, {moves} moves that renew the top level" if agains >= moves else None


def charged_once(story):
    """That no move has its commit and an erasure at the top level within one Again, and its first Empty within another."""
    agains = [priced for priced in story.finds if isinstance(priced.find, texts.Again)]
    for place, move in enumerate(story.moves[0], 1):
        erased = story.erased(0, place, story.top)
        empty = [deed.ticket for deed in story.emptied(0) if deed.number == place][:1]
        emptied = [priced for priced in agains if any(priced.find.first < t < priced.find.last for t in empty)]
        missed = [priced for priced in agains if move in priced.within and any(t < priced.find.last for t in erased)]
        if missed and emptied and missed != emptied:
            return f"move {place} is charged with the Agains at {missed[0].find.first} and at {emptied[0].find.first}"
    return None


CLAIMS = {
    "two-moves-of-one": from_the_first,
    "three-moves-of-one": from_the_last,
    "far-off": from_the_first,
    "six-moves-of-one": from_the_first,
    "passage-at-the-end": passage_at_last,
    "no-commit-within": commit_within,
    "four-agains": fewer_agains,
    "one-move-for-two": charged_once,
}


def held(story, name):
    """Ends the script where a find isn't within its bounds."""
    for why in [bounded(story, priced) for priced in story.finds] + [in_all(story), charges(story)]:
        if why:
            sys.exit(f"{name}: {why}")


def check_false_bounds():
    """Each example breaks its claim, and keeps what is proved."""
    for name, claim in CLAIMS.items():
        text = (FALSE / f"{name}.txt").read_bytes()
        if written("replay", text) != (FALSE / f"{name}.replay").read_bytes():
            sys.exit(f"{name}: another report")
        story = story_of(text)
        broken = claim(story)
        if not broken:
            sys.exit(f"{name}: the claim holds: {claim.__doc__}")
        held(story, name)
        print(f"{name}: {broken}")
    left = {path.stem for path in FALSE.glob("*.txt")} - set(CLAIMS)
    if left:
        sys.exit(f"examples without a claim: {sorted(left)}")


def made(seed):
    """A load by `make`: few nodes, and finds amid moves of few subscribers."""
    draw = loads.Draw(seed)
    nodes, k = 2 + draw.below(15), 1 + draw.below(3)
    return written(f"make {seed} {nodes} {k} {1 + draw.below(2)} {1 + draw.below(3)} {10 + draw.below(50)}", b"")


def told(seed):
    """A load by scripts/loads.py: a subscriber moves by steps while a caller looks for it, visit by visit in turn."""
    draw = loads.Draw(seed)
    nodes = 3 + draw.below(12)
    edges = [(draw.below(v), v, 1 + draw.below(1 + draw.below(8))) for v in range(1, nodes)]
    story = loads.story_on(nodes, edges, 1 + draw.below(3), [draw.below(nodes)], 2)
    for _ in range(6 + draw.below(10)):
        to = draw.pick([v for v in range(nodes) if v != story.place(0)])
        calls = [f"move 0 {to}", f"find 1 {draw.below(nodes)} 0", f"find 2 {draw.below(nodes)} 0"]
        story.together(*calls[draw.below(2):])
    return story.text([], 1, story.setting.plan.k).encode()


def main():
    count = 10000 if sys.argv[1:] == ["--long"] else 200
    check_false_bounds()
    finds = met = agains = 0
    for seed in range(1, count + 1):
        story = story_of((made if seed % 2 else told)(seed))
        held(story, f"load {seed}")
        finds += len(story.finds)
        met += sum(bool(priced.within) for priced in story.finds)
        agains += sum(isinstance(priced.find, texts.Again) for priced in story.finds)
    print(f"bounds: {len(CLAIMS)} false ones fail, and {finds} finds of {count} loads keep theirs, {met} with a commit within"
          f" and {agains} to be made again")


if __name__ == "__main__":
    main()
