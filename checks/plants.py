#!/usr/bin/env python3
"""Plays the plants of checks/plants/*.txt: wrong definitions and wrong code, each of which
something must refuse. Run it at the top of the repository, with words to play those plants alone
whose file, name or crate has one of them. It ends with status 1 where a plant stays, or can't be
played.

A plant is a name, a file with what stands there and what stands there instead, and who refuses:

    plant: a find's actor beyond the callers is taken
    file: crates/net_reader/specs/Table.antt
    old: one part of one line, which stands there once
    new: what stands there instead
    by: worked_examples grammar::worked_lines

`by` names a crate and functions of it. The prover checks these alone, and at least one must not be
proved; each is checked with no plant first. A crate below that no plant of the copy touches, and
that stands on none that one touches, is taken as a gate in this clone has built it; the others are
read as they are written, without their proofs. Of `worked_examples`, whose modules stand apart, a
copy has those alone that hold the functions. `by: CRATE test` has the crate's tests run, with no
proof, and one must fail; one that runs out of time fails too, so play these on a machine at rest.
`by: bench` names work or memory thrown away, which the counts of instructions or the least memory
alone refuse (bench/instructions.py, bench/least_memory.py), and `by: examples` what examples/check
refuses by its inputs at the limits. For these bench/unproved.py builds a program of the copy, over
which one of the scripts must end with status 1 and say why; with no plant all must pass first.

The gate plays no plants: behind a gate each takes some 10 to 20 seconds, and without one up to a
minute; two, where a program is built. JOBS says how many are played at once (1, if it isn't set);
those of one crate share copies, of at most SHARE plants each.
"""
import concurrent.futures
import dataclasses
import io
import os
import pathlib
import re
import shutil
import subprocess
import sys
import tempfile

sys.path.insert(0, str(pathlib.Path(shutil.which("rt")).resolve().parent))
import rtlib  # noqa: E402  (the kit's own, which knows what a crate of crates.txt stands on)

LAST = re.compile(r"^only=\d+ proved=\d+$", re.M)
TESTED = re.compile(r"^test result: (ok|FAILED)", re.M)
FAILED = re.compile(r"^test .* FAILED$", re.M)
FAULT = re.compile(r"^(?:note: )?\S+?:\d+:\d+: .*$", re.M)
ERROR = re.compile(r"(?:src|specs)/\S+?:\d+:\d+: error: (?:(`[^`]*`): )?(.*)")
UNMET = re.compile(r"^(?:bench/\w+\.py|examples): .*$", re.M)
UNREAD = re.compile(r"is not in scope|has no field|is no name|operand is missing|cannot continue")
NAMES_CRATE = re.compile(r"\bRattle\.(\w+)\.|^\s*(?:pub )?use (\w+)(?:::|;)", re.M)
NAMES_OWN = re.compile(r"\bRattle\.worked_examples\.(specs|proofs)\.(\w+)")
APART = "worked_examples"
PROGRAM = "crates/track_main/out/track_main"
SCRIPTS = {
    "bench": ["bench/instructions.py", "bench/least_memory.py"],
    "examples": ["examples/check"],
}
SHARE = 20
HOW = {"stdout": subprocess.PIPE, "stderr": subprocess.STDOUT, "text": True, "errors": "replace"}


@dataclasses.dataclass
class Plant:
    """A plant, with its changes as lists of a file, what stands there, and what instead."""
    name: str
    source: str
    changes: list = dataclasses.field(default_factory=list)
    crate: str = ""
    functions: list = dataclasses.field(default_factory=list)


def plants_of(path):
    """The plants of a file."""
    plants, file = [], ""
    for line in path.read_text().splitlines():
        key, _, rest = line.partition(": ")
        if key == "plant":
            plants.append(Plant(rest.strip(), path.stem))
        elif key == "file":
            file = rest.strip()
        elif key == "old":
            plants[-1].changes.append([file, rest.strip(), None])
        elif key == "new":
            plants[-1].changes[-1][2] = rest.strip()
        elif key == "by":
            plants[-1].crate, *plants[-1].functions = rest.split()
        elif line.strip() and not line.startswith("#"):
            raise ValueError(f"{path}: {line}")
    return plants


def texts_of(plant, root):
    """The files of a plant as they are, and as it has them."""
    before, spans = {}, {}
    for file, old, new in plant.changes:
        text = before.setdefault(file, (root / file).read_text())
        if text.count(old) != 1 or new is None:
            raise ValueError(f"{file} has {text.count(old)} times: {old}")
        spans.setdefault(file, []).append((text.index(old), len(old), new))
    after = dict(before)
    for file, places in spans.items():
        for at, length, new in sorted(places, reverse=True):
            after[file] = after[file][:at] + new + after[file][at + length:]
    return before, after


def leave_modules(root, modules):
    """Leaves in a copy of APART just these modules, and the crates that they name."""
    folder, files, crates = root / "crates" / APART, set(), set()
    todo = [it for name in modules for it in (folder / "proofs" / name).rglob("*.antt")]
    todo += [folder / "src" / f"{name}.rt" for name in modules]
    while todo:
        path = todo.pop()
        if path in files or not path.exists():
            continue
        files.add(path)
        text = path.read_text()
        crates.update(name for names in NAMES_CRATE.findall(text) for name in names)
        todo += [folder / part / f"{name}.antt" for part, name in NAMES_OWN.findall(text)]
    lib, lists = folder / "src" / "lib.rt", [folder / it / "Lib.antt" for it in ("specs", "proofs")]
    for path in [*folder.rglob("*.rt"), *folder.rglob("*.antt")]:
        if path not in files and path not in (lib, *lists):
            path.unlink()
    head, *items = re.split(r"(?m)^(?=mod |pub use )", lib.read_text())
    kept = [it for it in items if re.match(r"(?:mod|pub use) (\w+)", it)[1] in modules]
    lib.write_text(head + "".join(kept))
    for path in lists:
        kept = [it for it in re.findall(r"(?:pub )?mod (\w+)", path.read_text())
                if path.parent / f"{it}.antt" in files]
        path.write_text("".join(f"pub mod {it}\n" for it in kept))
    listed = (root / "crates.txt").read_text()
    line = re.search(rf"^{APART}:(.*)$", listed, re.M)
    named = [it for it in line[1].split() if it in crates]
    (root / "crates.txt").write_text(listed.replace(line[0], f"{APART}: {' '.join(named)}"))


def is_fresh(crate, top):
    """Whether a gate in this clone has built the crate as it is written."""
    folder = top / "crates" / crate.name
    built = folder / "out" / "rlib" / f"{crate.name}.rlib" / "format"
    files = [it for part in rtlib.PARTS for it in (folder / part).rglob("*.*")]
    return built.exists() and all(it.stat().st_mtime < built.stat().st_mtime for it in files)


def libraries(known, top, touched):
    """The words that name the crates below: built, or as they are written."""
    fresh = {it.name for it in known.below() if is_fresh(it, top)} - touched
    words, built = [], set()
    for crate in sorted(known.below(), key=lambda it: len(it.below())):
        if crate.name in fresh and all(it.name in built for it in crate.below()):
            built.add(crate.name)
            folder = top / "crates" / crate.name / "out" / "rlib"
            words += ["--extern", f"{crate.name}={folder}/{crate.name}.rlib"]
            words += ["-L", f"dependency={folder}"]
        else:
            uses = dict.fromkeys(["core", *crate.of_kit, *[it.name for it in crate.deps]])
            words += ["--lib", f"{crate.name}:{','.join(uses)}={crate.folder}/src/lib.rt"]
    return words


def asked(root, top, share, functions, kept):
    """What the prover says of these functions, or what a run of the crate's tests says. Crates that
    the share of plants touches are read as they are written.
    """
    known = rtlib.Crate(str(root / "crates" / share[0].crate), str(root), {})
    known.out = io.StringIO()
    words = ["rt", "try", "--test"]
    if functions != ["test"]:
        touched = {file.split("/")[1] for plant in share for file, _, _ in plant.changes}
        kit = {"core", *known.of_kit, *[it for dep in known.below() for it in dep.of_kit]}
        words = [rtlib.RATTLE, "check", "--crate-name", known.name, "src/lib.rt"]
        for name in sorted(kit):
            words += ["--extern", f"{name}={rtlib.KIT}/rlibs/{name}.rlib"]
        words += ["-L", f"dependency={rtlib.KIT}/rlibs", *libraries(known, top, touched)]
        words += ["--antt-project", f"{rtlib.KIT}/rattle/logic/antt-project.json"]
        words += ["--logic-built", f"{rtlib.KIT}/logic_built", "--links", f"{known.name}="]
        words += ["--jobs", "1", "--incremental", str(kept)]
        words += [word for function in functions for word in ("--only", function)]
    return subprocess.run(words, cwd=known.folder, **HOW)


def is_unread(fault):
    """Whether a text can't be read, so that it is refused whatever it means: it names what its file
    doesn't have, or what the prover says of it names no definition.
    """
    at = ERROR.search(fault)
    if not at:
        return "is not in scope" in fault
    return not at[1] or bool(UNREAD.search(re.sub(r"`[^`]*`", "", at[2])))


def judged(ran):
    """Whether all is proved or passes, or what is refused first."""
    said, tested = ran.stdout, TESTED.search(ran.stdout)
    if LAST.search(said) and ran.returncode in (0, 1):
        faults = FAULT.findall(said)[:1]
        refusal = "CAN'T BE READ" if any(map(is_unread, faults)) else "refused"
        return (refusal, faults) if ran.returncode else ("STAYS", [])
    if tested:
        return ("STAYS", []) if tested[1] == "ok" else ("refused", FAILED.findall(said)[:1])
    return "CAN'T BE READ", said.strip().splitlines()[-1:]


def run_over_program(root, scripts):
    """Whether the scripts pass over a program of the copy that isn't proved, or what the first of
    them says that doesn't. ./track takes that program, since it is newer than its sources.
    """
    program = root / PROGRAM
    program.parent.mkdir(parents=True, exist_ok=True)
    program.unlink(missing_ok=True)
    for words in (["bench/unproved.py", PROGRAM], *([it] for it in scripts)):
        ran = subprocess.run(words, cwd=root, env={**os.environ, "TRACK": PROGRAM}, **HOW)
        unmet = UNMET.findall(ran.stdout)[:1]
        if ran.returncode == 1 and unmet:
            return "refused", unmet
        if ran.returncode or not program.exists():
            return "CAN'T BE RUN", ran.stdout.strip().splitlines()[-1:]
    return "STAYS", []


def came_of(root, top, share, functions, kept):
    """Whether nothing in the copy is refused, or what is refused first."""
    scripts = SCRIPTS.get(share[0].crate)
    if scripts:
        return run_over_program(root, scripts)
    return judged(asked(root, top, share, functions, kept))


def play(plant, root, top, kept):
    """Plays one plant on a copy of the repository, and puts the copy back."""
    try:
        before, after = texts_of(plant, root)
    except (OSError, ValueError) as why:
        return "CAN'T BE PLANTED", [str(why)]
    try:
        for file, text in after.items():
            (root / file).write_text(text)
        return came_of(root, top, [plant], plant.functions, kept)
    finally:
        for file, text in before.items():
            (root / file).write_text(text)


def modules_of(plant):
    """The modules of APART that hold the functions which refuse a plant."""
    names = {it.split("::")[0] for it in plant.functions}
    return tuple(sorted(names)) if plant.crate == APART else ()


def shares_of(plants):
    """Plants that share a copy: of one crate, or the same modules of APART; the longest first, and
    before all of them those for which programs are built.
    """
    groups = {}
    for plant in plants:
        key = plant.crate, plant.functions == ["test"], modules_of(plant)
        groups.setdefault(key, []).append(plant)
    shares = [it[at:at + SHARE] for it in groups.values() for at in range(0, len(it), SHARE)]
    return sorted(shares, key=lambda it: (it[0].crate in SCRIPTS, len(it)), reverse=True)


def play_all(share, top):
    """Plays plants that share a copy, one after another."""
    told = []
    with tempfile.TemporaryDirectory(prefix="plants-") as room:
        root, kept = pathlib.Path(room, "top"), pathlib.Path(room, "kept")
        shutil.copytree(top, root, ignore=shutil.ignore_patterns(".git", "out"))
        kept.mkdir()
        if share[0].crate == APART:
            leave_modules(root, modules_of(share[0]))
        wanted = sorted({name for plant in share for name in plant.functions})
        without, faults = came_of(root, top, share, wanted, kept)
        for plant in share:
            came = "FAILS WITHOUT IT TOO", faults
            if without == "STAYS":
                came = play(plant, root, top, kept)
            print(f"{plant.source}: {plant.name}: {': '.join([came[0], *came[1]])}", flush=True)
            told.append(came[0])
    return told


def main(words):
    top = pathlib.Path(".").resolve()
    found = [it for path in sorted(top.glob("checks/plants/*.txt")) for it in plants_of(path)]
    if words:
        texts = [(it, f"{it.source} {it.name} {it.crate}") for it in found]
        found = [it for it, text in texts if any(word in text for word in words)]
    with concurrent.futures.ThreadPoolExecutor(int(os.environ.get("JOBS", "1"))) as pool:
        told = sum(pool.map(lambda share: play_all(share, top), shares_of(found)), [])
    refused = told.count("refused")
    print(f"{refused} of {len(told)} plants refused")
    return 0 if refused == len(told) else 1


if __name__ == "__main__":
    sys.exit(main(sys.argv[1:]))
