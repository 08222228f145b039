#!/usr/bin/env python3
"""Plays what ./track does before the program runs, in a small repository with a kit that only pretends: a first run in a fresh
clone, two at once, one that is broken off, edited sources, a proved program beside another, no git, another kit, builds that fail,
and proofs side by side in a room, which two want at once, which are broken off, or whose sources change meanwhile.
It also compares the words that ./track serves with those of crates/word_line. `--real` builds the program of this repository in a
fresh clone with the kit that is there, in a minute or two."""
import os
import pathlib
import pty
import re
import shutil
import signal
import subprocess
import sys
import tempfile
import time

import progress

TOP = pathlib.Path(__file__).resolve().parent.parent
KIT_LINE = "rattle-kit-13f logic pretended"
WARNING = "track: built without proof; ./track prove proves it\n"
PROGRAM = '#!/bin/sh\\necho "$* {}"\\n[ "$1" != check ] || exit 8\\n'
# In the room of a proof side by side it tells what lies there; in place it proves in the folder of the program.
RT = f"""#!/bin/sh
[ -z "$FAILS" ] || {{ echo "rt: low NOT PROVED"; echo refused >>"$TOLD"; exit 1; }}
case $1 in
    ci)
        find . -type f ! -path './.git/*' | LC_ALL=C sort >"$TOLD.room"
        pwd >"$TOLD.place"
        echo $$ >"$TOLD.process"
        mkdir -p crates/track_main/out && cd crates/track_main/out || exit
        echo proved >>"$TOLD"
        ;;
    run)
        mkdir -p out && cd out || exit
        echo "proved in place" | tr ' ' - >>"$TOLD"
        ;;
esac
[ -z "$EDITS" ] || echo "// meanwhile" >"$EDITS"
sleep "${{PROVES:-0}}"
printf '{PROGRAM.format("proved")}' >track_main.new
chmod 755 track_main.new && mv track_main.new track_main
"""
UNPROVED = f"""#!/bin/sh
echo built >>"$TOLD"
[ -z "$FAILS" ] || {{ echo "no such luck" >&2; exit 1; }}
sleep "${{SLOW:-0}}"
printf '{PROGRAM.format("unproved")}' >"$1" && chmod 755 "$1"
"""


def write(path, text, mode=0o644):
    path.parent.mkdir(parents=True, exist_ok=True)
    path.write_text(text, encoding="utf-8")
    path.chmod(mode)


class Ground:
    """A repository of two crates, committed, and a kit."""

    def __init__(self, room):
        self.room, self.top, self.told = room, room / "repository", room / "told"
        self.top.mkdir()
        shutil.copy2(TOP / "track", self.top / "track")
        (self.top / "checks").mkdir()
        shutil.copy2(TOP / "checks/progress.py", self.top / "checks/progress.py")
        write(self.top / "crates.txt", "low: std\ntrack_main: low std\nother: low\n")
        for name in ("low", "track_main", "other"):
            write(self.top / f"crates/{name}/src/lib.rt", f"// {name}\n")
        write(self.top / "crates/low/specs/Lib.antt", "")
        write(self.top / "crates/low/must-fail/wrong.edit", "")
        write(self.top / "crates/track_main/stdin", "track 1\n")
        write(self.top / "HANDLES", "Handles allowed: none.\n")
        write(self.top / "examples/two-nodes.txt", "track 1\n")
        write(self.top / ".gitignore", "out/\n")
        write(self.top / "bench/unproved.py", UNPROVED, 0o755)
        write(room / "kit/bin/rt", RT, 0o755)
        write(room / "kit/KIT-ID", KIT_LINE + "\n")
        self.git("init", "-q")
        self.commit()

    def git(self, *words):
        subprocess.run(["git", "-c", "user.name=t", "-c", "user.email=t@t", *words], cwd=self.top, check=True, stdout=subprocess.DEVNULL)

    def commit(self):
        self.git("add", "-A")
        self.git("commit", "-qm", "stands")

    def edit(self, name="low", text="// edited\n"):
        write(self.top / f"crates/{name}/src/lib.rt", text)

    def replace(self, name, text):
        """Another text in the place of a source, with the times of years ago, as an archive or a copy has them."""
        path = self.top / f"crates/{name}/src/lib.rt"
        write(path.with_suffix(".new"), text)
        os.utime(path.with_suffix(".new"), (10**9, 10**9))
        path.with_suffix(".new").replace(path)

    def environment(self, **more):
        kept = {name: value for name, value in os.environ.items() if not name.startswith(("TRACK", "GIT_"))}
        path = f"{self.room}/kit/bin:{os.environ['PATH']}"
        kept["XDG_CACHE_HOME"] = str(self.room / "cache")
        return {**kept, "PATH": path, "TOLD": str(self.told), **{name: str(value) for name, value in more.items()}}

    def start(self, *words, **more):
        how = {"stdin": subprocess.DEVNULL, "stdout": subprocess.PIPE, "stderr": subprocess.PIPE, "text": True}
        # A shell that was begun in the background, as a gate may be, leaves Ctrl-C ignored to whatever it starts.
        how["preexec_fn"] = lambda: signal.signal(signal.SIGINT, signal.SIG_DFL)
        return subprocess.Popen([self.top / "track", *words], env=self.environment(**more), start_new_session=True, **how)

    def run(self, *words, **more):
        ran = self.start(*words, **more)
        out, err = ran.communicate(timeout=60)
        return ran.returncode, out, err

    def deeds(self):
        """What was built and proved since this was asked last."""
        deeds = self.told.read_text().split() if self.told.exists() else []
        self.told.unlink(missing_ok=True)
        return deeds


def at_terminal(ground, words, with_input=False):
    """What the wrapper says where standard error is a terminal, and on request standard input too."""
    ours, theirs = pty.openpty()
    how = {"stdin": theirs if with_input else subprocess.DEVNULL, "stdout": subprocess.PIPE, "stderr": theirs}
    ran = subprocess.run([ground.top / "track", *words], env=ground.environment(), timeout=60, check=False, **how)
    os.close(theirs)
    said = b""
    try:
        while piece := os.read(ours, 65536):
            said += piece
    except OSError:
        pass
    os.close(ours)
    return ran.returncode, ran.stdout.decode(), said.decode().replace("\r\n", "\n")


def wants(name, found, wanted):
    if found != wanted:
        sys.exit(f"{name}: {found!r}, and {wanted!r} is wanted")


# What is done to the repository first, the word that is run with its environment, what the program says and what is built for it.
# A row goes on from the one before.
ROWS = [
    ("a fresh clone", lambda it: None, {}, "unproved", ["built"]),
    ("once more", lambda it: None, {}, "unproved", []),
    ("a source that is touched alone", lambda it: os.utime(it.top / "crates/low/src/lib.rt"), {}, "unproved", []),
    ("a source of another program", lambda it: it.edit("other"), {}, "proved", ["proved-in-place"]),
    ("that source as before", lambda it: it.edit("other", "// other\n"), {}, "proved", []),
    ("an edited source", lambda it: it.edit(), {}, "proved", ["proved-in-place"]),
    ("the source as before", lambda it: it.edit("low", "// low\n"), {}, "unproved", []),
    ("a source that git doesn't know", lambda it: write(it.top / "crates/low/specs/New.antt", ""), {}, "proved", ["proved-in-place"]),
    ("and once more", lambda it: None, {}, "proved", []),
    ("another commit", lambda it: it.commit(), {}, "proved", []),
    ("a proved program alone is wanted", lambda it: (it.edit(), it.commit()), {"TRACK_PROVED": "1"}, "proved", ["proved"]),
    ("a proved program beside no other", lambda it: None, {}, "proved", []),
    ("sources of a later commit", lambda it: (it.edit("low", "// later\n"), it.commit()), {}, "unproved", ["built"]),
    ("what the gate has built", lambda it: write(it.top / "crates/track_main/out/track_main", PROGRAM.format("proved").replace("\\n", "\n"), 0o755),
     {}, "proved", []),
    ("an older source over one that was built", lambda it: it.replace("low", "// older\n"), {}, "proved", ["proved-in-place"]),
    ("that source as before", lambda it: it.edit("low", "// later\n"), {}, "unproved", []),
    ("a proved program again", lambda it: it.run("prove"), {}, "proved", ["proved"]),
    ("a folder of sources that is gone", lambda it: shutil.rmtree(it.top / "crates/low/src"), {}, "proved", ["proved-in-place"]),
    ("the folder as before", lambda it: it.edit("low", "// later\n"), {}, "unproved", []),
    ("a name with a quote", lambda it: (write(it.top / "crates/low/src/o'clock.rt", "// 1\n"), it.commit()), {}, "unproved", ["built"]),
    ("another text under it", lambda it: (write(it.top / "crates/low/src/o'clock.rt", "// 2\n"), it.commit()), {}, "unproved", ["built"]),
    ("another kit", lambda it: write(it.room / "kit/KIT-ID", "rattle-kit-99 logic other\n"), {}, "proved", ["proved"]),
    ("the kit as before", lambda it: write(it.room / "kit/KIT-ID", KIT_LINE + "\n"), {}, "unproved", []),
    ("a kit that keeps no proofs", lambda it: write(it.room / "kit/KIT-ID", "rattle-kit-13b logic pretended\n"), {"TRACK_PROVED": "1"}, "proved",
     ["proved-in-place"]),
    ("the first kit again", lambda it: write(it.room / "kit/KIT-ID", KIT_LINE + "\n"), {}, "unproved", []),
    ("no git", lambda it: (it.top / ".git").rename(it.room / "git"), {}, "proved", ["proved"]),
    ("git again", lambda it: (it.room / "git").rename(it.top / ".git"), {}, "proved", []),
]


def play_rows(ground):
    for name, prepare, more, which, deeds in ROWS:
        prepare(ground)
        status, out, err = ground.run("cover", **more)
        wants(name, (status, out, ground.deeds()), (0, f"cover {which}\n", deeds))
        wants(name, err.endswith(WARNING), which == "unproved")
    wants("programs that are kept", len(list(ground.top.glob("out/unproved/*/track"))), 1)
    wants("the program's own status", ground.run("check")[0], 8)


def play_failures(ground):
    """Builds that fail; no kit; and `prove`, which proves once."""
    ground.edit("low", "// a build that fails\n")
    ground.commit()
    status, out, err = ground.run("cover", FAILS=1)
    wants("both builds fail", (status, out, ground.deeds()), (125, "", ["built", "refused"]))
    wants("both builds fail", "no such luck" in err and "the build failed" in err, True)
    wants("both builds fail", "low NOT PROVED" in err, True)
    wants("prove fails", (ground.run("prove", FAILS=1)[0], ground.deeds()), (125, ["refused"]))
    status, out, err = ground.run("prove", PATH=os.environ["PATH"] if not shutil.which("rt") else "/usr/bin:/bin")
    wants("no kit", (status, out, err.startswith("track: there is no rt")), (125, "", True))
    wants("prove", (ground.run("prove")[:2], ground.deeds()), ((0, ""), ["proved"]))
    wants("prove again", (ground.run("prove")[::2], ground.deeds()), ((0, "track: proved\n"), []))


def play_together(ground):
    """Two first commands at once, and one that is broken off."""
    ground.edit("low", "// two at once\n")
    ground.commit()
    both = [ground.start("cover", SLOW=2), ground.start("cover", SLOW=2)]
    for ran in both:
        out, err = ran.communicate(timeout=60)
        wants("two at once", (ran.returncode, out, err.endswith(WARNING)), (0, "cover unproved\n", True))
    wants("two at once", ground.deeds(), ["built"] if shutil.which("flock") else ["built", "built"])
    ground.edit("low", "// broken off\n")
    ground.commit()
    for how, ends in ((signal.SIGINT, (130, -2)), (signal.SIGTERM, (143, -15))):
        ran = ground.start("cover", SLOW=30)
        while not ground.told.exists():
            time.sleep(0.05)
        os.killpg(ran.pid, how)
        out, _ = ran.communicate(timeout=60)
        wants("broken off", (ran.returncode in ends, out, ground.deeds()), (True, "", ["built"]))
        time.sleep(0.2)
        wants("what is left", [it.name for it in ground.top.glob("out/unproved/room.*")], [])
    wants("after that", (ground.run("cover")[:2], ground.deeds()), ((0, "cover unproved\n"), ["built"]))


def has_ended(process, seconds=5):
    """Whether a process ends in this time; one that nobody waits for stays as a zombie."""
    for _ in range(seconds * 20):
        try:
            if pathlib.Path(f"/proc/{process}/stat").read_text().rpartition(")")[2].split()[0] == "Z":
                return True
        except FileNotFoundError:
            return True
        time.sleep(0.05)
    return False


# What a proof side by side reads: the program's crates alone, and no wrong bodies.
LAID_OUT = """./HANDLES
./crates.txt
./crates/low/specs/Lib.antt
./crates/low/specs/New.antt
./crates/low/src/lib.rt
./crates/track_main/src/lib.rt
./crates/track_main/stdin
"""


def play_proofs(ground):
    """Proofs side by side: what lies in their room, and that it goes; two at once; one whose sources change, and one that is broken off."""
    left = lambda: sorted(it.name for it in (ground.room / "cache/track").iterdir() if it.is_dir())
    source = ground.top / "crates/low/src/lib.rt"
    source.with_name("o'clock.rt").unlink()
    ground.edit("low", "// side by side\n")
    ground.commit()
    both = [ground.start("prove", PROVES=2), ground.start("prove", PROVES=2)]
    for ran in both:
        out, err = ran.communicate(timeout=60)
        wants("two proofs at once", (ran.returncode, out, err.endswith("track: proved\n")), (0, "", True))
    wants("two proofs at once", ground.deeds(), ["proved"] if shutil.which("flock") else ["proved", "proved"])
    wants("what is laid out", (ground.room / "told.room").read_text(), LAID_OUT)
    wants("a room outside the repository", str(ground.top) in (ground.room / "told.place").read_text(), False)
    wants("what is left", left(), [])
    ground.edit("low", "// to be changed meanwhile\n")
    ground.commit()
    # In the repository, and by its way from the program's out/ in the room.
    for changed in (source, "../../low/src/lib.rt"):
        status, out, err = ground.run("prove", EDITS=changed)
        wants("changed meanwhile", (status, out, ground.deeds()), (125, "", ["proved"]))
        wants("changed meanwhile", err.endswith("track: the sources have changed while they were proved: prove them again\n"), True)
        wants("what is left", left(), [])
        ground.edit("low", "// to be changed meanwhile\n")
        wants("no program of others", ground.run("cover")[1], "cover unproved\n")
        ground.deeds()
    for how, ends in ((signal.SIGINT, (130, -2)), (signal.SIGTERM, (143, -15))):
        ran = ground.start("prove", PROVES=30)
        while not ground.told.exists():
            time.sleep(0.05)
        os.killpg(ran.pid, how)
        out, _ = ran.communicate(timeout=60)
        wants("a proof broken off", (ran.returncode in ends, out, ground.deeds()), (True, "", ["proved"]))
        wants("its rt has ended", has_ended((ground.room / "told.process").read_text().strip()), True)
        wants("what is left", left(), [])
    wants("after that", (ground.run("prove")[:2], ground.deeds()), ((0, ""), ["proved"]))


PAGE = """| crate | proof | edits | crate | proof | edits | crate | proof | edits |
|---|---|---|---|---|---|---|---|---|
| low | 120 | 30 | middle | 240 | 10 | other | 600 |  |
| high | 60 |  |  |  |  |  |  |  |
"""


def play_progress():
    """How far a proof is: three crates one upon the other, and one beside them."""
    crates = progress.listed("# crates\nlow: std\nmiddle: low\nhigh staticlib: middle std\nother:\n")
    wants("the crates", crates, {"low": [], "middle": ["low"], "high": ["middle"], "other": []})
    rows = [
        (set(), "", 30, 2, "0 of 4 crates proved; some 10 minutes left, by the times of docs/PROVING.md"),
        ({"low", "other"}, "rt: low is kept: an earlier run\n", 30, 2, "1 of 4 crates proved, 1 of them by earlier runs; now other; some 5 minutes left, by the times of docs/PROVING.md"),
        ({"low", "middle", "other"}, "rt: low proved\nrt: other proved\n", 1200, 2, "2 of 4 crates proved; now middle; some 6 minutes left, by the times of docs/PROVING.md"),
        (set(crates), "".join(f"rt: {name} proved\n" for name in crates), 900, 2, "4 of 4 crates proved"),
    ]
    for begun, log, gone, lanes, told in rows:
        wants(log, progress.far(crates, begun, log, PAGE, gone, lanes), told)
    wants("no page", progress.far(crates, {"low"}, "", "", 30, 4), "0 of 4 crates proved; now low")
    own = progress.seconds_of((TOP / "docs/PROVING.md").read_text(encoding="utf-8"))
    wants("the times of docs/PROVING.md", len(own) > 40 and own["net_reader"] > 0, True)


def play_words(ground):
    """Words for which nothing is built, and what is said at a terminal."""
    ground.edit("low", "// words\n")
    ground.commit()
    for words in ([], ["--help"], ["-h"], ["help"], ["--version"], ["covr"], ["prove", "all"], ["cover", "file"], ["make", "1"]):
        wants(words, ground.run(*words), (2, "", ""))
        status, out, err = at_terminal(ground, words)
        wants(words, (status, out, bool(err)), (2, "", True))
        wants(words, (KIT_LINE if words == ["--version"] else "./track WORD < INPUT") in err, True)
    _, _, err = at_terminal(ground, ["cover", "file"])
    wants("a file as a word", err.startswith("track: cover reads standard input: ./track cover < file\n"), True)
    wants("nothing is built", ground.deeds(), [])
    ground.run("cover")
    for words, waits in ((["cover"], "an input"), (["check"], "an input, a line 'report' and a report"), (["make", *"123456"], None)):
        _, out, err = at_terminal(ground, words, with_input=True)
        waiting = f"track: waiting for {waits} on standard input; Ctrl-D ends it\n" if waits else ""
        wants(words, (out, err), (f"{' '.join(words)} unproved\n", WARNING + waiting))


def compare_words():
    """The words that ./track lets through are those of the program, and each is told."""
    text = (TOP / "track").read_text()
    served = {word for line in re.findall(r"^    (.*)\) reads=", text, flags=re.M) for word in line.split(" | ")} - {"prove"}
    code = (TOP / "crates/word_line/src/words.rt").read_text()
    wants("the words of ./track", served, set(re.findall(r'^ *"(\w+)" => ', code, flags=re.M)))
    told = text[text.index("<<END"):text.index("\nEND\n")]
    wants("words that its help doesn't tell", {word for word in served if not re.search(rf"\b{word}\b", told)}, set())


def build_for_real(room):
    """The first run in a fresh clone, with the kit that is there."""
    subprocess.run(["git", "clone", "-q", TOP, room / "clone"], check=True)
    begun = time.monotonic()
    with open(TOP / "examples/line-of-four.txt", "rb") as given:
        ran = subprocess.run([room / "clone/track", "cover"], stdin=given, capture_output=True, check=False, timeout=900)
    wants("the plan", ran.stdout, (TOP / "examples/line-of-four.cover").read_bytes())
    wants("what is said", ran.stderr.decode().endswith(WARNING), True)
    print(f"wrapper: a first run in a fresh clone took {time.monotonic() - begun:.0f} seconds")


def main():
    compare_words()
    play_progress()
    with tempfile.TemporaryDirectory() as room:
        if sys.argv[1:] == ["--real"]:
            build_for_real(pathlib.Path(room))
            return
        ground = Ground(pathlib.Path(room))
        for play in (play_rows, play_failures, play_together, play_proofs, play_words):
            play(ground)
    print(f"wrapper: {len(ROWS)} rows, failures, two at once, broken off, proofs side by side, words: passed")


main()
