"""The program that scripts, checks and benches call: which one it is, and what it writes."""
from __future__ import annotations

import os
import shutil
import subprocess
import sys

from texts import BadText

TOP = os.path.realpath(os.path.join(os.path.dirname(os.path.realpath(__file__)), ".."))
OURS = os.path.join(TOP, "track")
PROVED = os.path.join(TOP, "crates/track_main/out/track_main")  # without the words of ./track around it, to be measured


def program_path(otherwise: str = OURS) -> str:
    """Where the program stands: as TRACK says, else ./track of the repository. A name without a slash is sought as the shell seeks
    it, and then in the folder where the script was called; any other is a path from there."""
    name = os.environ.get("TRACK")
    if not name:
        return otherwise
    found = shutil.which(name) or shutil.which(os.path.join(os.curdir, name))
    if not found:
        raise BadText(f"TRACK names {name}, which isn't a program that can be run")
    return os.path.abspath(found)


def tried_program(otherwise: str = OURS) -> str:
    """The program that a check or a bench tries: none that wasn't proved, but where TRACK names it. What the script calls, from
    whatever folder, takes the same. Where TRACK names none that can be run, the script ends with one line."""
    os.environ.setdefault("TRACK_PROVED", "1")
    try:
        path = program_path(otherwise)
    except BadText as bad:
        sys.exit(f"{os.path.basename(sys.argv[0])}: {bad}")
    if os.environ.get("TRACK"):
        os.environ["TRACK"] = path
    return path


class Program:
    """The program by its path. What it says on standard error is shown at its first call: a build that it makes first takes long,
    and later calls say the same once more."""

    def __init__(self, path: str | None = None):
        self.path, self.called = path or program_path(), False

    def ask(self, words: str, text: str) -> str:
        """What the program writes to an input, by a word or by more."""
        shown = subprocess.PIPE if self.called else None
        try:
            ran = subprocess.run([self.path, *words.split()], input=text.encode(), stdout=subprocess.PIPE, stderr=shown, check=False)
        except OSError as bad:
            raise BadText(f"the program {self.path} doesn't run: {bad.strerror}") from None
        self.called = True
        if ran.returncode != 0:
            raise BadText(f"{self.path} {words} ended with status {ran.returncode}")
        return ran.stdout.decode("latin-1")
