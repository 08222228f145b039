#!/usr/bin/env python3
"""Runs the programs of docs/EMBEDDING.md: those of Python say what the page says, and that of C finds the same.
Usage: bindings/checks/embedding.py FOLDER      which has libtrack.a and libtrack.so"""
import os
import pathlib
import subprocess
import sys
import tempfile

TOP = pathlib.Path(__file__).resolve().parents[2]


def program(page, first, last):
    """The indented lines between two texts of the page."""
    part = page[page.index(first):page.index(last)]
    return "\n".join(line[4:] for line in part.split("\n") if line.startswith("    ") or not line)


def run(words, **more):
    ran = subprocess.run(words, capture_output=True, text=True, check=False, **more)
    if ran.returncode:
        sys.exit(f"embedding: {words[0]} ended with {ran.returncode}: {ran.stderr.strip()}")
    return ran.stdout


def main():
    library = pathlib.Path(sys.argv[1]).resolve()
    page = (TOP / "docs/EMBEDDING.md").read_text(encoding="utf-8")
    names = {"TRACK_LIBRARY": str(library / "libtrack.so"), "PYTHONPATH": str(TOP / "bindings/python/src")}
    told = run([sys.executable, "-B", "-c", program(page, "**Python**", "It prints")], env={**os.environ, **names}).strip()
    if f"`{told}`" not in page:
        sys.exit(f"embedding: the program of Python prints {told}, and the page has something else")
    told = run([sys.executable, "-B", "-c", program(page, "## A directory that the library keeps", "It prints 1.")], env={**os.environ, **names})
    if told != "1\n":
        sys.exit(f"embedding: the program of a crew prints {told!r}")
    with tempfile.TemporaryDirectory() as room:
        source = pathlib.Path(room) / "finder.c"
        source.write_text(program(page, "**C**", "Each call answers a code"), encoding="utf-8")
        run(["gcc", "-Wall", "-Wextra", "-Werror", "-I", TOP / "bindings/c", "-o", f"{room}/finder", source, library / "libtrack.a"])
        told = run([f"{room}/finder"])
    if told != "kind 0 node 1 number 1\n":
        sys.exit(f"embedding: the program of C prints {told!r}")


main()
