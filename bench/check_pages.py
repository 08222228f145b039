#!/usr/bin/env python3
"""Runs what pages tell their readers to type, and holds what comes to what the pages show. A block of lines that are indented by
four spaces and begin with '$ ' is such: a line '$ COMMAND' is run by sh, and the lines after it, up to the next command, are what it
writes to standard output and standard error. '...' at the end of a block stands for whatever else it writes. A line '[STATUS]'
after them is its exit status, where that isn't 0. What the lab says of its progress, on a slow machine alone, isn't looked at.

Usage, at the top of the repository: bench/check_pages.py PAGE..

The commands of a page run one after another in a folder of its own that links to the repository's files, so that a page may make
files. TRACK names the program in place of ./track, where it is set."""
import os
import re
import subprocess
import sys
import tempfile

sys.dont_write_bytecode = True
TOP = os.path.realpath(os.path.join(os.path.dirname(os.path.realpath(__file__)), ".."))
sys.path.insert(0, os.path.join(TOP, "scripts"))
from program import OURS, tried_program  # noqa: E402
from texts import BadText, ends_clearly  # noqa: E402

PROGRAM = tried_program()
PROGRESS = re.compile(r"^lab: (?:.+, [\d,]+ of [\d,]+ calls|(?:measuring|writing|making|drawing|weighing) .+)\n", re.M)


def blocks_of(page):
    """The blocks of a page that begin with a command: lists of lines."""
    blocks, lines = [], []
    for line in page.split("\n") + ["."]:
        if line.startswith("    "):
            lines.append(line[4:])
        elif lines and not line.strip():
            lines.append("")
        else:
            while lines and not lines[-1]:
                lines.pop()
            blocks += [lines] if lines and lines[0].startswith("$ ") else []
            lines = []
    return blocks


def commands_of(block):
    """Each command of a block, with what it is to write and its status. A command goes on where a line opens a text with <<."""
    steps, lines = [], list(block)
    while lines:
        command = lines.pop(0)[2:]
        opened = re.search(r"<<'?(\w+)'?", command)
        while opened and lines:
            line = lines.pop(0)
            command += "\n" + line
            if line == opened.group(1):
                break
        wanted, status = [], 0
        while lines and not lines[0].startswith("$ "):
            wanted.append(lines.pop(0))
        if wanted and re.fullmatch(r"\[\d+\]", wanted[-1]):
            status = int(wanted.pop()[1:-1])
        steps.append((command, wanted, status))
    return steps


def run(command, folder):
    if PROGRAM != OURS:
        command = re.sub(r"(?<![\w/])\./track\b", lambda _: PROGRAM, command)
    done = subprocess.run(["sh", "-c", command], cwd=folder, stdin=subprocess.DEVNULL, stdout=subprocess.PIPE,
                          stderr=subprocess.STDOUT, check=False)
    return PROGRESS.sub("", done.stdout.decode(errors="replace")), done.returncode


def agrees(lines, wanted):
    if wanted and wanted[-1] == "...":
        return lines[:len(wanted) - 1] == wanted[:-1]
    return lines == wanted


def check(path):
    """Runs a page; how many commands it has."""
    with open(path, encoding="utf-8") as file:
        blocks = blocks_of(file.read())
    count = 0
    with tempfile.TemporaryDirectory() as folder:
        for name in os.listdir(TOP):
            if not name.startswith("."):
                os.symlink(os.path.join(TOP, name), os.path.join(folder, name))
        for command, wanted, status in (step for block in blocks for step in commands_of(block)):
            text, ended = run(command, folder)
            lines = text.split("\n")[:-1] if text.endswith("\n") else text.split("\n") if text else []
            if ended != status:
                raise BadText(f"{path}: '{command}' ended with status {ended}, and not {status}: {text[-300:]}")
            if not agrees(lines, wanted):
                raise BadText(f"{path}: '{command}' writes\n{text}")
            count += 1
    return count


def main():
    if len(sys.argv) < 2:
        raise BadText("the words are pages")
    print("; ".join(f"{path}: {check(path)} commands" for path in sys.argv[1:]))


if __name__ == "__main__":
    ends_clearly(main)
