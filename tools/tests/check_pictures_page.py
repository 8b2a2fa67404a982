#!/usr/bin/env python3
"""Runs each command of docs/PICTURES.md as it stands there, in a folder of its own with the examples and the tools beside it, and compares what is
shown below it with what it prints. The page may leave lines out, but not show others.
usage: check_pictures_page.py PROGRAM"""
from __future__ import annotations

import os
import re
import shutil
import subprocess
import sys
import tempfile
from typing import List, Tuple

from check_pictures import python_with_matplotlib
from common_test import TOP, fail, passed

PAGE = "docs/PICTURES.md"
PROGRAM = "crates/rtlinux_cli/out/rtlinux_cli"


def blocks(page: str) -> List[Tuple[str, List[str]]]:
    """Each command with the lines that are shown below it."""
    found: List[Tuple[str, List[str]]] = []
    for block in re.findall(r"(?:^ {4}.*\n|^\n(?= {4}))+", page, re.M):
        for line in block.splitlines():
            if line.startswith("    $ "):
                found.append((line[6:], []))
            elif found:
                found[-1][1].append(line[4:])
    return found


def prepare(folder: str, program: str) -> None:
    """A folder in which the page's names are found, and no file of the repository is written."""
    for name in ("examples", "tools"):
        os.symlink(os.path.join(TOP, name), os.path.join(folder, name))
    os.makedirs(os.path.join(folder, "docs"))
    os.makedirs(os.path.join(folder, os.path.dirname(PROGRAM)))
    os.symlink(program, os.path.join(folder, PROGRAM))


def check(command: str, shown: List[str], folder: str, python: str) -> None:
    """A tool is run by the python3 that the tests run by, or by the one that has matplotlib."""
    with_python = re.sub(r"(^|\| )tools/", rf"\1'{python}' tools/", command)
    done = subprocess.run(with_python, shell=True, cwd=folder, stdout=subprocess.PIPE, stderr=subprocess.PIPE, check=False, executable="/bin/bash")
    printed = [line.rstrip() for line in (done.stdout + done.stderr).decode().splitlines()]
    if done.returncode != (2 if done.stderr else 0):
        fail(f"{PAGE}: '{command}' ended with {done.returncode}: {done.stderr.decode()}")
    rest = iter(printed)
    for line in shown:
        if line and line not in rest:
            fail(f"{PAGE} shows '{line}' below '{command}', which prints\n" + "\n".join(printed[:60]))
    written = re.search(r" -o (\S+)$", command)
    if written and os.path.getsize(os.path.join(folder, written.group(1))) < 1000:
        fail(f"{PAGE}: '{command}' wrote nothing")


def main() -> None:
    if len(sys.argv) != 2:
        sys.exit("usage: check_pictures_page.py PROGRAM")
    program = os.path.abspath(sys.argv[1])
    os.chdir(TOP)
    with open(PAGE, encoding="utf-8") as file:
        found = blocks(file.read())
    has_names = all(shutil.which(name) for name in ("nm", "addr2line"))
    run = 0
    with tempfile.TemporaryDirectory() as folder:
        prepare(folder, program)
        for command, shown in found:
            python = python_with_matplotlib() if command.endswith(".png") else sys.executable
            if not python:
                passed(f"skipped, no python3-matplotlib: '{command}'")
            elif "--system" in command and shown and not has_names:
                passed(f"skipped, no binutils: what is shown below '{command}'")
            else:
                check(command, shown, folder, python)
                run += 1
    if run < 6:
        fail(f"{PAGE} has only {run} commands that run here")
    passed(f"the {run} commands of {PAGE} print what it shows")


if __name__ == "__main__":
    main()
