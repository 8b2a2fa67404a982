#!/usr/bin/env python3
"""Builds and runs the guest that docs/GUESTS_IN_C.md writes and the module that docs/MODULES_IN_C.md writes, from the pages' own blocks,
and compares the traces with the pages'. Of another compiler than that of the images only the entries are compared, and the releases.
usage: check_page.py PROGRAM"""
from __future__ import annotations

import os
import re
import shutil
import subprocess
import sys
import tempfile
from typing import List

TOP = os.path.realpath(os.path.join(os.path.dirname(__file__), "..", ".."))
FILES = ["mine.c", "system.toml", "script"]
GUEST = "examples/first_steps/image.elf"
STAYS = " enter | on irq | release "


def block_behind(page: str, words: str) -> str:
    """The first indented block behind these words."""
    found = re.search(r"\n\n((?: {4}.*\n|\n(?= {4}))+)", page[page.index(words):])
    return re.sub("^ {4}", "", found.group(1), flags=re.M)


def first_line(words: List[str]) -> str:
    return subprocess.run(words, stdout=subprocess.PIPE, check=False).stdout.decode().split("\n")[0]


def is_same_compiler() -> bool:
    with open(os.path.join(TOP, "examples", "compiler"), encoding="utf-8") as file:
        return file.read().strip() == f"{first_line(['gcc', '--version'])}, {first_line(['ld', '--version'])}"


def check(program: str, document: str, build: List[str], ticks: str) -> None:
    """Builds what a page writes in a folder of its own, with the kept guest beside it, and runs it."""
    with open(os.path.join(TOP, "docs", document), encoding="utf-8") as file:
        page = file.read()
    with tempfile.TemporaryDirectory() as work:
        folder = os.path.join(work, "examples", "mine")
        os.makedirs(folder)
        for name in FILES:
            with open(os.path.join(folder, name), "w", encoding="utf-8") as file:
                file.write(block_behind(page, f"`examples/mine/{name}`"))
        os.makedirs(os.path.join(work, os.path.dirname(GUEST)))
        shutil.copy(os.path.join(TOP, GUEST), os.path.join(work, GUEST))
        subprocess.run([os.path.join(TOP, "examples", "build.sh"), folder, *build], check=True)
        shown = [line for line in block_behind(page, "Then it is built and run:").splitlines() if not line.startswith("$")]
        done = subprocess.run([program, "run", "examples/mine/system.toml", "--ticks", ticks], cwd=work, stdout=subprocess.PIPE, check=True)
    printed = done.stdout.decode().splitlines()
    if not is_same_compiler():
        shown, printed = ([line for line in lines if re.search(STAYS, line)] for lines in (shown, printed))
    if not shown or printed != shown:
        sys.exit(f"tools: what docs/{document} writes prints\n" + "\n".join(printed))
    print(f"tools: what docs/{document} writes prints the {len(shown)} lines that the page shows")


def main() -> None:
    if len(sys.argv) != 2:
        sys.exit("usage: check_page.py PROGRAM")
    program = os.path.abspath(sys.argv[1])
    check(program, "GUESTS_IN_C.md", [], "400")
    check(program, "MODULES_IN_C.md", ["--module"], "500")


if __name__ == "__main__":
    main()
