#!/usr/bin/env python3
"""Refuses each allocation of a whole run in turn, one number a run, and then each with all behind it: every such run has to end in want of memory,
status 9, with nothing written, or as the run does to which nothing is refused.

usage: refused_memory.py PROGRAM"""
from __future__ import annotations

import os
import sys
import tempfile
from typing import List

import library
import systems
from runner import WRONG, Ended, Folder, fail

NO_MEMORY = Ended(9 - WRONG, b"")
LEAST = 3


def runs() -> List[systems.Run]:
    more = [systems.fifo(), systems.fifo(hardware=True), systems.realistic(), systems.many_modules(), systems.flat("a flat image", b"\xeb\xfe", 5)]
    return more + list(systems.refused())


def try_run(place: Folder, shared: str, run: systems.Run) -> str:
    """Refuses each allocation of a run, and says how many there were."""
    place.hold(run.files)
    plain, counts = library.tried(place, shared, run.words)
    systems.checked(run, plain)
    if counts.allocations < LEAST:
        fail(f"{run.name}: the library saw {counts.allocations} allocations, so it isn't what the program asks")
    ended_so, before_files = 0, 0
    for number in range(1, counts.allocations + 2):
        for more in ({}, {"refuse_on": 1}):
            ended, seen = library.tried(place, shared, run.words, refuse_allocation=number, **more)
            if number > counts.allocations:
                if (ended, seen) != (plain, counts):
                    fail(f"{run.name}: a second run differs from the first: {ended}, {seen}")
            elif ended not in (NO_MEMORY, plain):
                fail(f"{run.name}: with allocation {number} refused {more}: {ended}, and neither {NO_MEMORY} nor {plain}")
            ended_so += ended == NO_MEMORY
            before_files += ended == NO_MEMORY and seen.opens == 0
    if ended_so == 0 or before_files == 0:
        fail(f"{run.name}: no run ended in want of memory, or none before a file was opened")
    return f"{counts.allocations} allocations, {ended_so} ends in want of memory, {before_files} of them before a file was opened"


def main() -> None:
    if len(sys.argv) != 2:
        fail("usage: refused_memory.py PROGRAM")
    program = os.path.abspath(sys.argv[1])
    with tempfile.TemporaryDirectory() as folder:
        os.chdir(folder)
        shared = library.build(folder)
        place = Folder(program)
        for run in runs() + systems.makes_of(place, "refused memory"):
            print(f"hostile: refused memory, {run.name}: {try_run(place, shared, run)}")


if __name__ == "__main__":
    main()
