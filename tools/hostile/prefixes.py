#!/usr/bin/env python3
"""Runs systems for many lengths: the lines of a shorter run, but for its end lines, are just those of the longer one up to its last tick, so
they are a first part of them. A system with a FIFO and its handler for every length, and longer ones for 200 lengths each.

usage: prefixes.py PROGRAM [--seed N]"""
from __future__ import annotations

import argparse
import os
import random
import tempfile
from typing import Iterator, List, Tuple

import damage
import systems
from runner import WRONG, Folder, fail

LENGTHS = 200
ENDS = 4
FIFO_LONGEST, TIMER_TICKS, MANY_TICKS = 64, 90_000, 2_000
EXAMPLES = os.path.join(os.path.dirname(os.path.abspath(__file__)), os.pardir, os.pardir, "examples")

# A module whose init makes a thread that is due at tick 20 and every 32,769 ticks from then on, one more than a one-shot reaches.
CHAIN_MODULE = bytes.fromhex("b802000000bb2f100100b90a000000ba00300100be07000000cdf8b80600000031dbb914000000ba01800000cdf8c3cdf8ebfe")
CHAIN_TICKS = 32_790


def chain() -> systems.Run:
    files = {damage.SYSTEM: damage.system() + b'modules = ["m.elf"]\n', damage.IMAGE: damage.SMALL,
             damage.MODULE: damage.elf(0x11000, [(damage.LOAD, 0x11000, CHAIN_MODULE, 0)])}
    lines = [b"R 20 release 0\n", b"R 20 gate 7 00000000 00000000 00000000 00000000 0\n", b"R 32789 release 0\n", b"R 32790 end 1 1\n"]
    return systems.Run("a chain of one-shots", files, systems.run_words(CHAIN_TICKS, True), None, lines)


def timer() -> systems.Run:
    """The example with a clock by the executive's timer."""
    files = {}
    for name in ("system.toml", "image.elf", "script"):
        path = os.path.join(EXAMPLES, "timer", name)
        if os.path.exists(path):
            with open(path, "rb") as file:
                files[name.encode()] = file.read()
    text = files.pop(b"system.toml").replace(b"examples/timer/", b"")
    return systems.Run("the clock of examples/timer", {**files, damage.SYSTEM: text}, systems.run_words(TIMER_TICKS, True))


def longest(draw: random.Random) -> Iterator[Tuple[systems.Run, int, List[int]]]:
    """Runs, their longest length, and their shorter ones."""
    for hardware in (False, True):
        yield systems.fifo(FIFO_LONGEST, hardware), FIFO_LONGEST, list(range(1, FIFO_LONGEST))
    longer = ((chain(), CHAIN_TICKS), (timer(), TIMER_TICKS), (systems.realistic(hardware=True), systems.REALISTIC_TICKS),
              (systems.many_lines(MANY_TICKS), MANY_TICKS))
    for run, ticks in longer:
        yield run, ticks, draw.sample(range(1, ticks), LENGTHS)


def words_for(run: systems.Run, ticks: int) -> List[bytes]:
    return [b"%d" % ticks if word.isdigit() else word for word in run.words]


def body_of(place: Folder, run: systems.Run, ticks: int) -> List[bytes]:
    """The lines of a run but for its end lines, which have its last tick."""
    ended = place.run(words_for(run, ticks))
    lines = ended.output.splitlines(True)
    ends = [line.split()[:3] for line in lines[-ENDS:]]
    last = b"%d" % ticks
    if ended.status != 0 or ends != [[b"R", last, b"end"], [b"R", last, b"memory"], [b"G", last, b"end"], [b"G", last, b"memory"]]:
        fail(f"{run.name}: {ticks} ticks end with {ended.status} and {lines[-ENDS:]}")
    return lines[:-ENDS]


def main() -> None:
    words = argparse.ArgumentParser(description=__doc__, formatter_class=argparse.RawDescriptionHelpFormatter)
    words.add_argument("program")
    words.add_argument("--seed", type=int, default=1)
    read = words.parse_args()
    program = os.path.abspath(read.program)
    with tempfile.TemporaryDirectory() as folder:
        os.chdir(folder)
        place = Folder(program)
        for run, ticks, lengths in longest(random.Random(read.seed)):
            place.hold(run.files)
            whole = body_of(place, run, ticks)
            systems.checked(run, place.run(words_for(run, ticks)))
            for length in lengths:
                wanted = [line for line in whole if int(line.split(b" ", 2)[1]) <= length + WRONG]
                if whole[:len(wanted)] != wanted:
                    fail(f"{run.name}: the ticks of its lines fall")
                found = body_of(place, run, length)
                if found != wanted:
                    fail(f"{run.name}: {length} ticks have {len(found)} lines, and not the first {len(wanted)} of those of {ticks} ticks")
            print(f"hostile: the lines of {len(lengths)} shorter runs of {run.name} are those of {ticks} ticks up to theirs ({len(whole)} lines)")


if __name__ == "__main__":
    main()
