#!/usr/bin/env python3
"""Runs the program on damaged files and compares each answer with the oracle's: the cases of the table, each byte of a header, of a system file
and of a script replaced, cuts at every length, files at the limits, every choice of what is wrong with all files at once, and files that are
damaged by chance, up to the number that is asked for.

usage: campaign.py PROGRAM [--files N] [--seed N] [--processes N] [--case NUMBER]

With --case the one file by chance of that number is run, and its files are shown."""
from __future__ import annotations

import argparse
import collections
import functools
import multiprocessing
import os
import shutil
import sys
import tempfile
from typing import Counter, Iterator, List, NamedTuple, Tuple

import damage
import document
from oracle import RULES, Expected, Oracle, Rules
from runner import Ended, Folder, fail

LEAST, VALUES, CHUNK, SHOWN, PROGRESS = 20_000, 8, 500, 5, 50_000
# Each a wrong rule: the campaign has to tell it from the right one.
WRONG = [
    {"header": 51}, {"header": 53}, {"most_headers": 63}, {"most_headers": 65}, {"kinds": (2, 3)}, {"kinds": (1, 2)}, {"machine": 6},
    {"program_header": 31}, {"file_slack": 1}, {"file_slack": -1}, {"size_slack": 1}, {"interpreter": 4}, {"side_slack": 1},
    {"side_slack": -1}, {"shared": False}, {"stub": 15},
    {"stub": 17}, {"stack": 4095}, {"stack": 4097}, {"page": 2048}, {"least": 69_632}, {"least": 61_440}, {"most_guest": 16_781_312},
    {"versions": (1,)}, {"versions": (1, 2, 3)}, {"most_name": 254}, {"most_name": 256}, {"most_modules": 15}, {"most_modules": 17},
    {"fields_first": True},
    {"most_events": 15}, {"most_events": 17}, {"most_tick": 999_999_999}, {"most_tick": 1_000_000_001}, {"digits": 9}, {"digits": 11},
    {"lines": (1, 4, *RULES.lines[1:])}, {"lines": RULES.lines[:-1]}, {"falls": True}, {"kept_return": False}, {"module_later": False},
    {"script_late": False}, {"image_early": False}, {"read_early": True},
]


class Found(NamedTuple):
    """What a part of the campaign came to: how many answers of each kind, and what differs."""
    kinds: Counter[str]
    differences: List[str]
    answers: List[Tuple[damage.Case, Ended]]


@functools.lru_cache(maxsize=64)
def voices(content: bytes) -> str:
    return document.voices_differ(content)


def expected_of(case: damage.Case, rules: Rules = RULES) -> Expected:
    oracle = Oracle(case.files, rules)
    return oracle.flat(damage.IMAGE, damage.TICKS) if case.flat else oracle.run(damage.SYSTEM, damage.TICKS, case.hardware)


def words_of(case: damage.Case) -> List[bytes]:
    ticks = b"%d" % damage.TICKS
    if case.flat:
        return [b"flat", damage.IMAGE, ticks]
    return [b"run", damage.SYSTEM, b"--ticks", ticks] + [b"--hardware"] * case.hardware


def kind_of(expected: Expected) -> str:
    if expected.shape is not None:
        return "done, with unknown code"
    if expected.other is not None:
        return "E 10 or E 11"
    words = expected.output.split(b" ", 2)
    return f"E {words[1].decode()}" if words[0] == b"E" else f"status {expected.status}"


def part_of(part: Tuple[str, int, int, int]) -> Iterator[Tuple[damage.Case, Expected]]:
    """The cases of a part, with what they have to come to."""
    what, seed, first, last = part
    if what == "table":
        for case, line in damage.table():
            expected = expected_of(case)
            shown = expected.output.decode().split("\n")[0] if line else ""
            if shown != line or (not line and expected.status != 0):
                fail(f"{case.name}: the oracle says {expected}, and the table '{line}'")
            yield case, expected
        return
    for case in damage.by_chance(seed, first, last) if what == "chance" else systematic()[first:last]:
        yield case, expected_of(case)


@functools.lru_cache(maxsize=1)
def systematic() -> List[damage.Case]:
    """All cases but those of the table and those by chance."""
    return [*damage.bounds(), *damage.orders(), *damage.each_byte(VALUES)]


def try_part(program: str, folder: str, part: Tuple[str, int, int, int]) -> Found:
    os.chdir(tempfile.mkdtemp(dir=folder))
    place = Folder(program)
    found = Found(collections.Counter(), [], [])
    for case, expected in part_of(part):
        place.hold(case.files)
        ended = place.run(words_of(case))
        found.kinds[kind_of(expected)] += 1
        if not expected.holds(*ended):
            found.differences.append(f"{case.name}: {ended}, and not {expected}")
        differ = voices(case.files.get(damage.SYSTEM, b""))
        if differ:
            found.differences.append(f"{case.name}: two readers of TOML differ on its system file: {differ}")
        if part[0] != "chance":
            found.answers.append((case, ended))
    for descriptor in [*place.places.values(), place.errors]:
        os.close(descriptor)
    return found


def parts(seed: int, files: int) -> List[Tuple[str, int, int, int]]:
    each = len(systematic())
    more = max(0, files - each - len(list(damage.table())))
    return ([("table", 0, 0, 0)] + [("each", 0, at, min(at + CHUNK, each)) for at in range(0, each, CHUNK)]
            + [("chance", seed, at, min(at + CHUNK, more)) for at in range(0, more, CHUNK)])


def refuses_wrong_rules(answers: List[Tuple[damage.Case, Ended]]) -> None:
    """Each wrong rule differs from the program somewhere in the answers that were kept."""
    unseen = [wrong for wrong in WRONG if all(expected_of(case, RULES._replace(**wrong)).holds(*ended) for case, ended in answers)]
    if unseen:
        fail(f"no file of the campaign tells these wrong rules from the right ones: {unseen}")
    print(f"hostile: each of {len(WRONG)} wrong rules, such as {WRONG[0]}, differs from the program on some file")


def whole(program: str, seed: int, files: int, processes: int) -> None:
    kinds: Counter[str] = collections.Counter()
    differences: List[str] = []
    answers: List[Tuple[damage.Case, Ended]] = []
    folder = tempfile.mkdtemp()
    try:
        with multiprocessing.Pool(processes) as pool:
            for found in pool.imap_unordered(functools.partial(try_part, program, folder), parts(seed, files)):
                kinds += found.kinds
                differences += found.differences[:SHOWN]
                answers += found.answers
                if sum(kinds.values()) // PROGRESS > (sum(kinds.values()) - sum(found.kinds.values())) // PROGRESS:
                    print(f"hostile: {sum(kinds.values())} files so far, {len(differences)} differ", file=sys.stderr, flush=True)
    finally:
        shutil.rmtree(folder)
    for difference in differences[:SHOWN]:
        print(f"hostile: {difference}", file=sys.stderr)
    if differences:
        fail(f"the answers to damaged files differ from the oracle's, seed {seed}")
    print(f"hostile: {sum(kinds.values())} damaged files, seed {seed}, are answered as the oracle says: "
          + ", ".join(f"{count} {kind}" for kind, count in sorted(kinds.items())))
    refuses_wrong_rules(sorted(answers, key=lambda one: one[1].status == 0))


def show(program: str, seed: int, number: int) -> None:
    case = next(damage.by_chance(seed, number, number + 1))
    for name, content in case.files.items():
        print(f"{name.decode()}: {content!r}")
    folder = tempfile.mkdtemp()
    try:
        os.chdir(folder)
        place = Folder(program)
        place.hold(case.files)
        print(place.run(words_of(case)))
        print(expected_of(case))
    finally:
        shutil.rmtree(folder)


def main() -> None:
    words = argparse.ArgumentParser(description=__doc__, formatter_class=argparse.RawDescriptionHelpFormatter)
    words.add_argument("program")
    words.add_argument("--files", type=int, default=LEAST)
    words.add_argument("--seed", type=int, default=1)
    words.add_argument("--processes", type=int, default=2)
    words.add_argument("--case", type=int)
    read = words.parse_args()
    program = os.path.abspath(read.program)
    if read.case is not None:
        show(program, read.seed, read.case)
    else:
        whole(program, read.seed, read.files, read.processes)


if __name__ == "__main__":
    main()
