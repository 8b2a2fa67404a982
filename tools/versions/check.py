#!/usr/bin/env python3
"""Runs random systems in both versions of the rule that picks among equal priorities. Of each the table has the first tick in which the versions
differ, and who is on in it: that is read off the real-time lines of the model alone, by a thread's due (the start that gate 6 gives, the
periods that gate 7 adds, the tick and the length of gate 23) and by the lines and gates that make it ready. The program has to print the
model's lines in both versions.

usage: check.py PROGRAM     runs the systems of the table
       check.py --table     writes a table of the first systems that differ
"""
import itertools
import os
import pathlib
import subprocess
import sys
import tempfile
from typing import Iterator, List, Optional, Tuple

from system import SIDE, TICKS, Line, Model, image_of, module_of, random_system
from wrong import RULES

HERE = pathlib.Path(__file__).resolve().parent
sys.path.insert(0, str(HERE.parents[1] / "examples"))
import schedule_model  # pylint: disable=wrong-import-position

TABLE = HERE / "table.txt"
SYSTEMS = 40
# A guest that jumps to itself.
KERNEL = image_of(0x1234, b"\xeb\xfe")
FILE = """version = {version}
image = "k.bin"
guest_memory = {side}
real_time_memory = {side}
modules = ["m.elf"]
"""

# The first tick that differs, and who is on in it, by each version.
Row = Tuple[int, str, str]


def fail(what: str) -> None:
    sys.exit(f"versions: {what}")


class Reader(schedule_model.Holders):
    """Reads the lines of a run in one version, and notes the first tick in which the other one would put on another thread."""

    def __init__(self, version: int):
        super().__init__(version)
        self.now = 0
        self.first: Optional[Row] = None

    def wanted(self) -> str:
        first, second = self.wanted_by(1), self.wanted_by(2)
        if self.first is None and first != second:
            self.first = (self.now, first, second)
        return super().wanted()


def read(lines: List[Line], version: int) -> Optional[Row]:
    reader = Reader(version)
    words = {tick: [text.split() for _, text in group] for tick, group in itertools.groupby(lines, key=lambda line: line[0])}
    for tick in range(1, TICKS + 1):
        reader.now = tick
        reader.tick(tick, words.get(tick, []))
    return reader.first


def first_difference(first: List[Line], second: List[Line]) -> int:
    """The first tick in which two runs have different lines."""
    return next((min(a[0], b[0]) for a, b in itertools.zip_longest(first, second, fillvalue=(TICKS, "")) if a != b), 0)


def row_of(seed: int) -> Optional[Row]:
    system = random_system(seed)
    lines = {version: Model(system, version).lines for version in (1, 2)}
    rows = {version: read(lines[version], version) for version in (1, 2)}
    if rows[1] != rows[2]:
        fail(f"system {seed} differs first in {rows[1]} by the lines of version 1, and in {rows[2]} by those of version 2")
    if first_difference(lines[1], lines[2]) != (rows[1][0] if rows[1] else 0):
        fail(f"the lines of system {seed} differ first in {first_difference(lines[1], lines[2])}, not {rows[1]}")
    return rows[1]


def rows_found() -> Iterator[Tuple[int, Row]]:
    for seed in itertools.count(1):
        row = row_of(seed)
        if row:
            yield seed, row


def rows_kept() -> Iterator[Tuple[int, Row]]:
    for line in TABLE.read_text(encoding="utf-8").splitlines():
        if line and not line.startswith("#"):
            seed, tick, first, second = (field.strip() for field in line.split("|"))
            yield int(seed), (int(tick), first, second)


def printed(program: str, folder: str, version: int) -> List[Line]:
    """The real-time lines that the program prints, but the digest."""
    pathlib.Path(folder, "s.toml").write_text(FILE.format(version=version, side=SIDE), encoding="utf-8")
    done = subprocess.run([program, "run", "s.toml", "--ticks", str(TICKS)], cwd=folder, stdout=subprocess.PIPE, check=False)
    if done.returncode != 0:
        fail(f"the program ended with {done.returncode}")
    lines = [line.split(" ", 2) for line in done.stdout.decode().splitlines()]
    return [(int(tick), text) for half, tick, text in lines if half == "R" and not text.startswith("memory ")]


def check(program: str, seed: int, row: Row) -> None:
    if row_of(seed) != row:
        fail(f"the lines of system {seed} differ first in {row_of(seed)}, and the table has {row}")
    system = random_system(seed)
    runs = {}
    with tempfile.TemporaryDirectory() as folder:
        pathlib.Path(folder, "k.bin").write_bytes(KERNEL)
        pathlib.Path(folder, "m.elf").write_bytes(module_of(system))
        for version in (1, 2):
            runs[version] = printed(program, folder, version)
            wanted = Model(system, version).lines
            if runs[version] != wanted:
                pair = next((pair for pair in itertools.zip_longest(runs[version], wanted) if pair[0] != pair[1]), None)
                fail(f"system {seed} in version {version} has the line {pair[0]}, and the model {pair[1]}")
    if first_difference(runs[1], runs[2]) != row[0]:
        fail(f"the outputs of system {seed} differ first in {first_difference(runs[1], runs[2])}, not {row[0]}")


def check_wrong_rules(seeds: List[int]) -> None:
    """Each wrong rule of version 2 has other lines in one of the systems, so that a program with it doesn't pass."""
    for rule in RULES:
        if all(rule(system, 2).lines == Model(system, 2).lines for system in map(random_system, seeds)):
            fail(f"no system tells {rule.__name__} from the rule")


def main() -> None:
    if sys.argv[1:] == ["--table"]:
        print("# seed | the first tick that differs | who is on in it in version 1 | and in version 2")
        for seed, (tick, first, second) in itertools.islice(rows_found(), SYSTEMS):
            print(f"{seed} | {tick} | {first} | {second}")
        return
    if len(sys.argv) != 2 or not os.access(sys.argv[1], os.X_OK):
        sys.exit("usage: check.py PROGRAM | --table")
    rows = list(rows_kept())
    check_wrong_rules([seed for seed, _ in rows])
    for seed, row in rows:
        check(os.path.realpath(sys.argv[1]), seed, row)
    print(f"versions: {len(rows)} systems have the lines of the model in both versions, and differ first in their ticks")


if __name__ == "__main__":
    main()
