#!/usr/bin/env python3
"""Compares `make` with `run`: for each number and each length, the three lines of `make` have to sum up what `run` prints for the same
system, whose files `system.py` writes from the table. Two runs of `make` have to print the same bytes.

usage: check.py PROGRAM
"""
import hashlib
import pathlib
import subprocess
import sys
import tempfile
from typing import List, Tuple

import system

NUMBERS = [0, 1, 2, 3, 7, 42, 1000, 65536, 16777216, 2147483647, 2147483648, 4294967295]
LENGTHS = [1, 90, 12_345]
# One long run, in which threads, lines, bytes and the guest's timer meet, is made twice.
LONG_NUMBER, LONG_LENGTH = 7, 200_000


def answer(program: str, folder: pathlib.Path, *words: str) -> Tuple[int, bytes]:
    run = subprocess.run([program, *words], cwd=folder, capture_output=True, timeout=120, check=False)
    if run.stderr:
        raise SystemExit(f"made: {' '.join(words)}: wrote to standard error: {run.stderr!r}")
    return run.returncode, run.stdout


def status_of(lines: List[bytes]) -> int:
    """The status that belongs to the lines of a run."""
    if any(line.startswith(b"G ") and line.split()[2] == b"breach" for line in lines):
        return 3
    if any(line.startswith(b"R ") and line.split()[2] == b"fault" for line in lines):
        return 4
    return 0


def wanted(number: int, ticks: int, output: bytes) -> bytes:
    """What `make` has to print where `run` printed `output`."""
    lines = output.splitlines()
    real_time = sum(line.startswith(b"R ") for line in lines)
    guest = sum(line.startswith(b"G ") for line in lines)
    digest = hashlib.sha256(output).hexdigest()
    return f"M {number} {ticks}\nM lines {real_time} {guest}\nM digest {digest}\n".encode()


def compare(program: str, folder: pathlib.Path, number: int, ticks: int) -> None:
    """Ends with an error where both differ."""
    system.write(number, ticks, folder)
    run_status, output = answer(program, folder, "run", "system.toml", "--ticks", str(ticks))
    if run_status != status_of(output.splitlines()):
        raise SystemExit(f"made: run of number {number}, {ticks} ticks: status {run_status} doesn't belong to its lines")
    made = answer(program, folder, "make", str(number), "--ticks", str(ticks))
    if made != (run_status, wanted(number, ticks, output)):
        raise SystemExit(f"made: make {number} --ticks {ticks} answers {made}, and run gives {wanted(number, ticks, output)!r}, status {run_status}")


def main() -> int:
    if len(sys.argv) != 2:
        sys.stderr.write(__doc__ or "")
        return 2
    program = str(pathlib.Path(sys.argv[1]).resolve())
    with tempfile.TemporaryDirectory() as name:
        folder = pathlib.Path(name)
        for number in NUMBERS:
            for ticks in LENGTHS:
                compare(program, folder, number, ticks)
        compare(program, folder, LONG_NUMBER, LONG_LENGTH)
        words = ("make", str(LONG_NUMBER), "--ticks", str(LONG_LENGTH))
        if answer(program, folder, *words) != answer(program, folder, *words):
            raise SystemExit(f"made: two runs of {' '.join(words)} differ")
    print(f"made: make sums up the output of run for {len(NUMBERS)} numbers and {len(LENGTHS)} lengths each, and for {LONG_LENGTH} ticks")
    return 0


if __name__ == "__main__":
    sys.exit(main())
