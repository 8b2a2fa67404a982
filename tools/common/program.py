"""Runs of the program."""
from __future__ import annotations

import os
import subprocess
from typing import List, NamedTuple

from . import command


# All ticks ran: without a breach or a fault, with a breach, with a fault of the real-time side.
RAN = (0, 3, 4)


class Run(NamedTuple):
    """A program and what it runs: a system file, with the hardware's lines or without them, or a flat image."""
    program: str
    file: str
    is_flat: bool
    hardware: bool = False

    def words(self, ticks: int) -> List[str]:
        if self.is_flat:
            return [self.program, "flat", self.file, str(ticks)]
        return [self.program, "run", self.file, "--ticks", str(ticks)] + ["--hardware"] * self.hardware


def output_of(run: Run, ticks: int) -> List[str]:
    """The lines that the program prints. Where it refuses its files, the tool ends with its line."""
    if os.sep not in run.program and os.path.isfile(run.program):
        run = run._replace(program=os.path.join(".", run.program))
    try:
        done = subprocess.run(run.words(ticks), stdout=subprocess.PIPE, check=False)
    except OSError as error:
        command.fail(f"{run.program}: {error.strerror}")
    lines = done.stdout.decode("utf-8", "replace").splitlines()
    if done.returncode not in RAN:
        said = f": {lines[0]}" if lines else ""
        command.fail(f"the program ended with status {done.returncode}{said}"
                     + ("; tools/explain.py says why" if said.startswith(": E ") else ""))
    return lines
