"""The library that makes allocations, reads and writes fail, built from refuse.c, and the runs with it."""
from __future__ import annotations

import os
import shutil
import subprocess
from typing import Dict, List, NamedTuple, Tuple

from runner import Ended, Folder, fail

REPORT = "report"


class Counts(NamedTuple):
    """What a run asked of its host: the numbers of allocations, opens, reads and puts, and of writes behind one that failed."""
    allocations: int
    opens: int
    reads: int
    puts: int
    behind: int


def compiler() -> str:
    return shutil.which("cc") or shutil.which("gcc") or ""


def build(folder: str) -> str:
    """The library's file, in a folder."""
    source = os.path.join(os.path.dirname(os.path.abspath(__file__)), "refuse.c")
    library = os.path.join(folder, "refuse.so")
    done = subprocess.run([compiler(), "-shared", "-fPIC", "-O1", "-fno-builtin", "-o", library, source], capture_output=True, text=True, check=False)
    if done.returncode:
        fail(f"refuse.c can't be built: {done.stderr}")
    return library


def tried(place: Folder, library: str, words: List[bytes], **wanted: int) -> Tuple[Ended, Counts]:
    """A run with what has to fail, by the environment's words of refuse.c, and what it asked of its host."""
    environment: Dict[str, str] = {"LD_PRELOAD": library, "REPORT": REPORT, **{name.upper(): str(value) for name, value in wanted.items()}}
    if os.path.exists(REPORT):
        os.unlink(REPORT)
    ended = place.run(words, environment)
    if not os.path.exists(REPORT):
        fail(f"{words} with {wanted} ended with {ended} and without the library's report")
    with open(REPORT, encoding="ascii") as report:
        return ended, Counts(*map(int, report.read().split()))
