"""The guest tick by tick. The same files give the same run, so a run of t ticks ends in the state after tick t of every longer one."""
from __future__ import annotations

import os
from concurrent.futures import ThreadPoolExecutor
from typing import Dict, Iterable, List, NamedTuple, Optional

from . import command
from .program import Run, output_of
from .real_time import GUEST
from .trace import Line, State, TraceError, lines_of, state_of


class Moment(NamedTuple):
    """What stands at the end of a tick: the lines that were printed in it, the guest's state, the digest of its memory, if it is printed, and
    who was on the processor."""
    tick: int
    lines: List[Line]
    state: State
    memory: Optional[str]
    holder: str


def moment(run: Run, tick: int) -> Moment:
    try:
        lines = list(lines_of(output_of(run, tick)))
    except TraceError as error:
        command.fail(f"{run.program}: {error}")
    ends = [line for line in lines if line.kind == "end" and line.letter == "G"]
    memories = [line.words[0] for line in lines if line.kind == "memory" and line.letter == "G"]
    if not ends:
        command.fail(f"{run.program} printed no end line")
    said = [line for line in lines if line.tick == tick and line.kind not in ("end", "memory")]
    holders = [" ".join(line.words) for line in lines if line.kind == "on"]
    return Moment(tick, said, state_of(ends[0]), memories[0] if memories else None, holders[-1] if holders else GUEST)


def moments(run: Run, ticks: Iterable[int]) -> Dict[int, Moment]:
    """The ends of these ticks. The runs take turns on all processors, but for the first, which shows whether the program runs."""
    first, *others = sorted(set(ticks))
    found = {first: moment(run, first)}
    with ThreadPoolExecutor(os.cpu_count()) as workers:
        found.update(zip(others, workers.map(lambda tick: moment(run, tick), others)))
    return found
