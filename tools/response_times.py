#!/usr/bin/env python3
"""Prints for each thread of a trace how often it was released, its longest and its mean response, and how often it missed its deadline."""
from __future__ import annotations

import argparse
from fractions import Fraction
from typing import Dict, List, Optional, Tuple

from common import command
from common.module_names import ModuleNames, add_module_arguments, names_of_modules
from common.real_time import Thread, Turn, read_real_time
from common.trace_source import add_trace_arguments, read_trace

EPILOG = """A turn begins with a due, or where another activity wakes the thread, and ends with the gate with which the thread waits for its
next due, sleeps or suspends itself, or with its return. Its response is the number of ticks from the due to that gate, both of them in it.
A thread that is woken in tick t is ready from t + 1 on. What a thread does between its creation and its first wait is no turn.

columns:
  thread      its number; a number that had several threads has a row for each
  from        the tick in which it was created
  priority    the greater goes first; the last one that it had
  period      in ticks; - without
  releases    turns that began with a due
  wakes       turns that began with gate 5
  longest     the longest response in ticks, of the turns that ended
  mean        the mean response
  misses      turns that weren't ended within a deadline, which is the period unless --deadline says otherwise
  unended     turns that had no end: the trace ended, or the thread was deleted or faulted
  late        releases behind their due
  unreleased  dues that passed and had no release, as the thread was still in the turn before
  name        that of its entry, by --system or --module; needs binutils

examples:
  tools/response_times.py examples/threads/expected
  tools/response_times.py examples/rate_monotonic/expected --from 6000
  PROGRAM run examples/threads/system.toml --ticks 6000 | tools/response_times.py --turns --deadline 4=50"""
COLUMNS = ["thread", "from", "priority", "period", "releases", "wakes", "longest", "mean", "misses", "unended", "late", "unreleased", "name"]
TURN_COLUMNS = ["thread", "began", "since", "released", "on", "ended", "response", "deadline", "end"]
LEFT = ("began", "end", "name")


def arguments() -> argparse.Namespace:
    parser = command.parser(__doc__, EPILOG)
    add_trace_arguments(parser)
    add_module_arguments(parser)
    parser.add_argument("--turns", action="store_true", help="list each turn too: since when, when released, first on, ended, its response")
    parser.add_argument("--deadline", metavar="THREAD=TICKS", type=deadline, action="append", default=[],
                        help="a turn of this thread has so many ticks, in place of its period")
    parser.add_argument("--from", dest="first", metavar="T", type=command.positive, default=1, help="only dues from tick T on (1)")
    parser.add_argument("--to", dest="last", metavar="T", type=command.positive, help="only dues up to tick T (the trace's last)")
    return parser.parse_args()


def deadline(text: str) -> Tuple[int, int]:
    thread, _, ticks = text.partition("=")
    if not thread.isdecimal() or not ticks.isdecimal() or int(ticks) < 1:
        raise argparse.ArgumentTypeError(f"'{text}' isn't THREAD=TICKS, as 2=500")
    return int(thread), int(ticks)


class Measured:
    """What is printed of a thread."""

    def __init__(self, thread: Thread, given: Dict[int, int], last: int, window: range):
        self.thread, self.given, self.last = thread, given, last
        self.turns = [turn for turn in thread.turns if turn.cause != "created" and turn.since in window]
        self.late = sum(tick > due for tick, due in thread.releases if due in window)
        self.unreleased = sum(due in window for due in thread.unreleased)
        self.responses = [turn.response() for turn in self.turns if turn.is_done()]

    def deadline(self, turn: Turn) -> Optional[int]:
        return self.given.get(self.thread.number, turn.period)

    def is_missed(self, turn: Turn) -> bool:
        """Whether its last tick came behind its deadline, or the deadline passed without an end."""
        ticks = self.deadline(turn)
        end = turn.ended if turn.ended is not None else self.last
        if ticks is None:
            return False
        return end - turn.since + 1 > ticks or (not turn.is_done() and end - turn.since + 1 == ticks)

    def row(self, name: str) -> List[str]:
        thread, turns = self.thread, self.turns
        mean = Fraction(sum(self.responses), len(self.responses)) if self.responses else None
        return [str(thread.number), shown(thread.created), shown(thread.priority), shown(thread.period),
                str(sum(turn.cause == "due" for turn in turns)), str(sum(turn.cause == "woken" for turn in turns)),
                shown(max(self.responses, default=None)), "-" if mean is None else f"{float(mean):.1f}",
                str(sum(map(self.is_missed, turns))), str(len(turns) - len(self.responses)),
                str(self.late), str(self.unreleased), name]

    def turn_rows(self) -> List[List[str]]:
        return [[str(self.thread.number), turn.cause, str(turn.since), str(turn.released), shown(turn.started), shown(turn.ended),
                 shown(turn.response()), shown(self.deadline(turn)), (turn.end or "goes on") + ", missed" * self.is_missed(turn)]
                for turn in self.turns]


def shown(number: Optional[int]) -> str:
    return "-" if number is None else str(number)


def print_table(columns: List[str], rows: List[List[str]]) -> None:
    """Numbers stand at the right of their columns, and words at the left."""
    widths = [max(len(row[at]) for row in [columns, *rows]) for at in range(len(columns))]
    for row in [columns, *rows]:
        print("  ".join(word.ljust(width) if column in LEFT else word.rjust(width)
                        for column, word, width in zip(columns, row, widths)).rstrip())


def main() -> int:
    words = arguments()
    trace = read_trace(words)
    names: ModuleNames = names_of_modules(words)
    real_time = read_real_time(trace)
    last = trace[-1].tick if trace else 0
    window = range(words.first, (words.last or last) + 1)
    found = [Measured(thread, dict(words.deadline), last, window) for thread in real_time.all_threads]
    found.sort(key=lambda measured: (measured.thread.number, measured.thread.created or 0))
    if not found:
        print("the trace has no threads")
        return 0
    columns = COLUMNS if names.modules else COLUMNS[:-1]
    print_table(columns, [measured.row(names.name(measured.thread.entry)) for measured in found])
    if words.turns:
        print()
        print_table(TURN_COLUMNS, [row for measured in found for row in measured.turn_rows()])
    return 0


if __name__ == "__main__":
    command.run(main)
