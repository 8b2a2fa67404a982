"""Where a trace comes from: a file, standard input, or a run of the program."""
from __future__ import annotations

import argparse
import sys
from typing import List

from . import command
from .program import Run, output_of
from .trace import Line, TraceError, lines_of


def add_trace_arguments(parser: argparse.ArgumentParser) -> None:
    parser.add_argument("trace", metavar="TRACE", nargs="?", default="-",
                        help="the file of a printed trace; without it, or with -, standard input")
    parser.add_argument("--run", metavar="PROGRAM", help="take no file, but run this program on SYSTEM or IMAGE for N ticks")
    add_run_arguments(parser)
    parser.add_argument("--ticks", metavar="N", type=command.positive, help="with --run: how many ticks")
    parser.add_argument("--hardware", action="store_true", help="with --run and --system: the hardware's lines too")


def add_run_arguments(parser: argparse.ArgumentParser) -> None:
    parser.add_argument("--system", metavar="SYSTEM", help="the system file of the run")
    parser.add_argument("--flat", metavar="IMAGE", help="the flat image of the run")


def checked_run(run: Run) -> Run:
    """`flat` has no lines of the hardware, so asking for both ends the tool."""
    if run.is_flat and run.hardware:
        command.fail("a flat image has no --hardware")
    return run


def run_named(words: argparse.Namespace) -> Run:
    """The run that the words name by --run, --system or --flat."""
    if bool(words.system) == bool(words.flat):
        command.fail("with --run give --system SYSTEM or --flat IMAGE")
    return checked_run(Run(words.run, words.system or words.flat, bool(words.flat), words.hardware))


def read_trace(words: argparse.Namespace) -> List[Line]:
    """All lines of the trace that the words name; a trace that can't be read ends the tool."""
    try:
        if words.run:
            if not words.ticks:
                command.fail("with --run give --ticks N")
            return list(lines_of(output_of(run_named(words), words.ticks)))
        if words.trace == "-":
            sys.stdin.reconfigure(encoding="utf-8", errors="replace")
            return list(lines_of(sys.stdin))
        with open(words.trace, encoding="utf-8", errors="replace") as file:
            return list(lines_of(file))
    except OSError as error:
        command.fail(f"{words.trace}: {error.strerror}")
    except TraceError as error:
        command.fail(str(error))
