#!/usr/bin/env python3
"""Writes a trace as a value change dump for GTKWave, a tick a microsecond."""
from __future__ import annotations

import argparse
import sys
from typing import Dict, Iterator, List, NamedTuple, Optional, Tuple

from common import command
from common.real_time import GUEST, RealTime, Thread, read_real_time
from common.timeline import Span, guest_modes, guest_spans, holders_of
from common.trace import Line
from common.trace_source import add_trace_arguments, read_trace

EPILOG = """signals, by their scopes:
  rtlinux             holder, who is on the processor, and guest, whether the guest runs, is halted or stopped, or is held while
                      another is on, both as texts; ready, how many threads are ready
  rtlinux.threads     thread_I_on and thread_I_ready, 1 in the ticks in which thread I is on or ready; thread_I_due, the due for which it
                      waits; the events thread_I_release and thread_I_late, a release behind its due
  rtlinux.handlers    init_M, irq_L and fifo_F, 1 in the ticks in which that init or handler is on
  rtlinux.lines       line_L, 1 in the ticks in which interrupt line L stands latched, and the events edge_L and ack_L; one_shot, the
                      last setting of the timer. These need a trace with the hardware's lines
  rtlinux.fifos       fifo_F_bytes, how many bytes wait in FIFO F; the events fifo_F_put and fifo_F_get, a call of either side that moved
                      bytes, and fifo_F_refused, one that failed
  rtlinux.calls       com1 and com2, the byte that left last; vector, that of the guest's last entry; function, that of the last gate of the
                      real-time side; and an event on_KIND for each line of the kinds com1, com2, enter, int, gate, say, put, get, ret, halt,
                      fault, shutdown and breach

What is 1 in a tick changes at the tick's beginning, and back at the beginning of the next.

examples:
  tools/trace_vcd.py examples/threads/expected -o threads.vcd && gtkwave threads.vcd
  PROGRAM run examples/control_loop/system.toml --ticks 26000 --hardware | tools/trace_vcd.py -o loop.vcd"""
# The signals that hold a value of a line: its kind, the signal, its width, and the base of its first word.
VALUES = {"com1": ("com1", 8, 16), "com2": ("com2", 8, 16), "enter": ("vector", 8, 10), "int": ("vector", 8, 10),
          "gate": ("function", 32, 10), "set": ("one_shot", 32, 10)}
EVENTS = ["com1", "com2", "enter", "int", "gate", "say", "put", "get", "ret", "fault", "shutdown", "breach", "halt"]
TEXT, BIT, NUMBER, EVENT = "string 1", "wire 1", "wire", "event 1"
UNKNOWN = "x"


class Signal(NamedTuple):
    """The scope and the name of a signal, its type and width, and its value before the first tick, if it has one."""
    scope: str
    name: str
    declared: str
    first: Optional[str]


class Dump:
    """The signals of a trace and their changes."""

    def __init__(self) -> None:
        self.signals: Dict[str, Signal] = {}
        self.changes: Dict[str, Dict[int, str]] = {}

    def set(self, signal: Signal, tick: int, value: str) -> None:
        """The signal has this value from the tick's beginning on. Of several values in a tick the last stays."""
        key = f"{signal.scope}.{signal.name}"
        self.signals.setdefault(key, signal)
        self.changes.setdefault(key, {})[tick] = value

    def text(self, name: str, tick: int, value: str) -> None:
        self.set(Signal("", name, TEXT, "s- "), tick, f"s{value.replace(' ', '_')} ")

    def number(self, scope: str, name: str, width: int, tick: int, value: Optional[int]) -> None:
        self.set(Signal(scope, name, f"{NUMBER} {width}", f"b{UNKNOWN} "), tick, f"b{UNKNOWN if value is None else f'{value:b}'} ")

    def event(self, scope: str, name: str, tick: int) -> None:
        self.set(Signal(scope, name, EVENT, None), tick, "1")

    def bit(self, scope: str, name: str, stretches: List[Tuple[int, int]]) -> None:
        """1 in the ticks of the stretches, 0 in all others. A stretch that begins behind another goes on with it."""
        signal = Signal(scope, name, BIT, "0")
        for first, last in sorted(stretches):
            self.set(signal, first, "1")
            self.set(signal, last + 1, "0")


def dump_of(trace: List[Line]) -> Dump:
    dump, end = Dump(), trace[-1].tick if trace else 0
    real_time, holders = read_real_time(trace), holders_of(trace, end)
    dump_holders(dump, trace, holders, end)
    dump_threads(dump, real_time)
    dump_lines(dump, trace, end)
    dump_fifos(dump, real_time)
    for line in trace:
        if line.kind in VALUES:
            name, width, base = VALUES[line.kind]
            dump.number("lines" if line.kind == "set" else "calls", name, width, line.tick, int(line.words[0], base) % 2 ** width)
        if line.kind in EVENTS:
            dump.event("calls", f"on_{line.kind}", line.tick)
    return dump


def dump_holders(dump: Dump, trace: List[Line], holders: List[Span], end: int) -> None:
    stretches: Dict[str, List[Tuple[int, int]]] = {}
    for span in holders:
        dump.text("holder", span.first, span.row)
        stretches.setdefault(span.row, []).append((span.first, span.last))
        if span.row != GUEST:
            dump.text("guest", span.first, "held")
    for span in guest_spans(holders, guest_modes(trace, end)):
        dump.text("guest", span.first, span.kind)
    for who, found in stretches.items():
        if who.startswith("thread "):
            dump.bit("threads", f"{who.replace(' ', '_')}_on", found)
        elif who != GUEST:
            dump.bit("handlers", who.replace(" ", "_"), found)


def dump_threads(dump: Dump, real_time: RealTime) -> None:
    by_number: Dict[int, List[Thread]] = {}
    steps: Dict[int, int] = {}
    for thread in real_time.all_threads:
        by_number.setdefault(thread.number, []).append(thread)
        for first, last in thread.ready:
            steps[first] = steps.get(first, 0) + 1
            steps[last + 1] = steps.get(last + 1, 0) - 1
    ready = 0
    for tick in sorted(steps):
        ready += steps[tick]
        dump.number("", "ready", 7, tick, ready)
    for number, threads in by_number.items():
        name = f"thread_{number}"
        dump.bit("threads", f"{name}_ready", [stretch for thread in threads for stretch in thread.ready])
        for thread in threads:
            for tick, due in thread.waits_until:
                dump.number("threads", f"{name}_due", 32, tick, due)
            for tick, due in thread.releases:
                dump.event("threads", f"{name}_release", tick)
                if tick > due:
                    dump.event("threads", f"{name}_late", tick)


def dump_lines(dump: Dump, trace: List[Line], end: int) -> None:
    """A line stands latched from its edge to its acknowledgement."""
    since: Dict[str, int] = {}
    stretches: Dict[str, List[Tuple[int, int]]] = {}
    for line in trace:
        if line.kind in ("edge", "ack"):
            number = line.words[0]
            dump.event("lines", f"{line.kind}_{number}", line.tick)
            if line.kind == "edge":
                since.setdefault(number, line.tick)
            else:
                stretches.setdefault(number, []).append((since.pop(number, line.tick), line.tick))
    for number, tick in since.items():
        stretches.setdefault(number, []).append((tick, end))
    for number, found in stretches.items():
        dump.bit("lines", f"line_{number}", found)


def dump_fifos(dump: Dump, real_time: RealTime) -> None:
    for call in real_time.calls:
        name = f"fifo_{call.fifo}"
        dump.number("fifos", f"{name}_bytes", 32, call.tick, call.waits)
        if call.result < 0:
            dump.event("fifos", f"{name}_refused", call.tick)
        elif call.what in ("put", "get"):
            dump.event("fifos", f"{name}_{call.what}", call.tick)


# How it is written.

def order_of(key: str) -> Tuple[str, List[Tuple[int, str]]]:
    """By scope and name, with numbers in a name by their values."""
    scope, _, name = key.partition(".")
    return scope, [(int(word), "") if word.isdecimal() else (-1, word) for word in name.split("_")]


def identifier(number: int) -> str:
    """A short name of printable characters."""
    return (chr(33 + number // 90) if number >= 90 else "") + chr(33 + number % 90)


def written(dump: Dump, last: int) -> Iterator[str]:
    keys = sorted(dump.signals, key=order_of)
    short = {key: identifier(number) for number, key in enumerate(keys)}
    yield "$version trace_vcd $end"
    yield "$timescale 1 us $end"
    yield "$scope module rtlinux $end"
    for scope in sorted({dump.signals[key].scope for key in keys}):
        if scope:
            yield f"$scope module {scope} $end"
        for key in keys:
            signal = dump.signals[key]
            if signal.scope == scope:
                yield f"$var {signal.declared} {short[key]} {signal.name} $end"
        if scope:
            yield "$upscope $end"
    yield "$upscope $end"
    yield "$enddefinitions $end"
    yield "#0"
    yield "$dumpvars"
    yield from (dump.signals[key].first + short[key] for key in keys if dump.signals[key].first is not None)
    yield "$end"
    yield from written_changes(dump, keys, short, last)


def written_changes(dump: Dump, keys: List[str], short: Dict[str, str], last: int) -> Iterator[str]:
    by_tick: Dict[int, List[str]] = {}
    for key in keys:
        before = dump.signals[key].first
        for tick, value in sorted(dump.changes[key].items()):
            if value != before:
                by_tick.setdefault(tick, []).append(value + short[key])
            before = None if dump.signals[key].declared == EVENT else value
    by_tick.setdefault(last + 1, [])
    for tick in sorted(by_tick):
        yield f"#{tick}"
        yield from by_tick[tick]


def arguments() -> argparse.Namespace:
    parser = command.parser(__doc__, EPILOG)
    add_trace_arguments(parser)
    parser.add_argument("-o", "--output", metavar="FILE", help="the dump; without it standard output")
    return parser.parse_args()


def main() -> int:
    words = arguments()
    trace = read_trace(words)
    text = "".join(line + "\n" for line in written(dump_of(trace), trace[-1].tick if trace else 0))
    if words.output:
        command.write(words.output, text)
    else:
        sys.stdout.write(text)
    return 0


if __name__ == "__main__":
    command.run(main)
