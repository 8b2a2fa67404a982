#!/usr/bin/env python3
"""Puts names, source lines and hints beside the lines of a trace: entries, breaches, shutdowns, faults, gates, the one-shot and the
end."""
from __future__ import annotations

import argparse
from typing import Dict, List, Optional

from common import command
from common.gate_names import entry_of, said
from common.guest import Guest, guest_if_named
from common.hints import breach_hint, end_hints, shutdown_hint
from common.module_names import ModuleNames, add_module_arguments, names_of_modules
from common.real_time import RealTime, Thread
from common.states import moments
from common.symbols import Symbols, symbols_of
from common.trace import Line, State, state_of
from common.trace_source import add_trace_arguments, read_trace, run_named

EPILOG = """Each line is printed as it is, and what is known of it below, behind an arrow. Of a gate of the real-time side that is who made it, the gate as a
call, and until when it waits; of a release how late it is; of a fault who faulted, its entry, and its last gate before; of a line `on` how the
entry is called. Names are those of --elf and --module, or of the files beside the image and beside the modules of SYSTEM that end in
`.symbols`; they need binutils.

A trace says at its end alone where the guest is. With --run the program is asked for the state in the ticks of entries too, so
that each entry has the handler's name and the place that it interrupted, for the first M of them.

examples:
  tools/annotate.py examples/threads/expected --system examples/threads/system.toml
  PROGRAM run SYSTEM --ticks 1000 | tools/annotate.py --system SYSTEM
  tools/annotate.py --run PROGRAM --system examples/serial_echo/system.toml --ticks 2500"""
FAULTS = {"divide": "a division by 0, or a quotient that doesn't fit", "opcode": "bytes that are no instruction, HLT or IRET",
          "int": "an interrupt other than F8h and F9h", "memory": "an access outside its side",
          "port": "a port that isn't the real-time side's", "privileged": "an instruction that it may not perform"}
ENDED = {"thread": "it is deleted", "init": "it is ended", "irq": "its line is freed", "fifo": "the FIFO has no handler any more", "guest": ""}
DEVICES = {0: "the timer", 3: "COM2", 4: "COM1"}


def arguments() -> argparse.Namespace:
    parser = command.parser(__doc__, EPILOG)
    add_trace_arguments(parser)
    parser.add_argument("--elf", metavar="ELF", help="the file with the guest's names")
    add_module_arguments(parser)
    parser.add_argument("--entries", metavar="M", type=int, default=100, help="with --run: ask for the state of so many entries (100)")
    return parser.parse_args()


class Notes:
    """What is known of the lines of a trace."""

    def __init__(self, trace: List[Line], guest: Optional[Guest], symbols: Symbols, modules: ModuleNames):
        self.trace, self.guest, self.symbols = trace, guest, symbols
        self.real_time = RealTimeNotes(modules)
        self.states: Dict[int, State] = {}
        ends = [line for line in trace if line.letter == "G" and line.kind == "end"]
        self.end = state_of(ends[0]) if ends else None

    def of(self, line: Line) -> List[str]:
        if line.letter == "R":
            return self.real_time.of(line)
        if line.letter == "H":
            return of_hardware(line)
        if line.kind in ("enter", "int"):
            return self.of_entry(line)
        if line.kind == "breach":
            return self.stopped_at() + [breach_hint(line, self.end, self.guest)]
        if line.kind == "shutdown":
            return self.stopped_at() + [shutdown_hint(line, self.end, self.guest)]
        if line.kind == "end":
            state = state_of(line)
            return [f"EIP is {self.symbols.where(state.registers['EIP'])}"] + end_hints(state, self.guest, self.trace)
        return []

    def stopped_at(self) -> List[str]:
        """A guest that is stopped stays where it is, so its end says where."""
        return [f"at {self.symbols.where(self.end.registers['EIP'])}"] if self.end else []

    def of_entry(self, line: Line) -> List[str]:
        vector = int(line.words[0])
        what = f"line {vector - 32}" if line.kind == "enter" else f"vector {vector:x}h"
        after, before = self.states.get(line.tick), self.states.get(line.tick - 1)
        words = [what]
        if after:
            words.append(f"goes on at {self.symbols.where(after.registers['EIP'])}")
        if before:
            words.append(f"from {self.symbols.where(before.registers['EIP'])}{' halted' if before.mode == 'halted' else ''}")
        return [", ".join(words)]


class RealTimeNotes:
    """What is known of the lines of the real-time side, taken in their order."""

    def __init__(self, modules: ModuleNames):
        self.modules, self.state = modules, RealTime()

    def of(self, line: Line) -> List[str]:
        if line.kind == "release":
            notes = self.of_release(line)
        elif line.kind == "fault":
            notes = self.of_fault(line)
        else:
            notes = []
        on = self.state.on
        self.state.take(line)
        if line.kind == "on":
            name = self.entry_name(" ".join(line.words))
            return [name] if name else []
        return self.of_gate(line, on) if line.kind == "gate" else notes

    def entry(self, who: str) -> Optional[int]:
        """Where an activity begins, if the trace or a module's file says it."""
        kind, *number = who.split()
        if kind == "thread":
            thread = self.state.threads.get(int(number[0]))
            return thread.entry if thread else None
        return self.modules.init(int(number[0])) if kind == "init" else self.state.handlers.get(who)

    def entry_name(self, who: str) -> str:
        place = self.entry(who)
        return self.modules.where(place) if place is not None else ""

    def called(self, who: str) -> str:
        place = self.entry(who)
        name = self.modules.name(place)
        return f"{who} ({name})" if name else who

    def of_gate(self, line: Line, on: Optional[str]) -> List[str]:
        notes = [(f"{self.called(on)}: " if on else "") + said(line.words, self.modules.name)]
        thread = self.state.caller()
        if thread and thread.due is not None and thread.blocks and thread.blocks[-1][0] == line.tick:
            notes.append(f"it waits until {thread.due}" + (", which has passed" if thread.due <= line.tick else ""))
        entry = entry_of(line.words)
        place = self.modules.where(entry) if entry is not None else ""
        return notes + [f"entry {place}"] * bool(place)

    def of_release(self, line: Line) -> List[str]:
        thread = self.state.threads.get(int(line.words[0]))
        late = line.tick - thread.due if thread and thread.due is not None else 0
        return [f"{late} ticks late: its due was {thread.due}, {why_late(thread, line.tick)}"] if late > 0 else []

    def of_fault(self, line: Line) -> List[str]:
        who = " ".join(line.words[:2])
        notes = [FAULTS[line.words[-1]] + "; " + ENDED[line.words[0]]]
        name = self.entry_name(who)
        if name:
            notes.append(f"{who} began at {name}")
        last = self.state.gates.get(who)
        start = self.state.starts.get(who)
        if last and (line.words[0] == "thread" or last.tick >= (start or 0)):
            notes.append(f"its last gate was {said(last.words, self.modules.name)}, in {last.tick}")
        elif start is not None:
            notes.append(f"it had no gate before, and was on from {start} on")
        return notes


def why_late(thread: Thread, tick: int) -> str:
    """A release is late where its due was set behind itself, as by a thread whose turn took longer than its period, or where no tick
    drained."""
    set_in = thread.waits_until[-1][0]
    if set_in >= thread.due:
        return f"which had passed when it began to wait in {set_in}"
    return "and an init, a handler or a thread without interrupts was on"


def of_hardware(line: Line) -> List[str]:
    """A count of 2k - 1 rises k ticks on, at two pulses a tick. Lines 0, 3 and 4 have devices."""
    number = int(line.words[0])
    if line.kind == "set":
        return [f"line 0 rises in tick {line.tick + (number + 1) // 2}, unless it is set again before"]
    return [DEVICES[number]] if number in DEVICES else []


def asked_states(words: argparse.Namespace, trace: List[Line]) -> Dict[int, State]:
    """The states before and after the first entries."""
    entries = [line.tick for line in trace if line.letter == "G" and line.kind in ("enter", "int")][:words.entries]
    ticks = {tick for entry in entries for tick in (entry - 1, entry) if tick > 0}
    return {tick: now.state for tick, now in moments(run_named(words), ticks).items()} if ticks else {}


def main() -> int:
    words = arguments()
    trace = read_trace(words)
    guest = guest_if_named(words.system, words.flat)
    symbols = symbols_of(words.elf, guest.file if guest else None)
    notes = Notes(trace, guest, symbols, names_of_modules(words))
    if words.run:
        notes.states = asked_states(words, trace)
    symbols.find_sources(state.registers["EIP"] for state in [*notes.states.values(), *([notes.end] if notes.end else [])])
    for line in trace:
        print(line.text)
        for note in notes.of(line):
            print(f"    -> {note}")
    return 0


if __name__ == "__main__":
    command.run(main)
