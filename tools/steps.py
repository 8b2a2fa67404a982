#!/usr/bin/env python3
"""Shows a guest tick by tick: what was performed where, which registers changed, whether memory changed, and the lines of the trace."""
from __future__ import annotations

import argparse
import json
import os
import tempfile
from typing import Dict, Iterator, List, Optional, Tuple

from common import command
from common.elf_image import with_byte, written
from common.guest import Guest, guest_of
from common.program import Run, output_of
from common.real_time import GUEST
from common.states import Moment, moments
from common.symbols import Symbols, symbols_of
from common.system_file import read_system
from common.trace import REGISTERS, State, TraceError, lines_of, state_of
from common.trace_source import checked_run

CLI = 0xfa
FIRST_LIMIT = 1_000
EPILOG = """Each row has the tick, the address of the instruction that was performed in it with its name and source line, the instruction, the
registers that have another value afterwards (EIP left out), and `memory` where the guest's memory has changed. Below it stand the
lines that the program printed in that tick. Where no instruction was performed the row says so: (entry), (halted), (stopped), or who of the real-time side is on.

Names, lines and instructions are those of ELF, or of the file beside the image that ends in `.symbols`. They need binutils.
Each row is a run of its own, from tick 1 on: a window late in a long run takes long.

--until TEXT looks for the first line of the trace that has the text, such as "breach" or "com1 0a". --until-eip PLACE looks for the
first time that the instruction at a name or at a hexadecimal address is performed; for that the image is run with a breach there.

examples:
  tools/steps.py PROGRAM examples/first_steps/system.toml 1 20
  tools/steps.py PROGRAM examples/serial_echo/system.toml --until "enter 36"
  tools/steps.py PROGRAM examples/transmit/transmit.bin --flat --until-eip on_serial"""


def arguments() -> argparse.Namespace:
    parser = command.parser(__doc__, EPILOG)
    parser.add_argument("program", metavar="PROGRAM", help="the built program")
    parser.add_argument("system", metavar="SYSTEM", help="the system file, or with --flat a flat image")
    parser.add_argument("rest", metavar="FROM TO [ELF]", nargs="*", help="the ticks, left out with --until, and the file with the names")
    parser.add_argument("--flat", action="store_true", help="SYSTEM is an image for `flat`; then no digest of memory is printed")
    parser.add_argument("--hardware", action="store_true", help="show the hardware's lines too")
    parser.add_argument("--until", metavar="TEXT", help="up to the first line of the trace that has this text")
    parser.add_argument("--until-eip", metavar="PLACE", help="up to the first time that the instruction there is performed")
    parser.add_argument("--before", metavar="K", type=command.positive, default=8, help="with --until: from K ticks before (8)")
    parser.add_argument("--ticks", metavar="N", type=command.positive, default=1_000_000, help="with --until: look so far (1000000)")
    return parser.parse_args()


def window_of(words: argparse.Namespace, run: Run, guest: Guest, symbols: Symbols) -> Tuple[int, int]:
    """The first and the last tick that are shown."""
    if words.until is None and words.until_eip is None:
        return given_window(words.rest)
    if words.until_eip is not None:
        last = tick_of_place(run, guest, place_of(words.until_eip, symbols), words.ticks)
    else:
        last = tick_of_text(run, words.until, words.ticks)
    return max(1, last - words.before), last


def given_window(rest: List[str]) -> Tuple[int, int]:
    if len(rest) < 2 or not rest[0].isdecimal() or not rest[1].isdecimal():
        command.fail("give FROM and TO, two ticks, or --until TEXT, or --until-eip PLACE")
    first, last = int(rest[0]), int(rest[1])
    if not 1 <= first <= last:
        command.fail(f"{first} to {last} are no ticks; the first is 1")
    return first, last


def place_of(text: str, symbols: Symbols) -> int:
    place = symbols.place(text)
    if place is not None:
        return place
    try:
        return int(text, 16)
    except ValueError:
        command.fail(f"'{text}' is no name of {symbols.file or 'the image, which has no names'}, and no hexadecimal address")


# Looking for a tick.

def limits(most: int) -> Iterator[int]:
    """Numbers of ticks, each ten times the one before, up to the most: a run that ends early is found early."""
    limit = min(FIRST_LIMIT, most)
    while limit < most:
        yield limit
        limit = min(limit * 10, most)
    yield most


def tick_of_text(run: Run, text: str, most: int) -> int:
    for limit in limits(most):
        for line in lines_of(output_of(run, limit)):
            if text in line.text and line.kind not in ("end", "memory"):
                return line.tick
    command.fail(f"no line of the first {most} ticks has '{text}'")


def tick_of_place(run: Run, guest: Guest, place: int, most: int) -> int:
    """The tick in which the instruction at the place is performed for the first time. In a copy of the image a CLI stands there,
    which is a breach of that tick; up to it both runs are the same, unless the guest reads or writes that byte."""
    with tempfile.TemporaryDirectory() as folder:
        copy = with_breach(run, guest, place, folder)
        for limit in limits(most):
            lines = list(lines_of(output_of(copy, limit)))
            breaches = [line for line in lines if line.kind == "breach"]
            if breaches:
                break
        else:
            command.fail(f"the instruction at {place:x}h isn't performed in the first {most} ticks")
    end = state_of([line for line in lines if line.kind == "end" and line.letter == "G"][0])
    if end.registers["EIP"] != place or breaches[0].words != ["cli"]:
        command.fail(f"the instruction at {place:x}h isn't performed before '{breaches[0].text}', at {end.registers['EIP']:x}h")
    tick = breaches[0].tick
    before = moments(run, [tick - 1])[tick - 1].state if tick > 1 else guest.first_state()
    if before.registers["EIP"] != place:
        command.fail(f"the guest reads or writes its own code at {place:x}h, so the place can't be found in this way")
    return tick


def with_breach(run: Run, guest: Guest, place: int, folder: str) -> Run:
    image = with_byte(guest.image, place, CLI)
    file = os.path.join(folder, "image")
    with open(file, "wb") as copy:
        copy.write(image.segments[0].content if run.is_flat else written(image))
    return run._replace(file=file if run.is_flat else copied_system(run.file, file, folder))


def copied_system(system: str, image: str, folder: str) -> str:
    """A system file with another image."""
    fields, _ = read_system(system)
    lines = [f"version = {fields.version}", f"image = {json.dumps(image)}", f"guest_memory = {fields.guest_memory}",
             f"real_time_memory = {fields.real_time_memory}",
             f"modules = [{', '.join(json.dumps(module, ensure_ascii=False) for module in fields.modules)}]"]
    if fields.script is not None:
        lines.append(f"script = {json.dumps(fields.script, ensure_ascii=False)}")
    name = os.path.join(folder, "system.toml")
    with open(name, "w", encoding="utf-8") as copy:
        copy.write("\n".join(lines) + "\n")
    return name


# What is shown.

def performed(before: State, now: Moment, symbols: Symbols) -> str:
    """What the tick performed, by the state before it and its lines."""
    if now.holder != GUEST:
        return f"({now.holder} is on)"
    if any(line.kind == "enter" for line in now.lines):
        return "(entry)"
    if before.mode != "runs":
        return f"({before.mode})"
    return symbols.instruction(before.registers["EIP"])


def changes(before: State, after: State) -> List[str]:
    return [f"{name}={after.registers[name]:08x}" for name in REGISTERS[1:] if before.registers[name] != after.registers[name]]


def show(run: Run, guest: Guest, symbols: Symbols, first: int, last: int) -> None:
    found: Dict[int, Moment] = moments(run, range(max(1, first - 1), last + 1))
    before = found[first - 1].state if first > 1 else guest.first_state()
    memory: Optional[str] = found[first - 1].memory if first > 1 else None
    print(f"before tick {first}: {before.mode} " + " ".join(f"{name}={before.registers[name]:08x}" for name in REGISTERS))
    symbols.find_sources([before.registers["EIP"], *(now.state.registers["EIP"] for now in found.values())])
    rows = []
    for tick in range(first, last + 1):
        now = found[tick]
        what = changes(before, now.state) + ["memory"] * (memory is not None and now.memory != memory)
        rows.append((now, symbols.where(before.registers["EIP"]), performed(before, now, symbols), " ".join(what)))
        before, memory = now.state, now.memory
    print_rows(rows)
    print(f"after tick {last}: {before.mode}, EIP {symbols.where(before.registers['EIP'])}, "
          f"the flag is {'set' if before.flag() else 'clear'}")


def print_rows(rows: List[Tuple[Moment, str, str, str]]) -> None:
    where_width, what_width = (max(len(row[column]) for row in rows) for column in (1, 2))
    for now, where, what, changed in rows:
        print(f"{now.tick:8} {where:{where_width}} {what:{what_width}} {changed}".rstrip())
        for line in now.lines:
            print(" " * 9 + line.text)


def main() -> int:
    words = arguments()
    run = checked_run(Run(words.program, words.system, words.flat, words.hardware))
    guest = guest_of(words.system, words.flat)
    ticks_given = words.until is None and words.until_eip is None
    named = words.rest[2 if ticks_given else 0:]
    if len(named) > 1:
        command.fail(f"'{named[1]}' is one word too many")
    symbols = symbols_of(named[0] if named else None, guest.file)
    try:
        first, last = window_of(words, run, guest, symbols)
        show(run, guest, symbols, first, last)
    except TraceError as error:
        command.fail(str(error))
    return 0


if __name__ == "__main__":
    command.run(main)
