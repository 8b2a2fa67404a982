#!/usr/bin/env python3
"""Says in words what is wrong with a system file and with the image, the modules and the script that it names, or with a flat image."""
from __future__ import annotations

import os
from typing import List, Optional

from common import command
from common.causes import Mistake, Refused, another, content_of
from common.device_script import Event, read_script
from common.elf_image import Image, module_mistake, place_mistake, read_image, reserved
from common.system_file import System, read_system

FLAT_LIMIT = 65_536
EPILOG = """The first line is the one that the program prints for these files, and the others say what is wrong and where. Each field of the
system file and each file that it names is looked at; of an image and of a script the first mistake is said, as the program does.
Names are opened from the folder in which this is run, as the program opens them.

Status: 0 where the program takes the files, else the status with which it refuses them, 1 or 2.

examples:
  tools/explain.py examples/first_steps/system.toml
  tools/explain.py --flat examples/transmit/transmit.bin"""


class Report:
    """What is found in the files of a run: mistakes in the order in which the program meets them, and what to know beside them."""

    def __init__(self) -> None:
        self.mistakes: List[Mistake] = []
        self.notes: List[str] = []

    def refusal(self) -> Optional[Mistake]:
        return self.mistakes[0] if self.mistakes else None


def explain_system(name: str) -> Report:
    report = Report()
    try:
        system, mistakes = read_system(name)
    except Refused as refused:
        report.mistakes.append(refused.mistake)
        return report
    report.mistakes += mistakes
    if system:
        explain_image(report, name, system)
        explain_modules(report, name, system)
        explain_script(report, name, system)
        report.notes += other_files(name, system)
    return report


def other_files(name: str, system: System) -> List[str]:
    """That a file is opened from here, where the reader may think of the one beside the system file."""
    notes = []
    for file in (system.image, *system.modules, system.script):
        near = another(file, name) if file is not None and os.path.isfile(file) else None
        if near:
            notes.append(f"{file}: it is opened from the folder {os.getcwd()}; {near}, beside the system file, is another")
    return notes


def explain_image(report: Report, name: str, system: System) -> None:
    try:
        image = read_image(system.image, content_of(system.image, name))
    except Refused as refused:
        report.mistakes.append(refused.mistake)
        return
    mistake = place_mistake(system.image, image, system.guest_memory)
    if mistake:
        report.mistakes.append(mistake)
    else:
        report.notes += image_notes(system, image)


def image_notes(system: System, image: Image) -> List[str]:
    notes = [f"{system.image}: {segment}" for segment in image.segments]
    if image.entry >= system.guest_memory:
        notes.append(f"{system.image}: its entry {image.entry:x}h isn't on the guest's side: tick 1 is `breach fetch`")
    elif image.byte(image.entry) is None:
        notes.append(f"{system.image}: its entry {image.entry:x}h is in no segment, so there are zeros; has the linker an entry?")
    return notes


def explain_modules(report: Report, name: str, system: System) -> None:
    taken = reserved(system.guest_memory, system.real_time_memory)
    for number, file in enumerate(system.modules):
        try:
            module = read_image(file, content_of(file, name))
        except Refused as refused:
            report.mistakes.append(refused.mistake)
            continue
        mistake = module_mistake(file, module, system.guest_memory, system.real_time_memory, taken)
        if mistake:
            report.mistakes.append(mistake)
        else:
            report.notes += [f"{file}: module {number}, {segment}" for segment in module.segments]
            report.notes.append(f"{file}: module {number}'s init is at {module.entry:x}h")


def explain_script(report: Report, name: str, system: System) -> None:
    if system.script is None:
        return
    try:
        events = read_script(system.script, content_of(system.script, name))
    except Refused as refused:
        report.mistakes.append(refused.mistake)
        return
    report.notes.append(script_note(system.script, events))


def script_note(name: str, events: List[Event]) -> str:
    if not events:
        return f"{name}: no events"
    return f"{name}: {len(events)} event{'s' * (len(events) > 1)}, in the ticks {events[0].tick} to {events[-1].tick}"


def explain_flat(name: str) -> Report:
    report = Report()
    try:
        content = content_of(name)
    except Refused as refused:
        report.mistakes.append(refused.mistake)
        return report
    if len(content) > FLAT_LIMIT:
        report.mistakes.append(Mistake("21", name, f"it has {len(content):,} bytes, and a flat image has at most {FLAT_LIMIT:,}"))
    elif content.startswith(b"\x7fELF"):
        report.notes.append(f"{name}: it is an ELF file; `flat` runs its header as instructions. `run` takes it, with a system file")
    return report


def print_report(report: Report) -> int:
    refusal = report.refusal()
    if refusal:
        print(refusal.printed())
    for mistake in report.mistakes:
        print(mistake.said())
    for note in report.notes:
        print(note)
    if not refusal:
        print("the program takes these files")
        return 0
    return refusal.status()


def main() -> int:
    parser = command.parser(__doc__, EPILOG)
    parser.add_argument("system", metavar="SYSTEM", help="the system file, or with --flat a flat image")
    parser.add_argument("--flat", action="store_true", help="SYSTEM is an image for `flat`")
    words = parser.parse_args()
    return print_report(explain_flat(words.system) if words.flat else explain_system(words.system))


if __name__ == "__main__":
    command.run(main)
