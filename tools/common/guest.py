"""The guest of a run: its image, the size of its side, and its first state."""
from __future__ import annotations

from typing import NamedTuple, Optional

from . import command
from .causes import Refused, content_of
from .elf_image import Image, Segment, read_image
from .system_file import read_system
from .trace import REGISTERS, State

FLAT_SIDE = 65_536


class Guest(NamedTuple):
    """The image's name and its bytes in memory, and G."""
    file: str
    image: Image
    size: int

    def first_state(self) -> State:
        """The state before tick 1: EIP is the entry, ESP the end of the side, EFLAGS 2, and all else 0."""
        registers = dict.fromkeys(REGISTERS, 0)
        registers.update(EIP=self.image.entry, EFLAGS=2, ESP=self.size)
        return State("runs", registers)


def guest_of(file: str, is_flat: bool) -> Guest:
    """The guest of a flat image or of a system file; one that is refused ends the tool."""
    try:
        if is_flat:
            content = content_of(file)
            return Guest(file, Image(0, [Segment(0, 0, len(content), content)]), FLAT_SIDE)
        system, mistakes = read_system(file)
        if not system:
            raise Refused(mistakes[0])
        return Guest(system.image, read_image(system.image, content_of(system.image, file)), system.guest_memory)
    except Refused as refused:
        command.fail(f"{refused.mistake.said()} ({refused.mistake.printed()})")


def guest_if_named(system: Optional[str], flat: Optional[str]) -> Optional[Guest]:
    if system:
        return guest_of(system, False)
    return guest_of(flat, True) if flat else None
