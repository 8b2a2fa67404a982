"""The names of the modules of a run, by binutils from the files that stand beside them."""
from __future__ import annotations

import argparse
from typing import List, NamedTuple, Optional

from . import command
from .causes import Refused, content_of
from .elf_image import Image, read_image
from .symbols import CODE, DATA, Symbols, beside
from .system_file import read_system


class Module(NamedTuple):
    """A module's file with names, with its image, which says where it stands and where its init is."""
    image: Image
    names: Symbols

    def has(self, place: int) -> bool:
        return self.image.byte(place) is not None


class ModuleNames:
    """Names of places on the real-time side; none where no module is known."""

    def __init__(self, modules: List[Module]):
        self.modules = modules

    def module_at(self, place: int) -> Optional[Module]:
        return next((module for module in self.modules if module.has(place)), None)

    def name(self, place: Optional[int]) -> str:
        """The name of a place, or nothing."""
        module = None if place is None else self.module_at(place)
        return module.names.name(place) if module else ""

    def where(self, place: int) -> str:
        """The name of a place of code and its source line, or nothing."""
        module = self.module_at(place)
        return " ".join(word for word in (module.names.name(place), module.names.source(place)) if word) if module else ""

    def init(self, number: int) -> Optional[int]:
        """Where a module's init begins."""
        return self.modules[number].image.entry if number < len(self.modules) else None


def add_module_arguments(parser: argparse.ArgumentParser) -> None:
    parser.add_argument("--module", metavar="ELF", action="append",
                        help="a module's file with names, once for each module in their order; without it those that SYSTEM names")


def module_of(file: str) -> Module:
    try:
        return Module(read_image(file, content_of(file)), Symbols(file, CODE + DATA))
    except Refused as refused:
        command.fail(refused.mistake.said())


def names_of_modules(words: argparse.Namespace) -> ModuleNames:
    """The names of the modules that the words name, by themselves or by their system file."""
    if words.module:
        return ModuleNames([module_of(file) for file in words.module])
    if not words.system:
        return ModuleNames([])
    try:
        system, mistakes = read_system(words.system)
        if not system:
            raise Refused(mistakes[0])
    except Refused as refused:
        command.fail(refused.mistake.said())
    return ModuleNames([module_of(beside(file) or file) for file in system.modules])
