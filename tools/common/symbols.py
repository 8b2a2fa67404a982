"""Names, source lines and instructions of addresses, by binutils from an ELF file that isn't stripped. Without binutils there are
none."""
from __future__ import annotations

import bisect
import os
import re
import shutil
import subprocess
from typing import Dict, Iterable, List, Optional, Tuple

from . import command


# The letters of `nm` for names of code and of data. A name of the linker's script is neither.
CODE, DATA = "tTwW", "dDbBrRvV"


class Symbols:
    """The names of a file, of code alone or of data too; none where there is no file."""

    def __init__(self, file: Optional[str] = None, letters: str = CODE):
        self.file = file
        self.names: List[Tuple[int, str]] = sorted(names_of(file, letters)) if file else []
        self.places = [place for place, _ in self.names]
        self.sources: Dict[int, str] = {}
        self.code: Optional[Dict[int, str]] = None

    def name(self, place: int) -> str:
        """The name at or before an address, with what the address is behind it."""
        at = bisect.bisect_right(self.places, place) - 1
        if at < 0:
            return ""
        start, name = self.names[at]
        return name if start == place else f"{name}+{place - start:x}h"

    def place(self, name: str) -> Optional[int]:
        found = [place for place, other in self.names if other == name]
        return found[0] if found else None

    def source(self, place: int) -> str:
        """The file and the line of an address, or nothing."""
        if place not in self.sources:
            self.find_sources([place])
        return self.sources.get(place, "")

    def find_sources(self, places: Iterable[int]) -> None:
        """Asks for many addresses at once, which is quicker."""
        missing = sorted(set(places) - set(self.sources))
        if not self.file or not missing or not shutil.which("addr2line"):
            return
        answers = output(["addr2line", "-e", self.file, *(f"{place:x}" for place in missing)])
        for place, answer in zip(missing, answers):
            known = not answer.startswith("??") and not answer.endswith(":?") and not answer.endswith(":0")
            self.sources[place] = answer.split(" (discriminator")[0] if known else ""

    def instruction(self, place: int) -> str:
        """The instruction at an address, as `objdump` writes it, or nothing."""
        if self.code is None:
            self.code = dict(instructions_of(self.file)) if self.file else {}
        return self.code.get(place, "")

    def where(self, place: int) -> str:
        """An address with its name and its source line."""
        return " ".join(word for word in (f"{place:08x}", self.name(place), self.source(place)) if word)


def output(words: List[str]) -> List[str]:
    return subprocess.run(words, stdout=subprocess.PIPE, stderr=subprocess.DEVNULL, check=False).stdout.decode("utf-8", "replace").splitlines()


def names_of(file: str, letters: str) -> Iterable[Tuple[int, str]]:
    if not os.path.isfile(file):
        command.fail(f"{file}: no such file")
    if not shutil.which("nm"):
        return
    for line in output(["nm", file]):
        words = line.split()
        if len(words) == 3 and words[1] in letters and not words[2].startswith("."):
            yield int(words[0], 16), words[2]


def instructions_of(file: str) -> Iterable[Tuple[int, str]]:
    if not shutil.which("objdump"):
        return
    for line in output(["objdump", "-d", "--no-show-raw-insn", file]):
        found = re.match(r"\s*([0-9a-f]+):\t(.*)", line)
        if found:
            yield int(found.group(1), 16), re.sub(r"\s+", " ", re.sub(r"\s*<[^>]*>", "", found.group(2))).strip()


def beside(image: str) -> Optional[str]:
    """The symbols beside an image, or an ELF image itself, or none."""
    stem = os.path.splitext(image)[0]
    if os.path.isfile(stem + ".symbols"):
        return stem + ".symbols"
    try:
        with open(image, "rb") as file:
            return image if file.read(4) == b"\x7fELF" else None
    except OSError:
        return None


def symbols_of(named: Optional[str], image: Optional[str]) -> Symbols:
    """The names of the file that was named, or else of what stands beside the image."""
    return Symbols(named or (beside(image) if image else None))
