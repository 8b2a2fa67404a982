#!/usr/bin/env python3
"""Writes the files of the system that `make` makes of a number, for a run of so many ticks: kernel.elf, module.elf, script and system.toml.

They are built from the table of docs/FORMATS.md, "Work maker", and from nothing of the program, so that `run` on them and `make` can be
compared (`check.py`).

usage: system.py NUMBER TICKS FOLDER
"""
import pathlib
import struct
import sys
from typing import Iterator, List, Tuple

GUEST_SIZE = 1_048_576
REAL_TIME_SIZE = 262_144

# Where both images stand.
GUEST_ENTRY, GUEST_HANDLER, GUEST_DESCRIPTORS = 0x1000, 0x1100, 0x3100
MODULE_ENTRY = GUEST_SIZE + 0x1000
THREAD_ENTRY = GUEST_SIZE + 0x1171
STACKS = GUEST_SIZE + 0x20000

Segment = Tuple[int, bytes]


class Draws:
    """The linear congruential generator of the table."""

    def __init__(self, number: int):
        self.state = number

    def draw(self, count: int) -> int:
        """A number below `count`."""
        self.state = (self.state * 1664525 + 1013904223) % 2**32
        return self.state // 65536 % count


def word(value: int) -> str:
    """Four bytes, the lowest first, as hexadecimal digits."""
    return struct.pack("<I", value).hex()


def thread(draws: Draws, number: int) -> str:
    """The instructions that make a thread and make it periodic."""
    priority = 1 + draws.draw(200)
    period = 200 + draws.draw(2000)
    work = 1 + draws.draw(50)
    return (
        f"b802000000 bb{word(THREAD_ENTRY)} b9{word(priority)} ba{word(STACKS + 0x1000 * (number + 1))} be{word(work)} cdf8"
        f"89c3 b806000000 b9{word(1000 + number)} ba{word(period)} cdf8"
    )


def module(draws: Draws) -> List[Segment]:
    starts = "".join(thread(draws, number) for number in range(8))
    return [(MODULE_ENTRY, bytes.fromhex(starts + "c3" + "89c7 89f9 49 75fd b807000000 cdf8 ebf2"))]


def guest(draws: Draws) -> List[Segment]:
    period = 500 + draws.draw(1000)
    start = f"b801000000 bb00300000 b940000000 cdf6 b802000000 31db cdf6 b803000000 bb{word(period)} cdf6 cdf1 ff0500200000 ebf8"
    return [
        (GUEST_ENTRY, bytes.fromhex(start)),
        (GUEST_HANDLER, bytes.fromhex("ff0504200000 cdf2")),
        (GUEST_DESCRIPTORS, bytes.fromhex("00110800008e0000") * 16),
    ]


def events(draws: Draws, ticks: int) -> Iterator[str]:
    """The lines of the script."""
    for number in range(1, min(ticks // 1000, 100_000) + 1):
        kind = draws.draw(2)
        tick = 1000 * number + draws.draw(900)
        yield f"{tick} line 5\n" if kind == 0 else f"{tick} com1 {draws.draw(256):02x}\n"


def image(segments: List[Segment]) -> bytes:
    """An ELF32 executable of these segments, whose entry is the first byte of the first."""
    headers = 52 + 32 * len(segments)
    file = b"\x7fELF" + bytes([1, 1, 1]) + bytes(9)
    file += struct.pack("<HHIIIIIHHHHHH", 2, 3, 1, segments[0][0], 52, 0, 0, 52, 32, len(segments), 0, 0, 0)
    place = headers
    for address, content in segments:
        file += struct.pack("<IIIIIIII", 1, place, address, address, len(content), len(content), 7, 1)
        place += len(content)
    return file + b"".join(content for _, content in segments)


SYSTEM = f"""version = 1
image = "kernel.elf"
guest_memory = {GUEST_SIZE}
real_time_memory = {REAL_TIME_SIZE}
modules = ["module.elf"]
script = "script"
"""


def write(number: int, ticks: int, folder: pathlib.Path) -> None:
    """Writes the files of the system of this number. The draws of the module come first, then those of the guest and of the script."""
    draws = Draws(number)
    (folder / "module.elf").write_bytes(image(module(draws)))
    (folder / "kernel.elf").write_bytes(image(guest(draws)))
    (folder / "script").write_text("".join(events(draws, ticks)))
    (folder / "system.toml").write_text(SYSTEM)


def main() -> int:
    if len(sys.argv) != 4:
        sys.stderr.write(__doc__ or "")
        return 2
    number, ticks = int(sys.argv[1]), int(sys.argv[2])
    if not (0 <= number < 2**32 and 1 <= ticks <= 1_000_000_000):
        sys.stderr.write("system.py: NUMBER is 0 to 4294967295, and TICKS is 1 to 1000000000\n")
        return 2
    write(number, ticks, pathlib.Path(sys.argv[3]))
    return 0


if __name__ == "__main__":
    sys.exit(main())
