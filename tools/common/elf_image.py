"""Images in ELF32: what is wrong with one, where its segments go, and its bytes in memory."""
from __future__ import annotations

import struct
from typing import List, NamedTuple, NoReturn, Optional

from .causes import Mistake, Refused

FILE_HEADER_SIZE, PROGRAM_HEADER_SIZE, MOST_PROGRAM_HEADERS = 52, 32, 64
PT_LOAD, PT_INTERP = 1, 3
TYPES = {0: "no type", 1: "an object file, which isn't linked yet: link it with `ld -m elf_i386 -T examples/runtime/image.ld`",
         3: "position-independent, gcc's default: compile with -fno-pic and link with -no-pie, or by ld without -pie",
         4: "a core file"}
MACHINES = {62: "x86-64: compile with -m32 and link with -m elf_i386", 40: "ARM", 183: "AArch64", 243: "RISC-V"}
# Where ld puts an executable for the i386 that has no linker script.
USUAL_PLACE, USUAL_RANGE = 0x8048000, 0x1000000


class Segment(NamedTuple):
    """A program header that is loaded: its number in the table, its place, its size in memory and its bytes in the file."""
    number: int
    place: int
    size: int
    content: bytes

    def end(self) -> int:
        return self.place + self.size

    def __str__(self) -> str:
        return f"program header {self.number}, {self.place:x}h to {self.end() - 1:x}h"


class Image(NamedTuple):
    """The entry and the segments of a file."""
    entry: int
    segments: List[Segment]

    def byte(self, place: int) -> Optional[int]:
        """The byte that the image puts there, if any."""
        for segment in self.segments:
            if segment.place <= place < segment.end():
                at = place - segment.place
                return segment.content[at] if at < len(segment.content) else 0
        return None


class ProgramHeader(NamedTuple):
    kind: int
    offset: int
    place: int
    file_size: int
    memory_size: int


def read_image(name: str, content: bytes) -> Image:
    """The image of a file, or its first mistake by the rules 20.1 to 20.9."""
    check_file_header(name, content)
    headers = program_headers(content)
    for number, header in enumerate(headers):
        check_program_header(name, content, number, header)
    segments = [Segment(number, header.place, header.memory_size, content[header.offset:header.offset + header.file_size])
                for number, header in enumerate(headers) if header.kind == PT_LOAD and header.memory_size > 0]
    return Image(field(content, 24, 4), segments)


def with_byte(image: Image, place: int, byte: int) -> Image:
    """The image with another byte in memory, in a segment of its own where none has that place."""
    segments = []
    for segment in image.segments:
        at = place - segment.place
        if 0 <= at < segment.size:
            content = segment.content.ljust(at + 1, b"\0")
            segment = segment._replace(content=content[:at] + bytes([byte]) + content[at + 1:])
        segments.append(segment)
    if image.byte(place) is None:
        segments.append(Segment(len(segments), place, 1, bytes([byte])))
    return Image(image.entry, segments)


def written(image: Image) -> bytes:
    """A file of the image."""
    count, at = len(image.segments), FILE_HEADER_SIZE + PROGRAM_HEADER_SIZE * len(image.segments)
    header = struct.pack("<16sHHIIIIIHHHHHH", b"\x7fELF\1\1\1", 2, 3, 1, image.entry, FILE_HEADER_SIZE, 0, 0, FILE_HEADER_SIZE,
                         PROGRAM_HEADER_SIZE, count, 0, 0, 0)
    table, contents = b"", b""
    for segment in image.segments:
        table += struct.pack("<8I", PT_LOAD, at + len(contents), segment.place, 0, len(segment.content), segment.size, 7, 1)
        contents += segment.content
    return header + table + contents


def place_mistake(name: str, image: Image, guest_memory: int) -> Optional[Mistake]:
    """Why the segments don't fit on the guest's side, 21 or 22."""
    for segment in image.segments:
        if segment.end() > guest_memory:
            why = f"{segment}, isn't wholly below guest_memory, {guest_memory:x}h"
            return Mistake("21", name, why + place_advice(segment, guest_memory))
    for number, segment in enumerate(image.segments):
        for other in image.segments[:number]:
            if segment.place < other.end() and other.place < segment.end():
                return Mistake("22", name, f"{other}, and {segment}, share bytes: give each its own addresses in the linker script")
    return None


class Taken(NamedTuple):
    """A range of the real-time side that is taken, and by what."""
    first: int
    end: int
    what: str


def reserved(guest_memory: int, real_time_memory: int) -> List[Taken]:
    """What is taken of the real-time side before any module: the stub's 16 bytes, and the stack of inits and handlers."""
    end = guest_memory + real_time_memory
    return [Taken(guest_memory, guest_memory + 16, "the stub's 16 bytes"), Taken(end - 4096, end, "the stack of inits and handlers")]


def module_mistake(name: str, module: Image, guest_memory: int, real_time_memory: int, taken: List[Taken]) -> Optional[Mistake]:
    """Why a module isn't placed: a segment outside the real-time side, or one that shares bytes with another or with what is taken. A
    module that is placed joins what is taken."""
    end = guest_memory + real_time_memory
    for segment in module.segments:
        if segment.place < guest_memory or segment.end() > end:
            return Mistake("21", name, f"{segment}, isn't wholly on the real-time side, {guest_memory:x}h to {end - 1:x}h")
    mine = list(taken)
    for segment in module.segments:
        for other in mine:
            if segment.size and other.first < segment.end() and segment.place < other.end:
                return Mistake("22", name, f"{segment}, shares bytes with {other.what}, {other.first:x}h to {other.end - 1:x}h")
        mine.append(Taken(segment.place, segment.end(), f"program header {segment.number} of {name}"))
    taken[:] = mine
    return None


def place_advice(segment: Segment, guest_memory: int) -> str:
    if USUAL_PLACE <= segment.place < USUAL_PLACE + USUAL_RANGE:
        return (f". {USUAL_PLACE:x}h is where ld puts a program of Linux: link with `-T examples/runtime/image.ld`, or with "
                "-Ttext=0x1000")
    if segment.place >= guest_memory:
        return ": link it lower"
    needed = -(-segment.end() // 4096) * 4096
    return f": it needs a guest_memory of {needed:,}, or link it lower"


def field(content: bytes, at: int, size: int) -> int:
    return int.from_bytes(content[at:at + size], "little")


def program_headers(content: bytes) -> List[ProgramHeader]:
    table, count = field(content, 28, 4), field(content, 44, 2)
    places = [table + PROGRAM_HEADER_SIZE * number for number in range(count)]
    return [ProgramHeader(*(field(content, at + offset, 4) for offset in (0, 4, 8, 16, 20))) for at in places]


def refuse(name: str, rule: int, why: str) -> NoReturn:
    raise Refused(Mistake(f"20.{rule}", name, why))


def check_file_header(name: str, content: bytes) -> None:
    size = len(content)
    if size < FILE_HEADER_SIZE:
        refuse(name, 1, f"it has {size} bytes, and the header of an ELF file has {FILE_HEADER_SIZE}{flat_advice(content)}")
    if content[:4] != b"\x7fELF":
        refuse(name, 2, f"it begins with {content[:4].hex(' ')} and not with 7f 45 4c 46, as an ELF file does{flat_advice(content)}")
    if content[4] != 1:
        refuse(name, 3, f"its class (byte 4) is {content[4]}, and 32 bits are class 1"
               + (": it is for 64 bits; compile with -m32 and link with -m elf_i386" if content[4] == 2 else ""))
    if content[5] != 1:
        refuse(name, 3, f"its data (byte 5) is {content[5]}, and little-endian is 1")
    kind = field(content, 16, 2)
    if kind != 2:
        refuse(name, 4, f"its type (byte 16) is {kind}, and an executable is 2" + (f": it is {TYPES[kind]}" if kind in TYPES else ""))
    machine = field(content, 18, 2)
    if machine != 3:
        refuse(name, 5, f"its machine (byte 18) is {machine}, and the i386 is 3"
               + (f": it is {MACHINES[machine]}" if machine in MACHINES else ""))
    if field(content, 20, 4) != 1:
        refuse(name, 5, f"its version (byte 20) is {field(content, 20, 4)}, and there is only 1")
    check_table(name, content)


def flat_advice(content: bytes) -> str:
    return ": a flat image is run by `flat IMAGE TICKS`, without a system file" if 0 < len(content) <= 65_536 else ""


def check_table(name: str, content: bytes) -> None:
    table, each, count = field(content, 28, 4), field(content, 42, 2), field(content, 44, 2)
    if count > MOST_PROGRAM_HEADERS:
        refuse(name, 6, f"it has {count} program headers (byte 44), and at most {MOST_PROGRAM_HEADERS} are taken")
    if count and each != PROGRAM_HEADER_SIZE:
        refuse(name, 6, f"its program headers have {each} bytes each (byte 42), and they have to have {PROGRAM_HEADER_SIZE}")
    end = table + PROGRAM_HEADER_SIZE * count
    if count and end > len(content):
        refuse(name, 6, f"its {count} program headers, from byte {table} on (byte 28), pass the end of the file at {len(content)}")


def check_program_header(name: str, content: bytes, number: int, header: ProgramHeader) -> None:
    end = header.offset + header.file_size
    if header.kind == PT_LOAD and end > len(content):
        refuse(name, 7, f"program header {number} loads the bytes {header.offset} to {end - 1}, and the file ends at {len(content)}: "
               "it is cut")
    if header.kind == PT_LOAD and header.file_size > header.memory_size:
        refuse(name, 8, f"program header {number} has {header.file_size} bytes in the file and {header.memory_size} in memory")
    if header.kind == PT_INTERP:
        refuse(name, 9, f"program header {number} names a dynamic linker: link with -static, or by ld with the runtime's linker script")
