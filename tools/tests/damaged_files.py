"""Makes files with a mistake each: those of the tables beside this file, and more that are damaged by chance with a fixed seed."""
from __future__ import annotations

import random
from typing import Iterator, List, NamedTuple, Optional

import damaged_images
import damaged_scripts
import damaged_systems

SYSTEM = b'version = 1\nimage = "k.bin"\nguest_memory = 65536\nreal_time_memory = 65536\n'
WITH_SCRIPT = SYSTEM + b'script = "d.txt"\n'
SCRIPT = b"# events\n10 line 5\n10 com1 41\n\n200 line 12\r\n3000 com2 fF\n"
SMALL = damaged_images.SMALL


class Case(NamedTuple):
    """The files of a run, and the line that the program has to print: "" where it takes them, None where only the program says."""
    name: str
    system: bytes
    image: bytes
    script: bytes
    wanted: Optional[str]


def all_cases() -> Iterator[Case]:
    yield from images()
    yield from systems()
    yield from scripts()
    yield from by_chance(600)


def changed(content: bytes, at: int, new: bytes) -> bytes:
    return content[:at] + new + content[at + len(new):]


def image_line(code: Optional[str]) -> Optional[str]:
    return f"E {code} k.bin" if code else code


def images() -> Iterator[Case]:
    for name, at, new, code in damaged_images.CHANGES:
        yield Case(name, SYSTEM, changed(SMALL, at, bytes.fromhex(new)), b"", image_line(code))
    for name, code, image in damaged_images.WHOLE:
        yield Case(name, SYSTEM, image, b"", image_line(code))
    for size in range(len(SMALL)):
        rule = 1 if size < 52 else 6 if size < 84 else 7
        yield Case(f"{size} bytes", SYSTEM, SMALL[:size], b"", image_line(f"20.{rule}"))
    for count, kinds, code in ((2, [1, 3], "20.9"), (3, [3, 1], "20.9"), (64, [1, 1], ""), (65, [0, 0], "20.6")):
        yield Case(f"{count} program headers", SYSTEM, with_headers(count, kinds), b"", image_line(code))
    # The first header has a byte in the file and none in memory.
    yield Case("the first bad header counts", SYSTEM, changed(with_headers(2, [1, 3]), 52 + 16, b"\1"), b"", image_line("20.8"))


def with_headers(count: int, kinds: List[int]) -> bytes:
    """An image of so many program headers, all of whose bytes are 0 but the types of the first two."""
    table = b"".join(bytes([kinds[number] if number < 2 else 0]) + bytes(31) for number in range(count))
    return SMALL[:44] + bytes([count]) + bytes(7) + table


def systems() -> Iterator[Case]:
    for name, field, value, code in damaged_systems.CHANGES:
        yield Case(name, system_with(field, value), SMALL, b"", f"E {code} s.toml" if code else code)
    for name, content, code in damaged_systems.WHOLE:
        yield Case(name, content, SMALL, b"", f"E {code} s.toml" if code else code)


def system_with(field: str, value: str) -> bytes:
    lines = [f"{name} = {value if name == field else usual}\n" for name, usual in damaged_systems.FIELDS if name != field or value]
    return "".join(lines + ([f"{value}\n"] if not field else [])).encode()


def scripts() -> Iterator[Case]:
    for name, text, line in damaged_scripts.SCRIPTS:
        yield Case(name, WITH_SCRIPT, SMALL, text.encode(), f"E 30 d.txt {line}" if line else "")


# By chance.

DOCUMENT_WORDS = [b'"', b"'", b'"""', b"'''", b"[", b"]", b"[[", b"]]", b"{", b"}", b"=", b".", b",", b"#", b"\n", b"\r\n", b"\r", b"\\",
                  b"\\x41", b"\\e", b"_", b"0x", b"0b", b"1e3", b"1e999", b"inf", b"-", b"+", b"true", b"1979-05-27", b"07:32",
                  b"12:30:60.5", b"\t", b" ", b"\x7f", b"\xff", b"\xc3\xa9", b"a", b"a.b", b"{a = 1}", b"{a = 1,\n b = 2,}", b"[1, 2,\n]",
                  b"version", b"modules", b"script"]
SCRIPT_WORDS = [b" ", b"  ", b"\t", b"\n", b"\r\n", b"\r", b"#", b"0", b"5", b"16", b"line", b"com1", b"com2", b"com3", b"LINE", b"fF",
                b"4g", b"10", b"1000000000", b"1000000001", b"-", b"\0", b"\xff"]
IMAGE_BYTES = [0, 1, 2, 3, 0x20, 0x40, 0x55, 0x80, 0xff]


def by_chance(count: int) -> Iterator[Case]:
    draw = random.Random(32)
    for number in range(count):
        name = f"by chance, {number}"
        what = number % 3
        if what == 0:
            yield Case(name, damaged(draw, WITH_SCRIPT, DOCUMENT_WORDS), SMALL, SCRIPT, None)
        elif what == 1:
            yield Case(name, WITH_SCRIPT, SMALL, damaged(draw, SCRIPT, SCRIPT_WORDS), None)
        else:
            yield Case(name, SYSTEM, damaged_image(draw), b"", None)


def damaged(draw: random.Random, content: bytes, words: List[bytes]) -> bytes:
    """One to three words put in, in place of nothing or of a few bytes."""
    for _ in range(draw.randint(1, 3)):
        at = draw.randrange(len(content) + 1)
        content = content[:at] + draw.choice(words) + content[at + draw.choice([0, 0, 1, 3]):]
    return content


def damaged_image(draw: random.Random) -> bytes:
    """One or two other bytes, and in a quarter of the images a cut."""
    image = SMALL
    for _ in range(draw.randint(1, 2)):
        image = changed(image, draw.randrange(len(SMALL) - 2), bytes([draw.choice(IMAGE_BYTES)]))
    return image[:draw.choice([len(SMALL), len(SMALL), len(SMALL), draw.randrange(len(SMALL))])]
