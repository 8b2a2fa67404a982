"""Files for the campaign: small ones that are accepted, those of a table with one change each, each byte of a header, of a system file and of a
script replaced, cuts at every length, and any number that are damaged by chance."""
from __future__ import annotations

import itertools
import random
import struct
from typing import Callable, Dict, Iterator, List, NamedTuple, Tuple

TICKS = 5
SYSTEM, IMAGE, MODULE, SECOND, SCRIPT = b"s.toml", b"k.bin", b"m.elf", b"n.elf", b"d.txt"
GUEST, REAL = 65_536, 65_536
STILL, RETURN, ZEROS = b"\xeb\xfe", b"\xc3", b"\0\0\0\0"
LOAD, INTERPRETER, NOTE = 1, 3, 4


class Case(NamedTuple):
    """What is changed of the usual files, and the words."""
    name: str
    files: Dict[bytes, bytes]
    hardware: bool = False
    flat: bool = False


def header(kind: int, offset: int, place: int, held: int, size: int) -> bytes:
    return struct.pack("<8I", kind, offset, place, place, held, size, 7, 4096)


def elf(entry: int, parts: List[Tuple[int, int, bytes, int]]) -> bytes:
    """An image of parts: kind, place, bytes, and how many zeros stand behind them in memory."""
    at = 52 + 32 * len(parts)
    table, contents = b"", b""
    for kind, place, content, more in parts:
        table += header(kind, at + len(contents), place, len(content), len(content) + more)
        contents += content
    return (b"\x7fELF\1\1\1" + bytes(9) + struct.pack("<HHIIIIIHHHHHH", 2, 3, 1, entry, 52, 0, 0, 52, 32, len(parts), 0, 0, 0)
            + table + contents)


def system(modules: bool = False, script: bool = False) -> bytes:
    text = b'version = 1\nimage = "k.bin"\nguest_memory = 65536\nreal_time_memory = 65536\n'
    return text + (b'modules = ["m.elf", "n.elf"]\n' if modules else b"") + (b'script = "d.txt"\n' if script else b"")


# One part of two bytes at address 0, a jump to itself: 86 bytes.
SMALL = (struct.pack("<4s3B9x2H5I6H", b"\x7fELF", 1, 1, 1, 2, 3, 1, 0, 52, 0, 0, 0, 32, 1, 0, 0, 0)
         + struct.pack("<8I", LOAD, 84, 0, 0, 2, 2, 0, 0) + STILL)
# Two parts with a note and zeros behind them.
LARGER = elf(0x1000, [(LOAD, 0x1000, STILL + ZEROS, 10), (NOTE, 0, b"note", 0), (LOAD, 0x2000, b"data", 60)])
FIRST = elf(0x11000, [(LOAD, 0x11000, RETURN + ZEROS, 11), (LOAD, 0x12000, STILL, 0)])
OTHER = elf(0x13000, [(LOAD, 0x13000, RETURN, 0)])
EVENTS = b"# events\n1 line 5\n2  com1  4a\r\n\n2 line 12\n4 com2 fF\n4 line 9\n10 line 1"
PLAIN = {SYSTEM: system(), IMAGE: SMALL}
WITH_MODULES = {SYSTEM: system(True), IMAGE: SMALL, MODULE: FIRST, SECOND: OTHER}
WITH_SCRIPT = {SYSTEM: system(False, True), IMAGE: SMALL, SCRIPT: EVENTS}
WITH_ALL = {SYSTEM: system(True, True), IMAGE: LARGER, MODULE: FIRST, SECOND: OTHER, SCRIPT: EVENTS}
USUAL = dict(WITH_ALL)


def put(content: bytes, at: int, new: bytes) -> bytes:
    return content[:at] + new + content[at + len(new):]


def number(value: int, size: int) -> bytes:
    return (value & (1 << 8 * size) - 1).to_bytes(size, "little")


# The table: what is changed of the small image, the system file or a script, and the answer, which is written here and not by the oracle.

def image_table() -> List[Tuple[bytes, str]]:
    fields = [(44, 0, 2, ""), (68, 0, 8, ""), (3, 0x47, 1, "20.2"), (4, 2, 1, "20.3"), (5, 2, 1, "20.3"), (16, 1, 2, "20.4"), (16, 3, 2, "20.4"),
              (18, 62, 2, "20.5"), (20, 0, 4, "20.5"), (44, 65, 2, "20.6"), (42, 31, 2, "20.6"), (28, 0xFFFFFFFF, 4, "20.6"), (68, 3, 4, "20.7"),
              (56, 0xFFFFFFFF, 4, "20.7"), (72, 1, 4, "20.8"), (52, 3, 4, "20.9"), (60, 65_535, 4, "21"), (60, 0xFFFFFFFF, 4, "21")]
    changed = [(put(SMALL, at, number(value, size)), code) for at, value, size, code in fields]
    return changed + [(SMALL, ""), (b"", "20.1"), (SMALL[:51], "20.1"), (SMALL[:83], "20.6"), (SMALL[:85], "20.7")]


def system_table() -> List[Tuple[bytes, str]]:
    text = system()
    memory = [text.replace(b"guest_memory = 65536", b"guest_memory = %d" % value) for value in (61_440, 65_537, 16_781_312)]
    names = [text.replace(b'"k.bin"', b'""'), text.replace(b'"k.bin"', b'"' + b"n" * 256 + b'"')]
    many = text + b"modules = [" + b'"m.elf",' * 17 + b"]\n"
    wrong = [b"", text.replace(b"version = 1", b'version = "1"'), *memory, many, *names, text + b"speed = 1\n"]
    return [(one, "11") for one in wrong] + [(text + b"version = 1\n", "10"), (text + b"# \xff\n", "10")]


def script_table() -> List[Tuple[bytes, int]]:
    first = [b"0 line 5", b"1000000001 line 5", b"00000000005 line 5", b"5 line 05", b"5 line 2", b"5 com1 4", b" 5 line 5"]
    taken = [b"5  line  5\r\n", b"5 com2 Ff", b"# one\n#\n# three\n"]
    return [(b"5 line 5\n4 line 5\n", 2), *((one, 1) for one in first), (b"5 line 5\n" * 17, 17), *((one, 0) for one in taken)]


def table() -> Iterator[Tuple[Case, str]]:
    """The cases of the table, each with the error line that has to come, or an empty one where the run has to be done."""
    for at, (image, code) in enumerate(image_table()):
        yield Case(f"table: image {at}", {**PLAIN, IMAGE: image}), f"E {code} k.bin" if code else ""
    for at, (text, code) in enumerate(system_table()):
        yield Case(f"table: system file {at}", {**PLAIN, SYSTEM: text}), f"E {code} s.toml"
    for at, (text, line) in enumerate(script_table()):
        yield Case(f"table: script {at}", {**WITH_SCRIPT, SCRIPT: text}), f"E 30 d.txt {line}" if line else ""


# Each byte, and each length.

def values(byte: int, count: int) -> List[int]:
    """So many values in place of a byte: its neighbours, its bits turned, and those that mean something in one of the formats."""
    wanted = [byte ^ 1, byte + 1 & 255, byte - 1 & 255, byte ^ 128, 0, 255, 2, 10, 3, 64, 32, 34, 48, 35, *range(256)]
    return [value for value in dict.fromkeys(wanted) if value != byte][:count]


def replaced(name: str, base: Dict[bytes, bytes], file: bytes, places: range, count: int, hardware: bool = False) -> Iterator[Case]:
    content = base[file]
    for at in places:
        for value in values(content[at], count):
            yield Case(f"{name}: byte {at} is {value:02x}h", {**base, file: put(content, at, bytes([value]))}, hardware)


def cut(name: str, base: Dict[bytes, bytes], file: bytes, hardware: bool = False) -> Iterator[Case]:
    for size in range(len(base[file])):
        yield Case(f"{name}: cut to {size} bytes", {**base, file: base[file][:size]}, hardware)


def each_byte(count: int) -> Iterator[Case]:
    """Each byte of each header, of the system files and of the script replaced by so many values, and cuts at every length."""
    larger = {**PLAIN, IMAGE: LARGER}
    for name, base, file, parts in (("small image", PLAIN, IMAGE, 1), ("image", larger, IMAGE, 3), ("module", WITH_MODULES, MODULE, 2)):
        yield from replaced(name, base, file, range(52 + 32 * parts), count)
        yield from cut(name, base, file)
    for name, base, file, hardware in (("system file", WITH_ALL, SYSTEM, False), ("script", WITH_SCRIPT, SCRIPT, True)):
        yield from replaced(name, base, file, range(len(base[file])), count, hardware)
        yield from cut(name, base, file, hardware)


def bounds() -> Iterator[Case]:
    """Files at the limits: many headers, parts that meet, names, sizes, events, and flat images."""
    for count in (1, 2, 63, 64, 65):
        yield Case(f"{count} headers", {**PLAIN, IMAGE: elf(0, [(LOAD, 16 * at, STILL, 14) for at in range(count)])})
    for place, size in ((0, 65_536), (1, 65_535), (1, 65_536), (65_534, 2), (65_535, 1), (65_536, 0), (65_536, 1), (0xFFFFFFFF, 1), (0xFFFFFFFF, 0)):
        yield Case(f"a part at {place:x}h of {size} bytes", {**PLAIN, IMAGE: elf(0, [(LOAD, place, b"", size)])})
        yield Case(f"a module's part at {place:x}h of {size} bytes", {**WITH_MODULES, MODULE: elf(0, [(LOAD, place, b"", size)])})
    for place in (0xFFFF, 0x10000, 0x1000F, 0x10010, 0x12FFF, 0x13000, 0x13001, 0x1EFFF, 0x1F000, 0x1FFFF, 0x20000):
        for size in (1, 2, 4096):
            yield Case(f"a module's part at {place:x}h of {size} bytes", {**WITH_MODULES, MODULE: elf(0x11000, [(LOAD, place, b"", size)])})
    for place in (0xFFFF, 0x10000, 0x10001, 0x10010, 0x1FFFF, 0x20000, 0x1FFFB, 0x1FFFC, 0, 0xFFFFFFFF):
        yield Case(f"an init at {place:x}h", {**WITH_MODULES, MODULE: put(FIRST, 24, number(place, 4))})
    for gap in (-1, 0, 1):
        yield Case(f"parts {gap} bytes apart", {**PLAIN, IMAGE: elf(0, [(LOAD, 0, STILL, 0), (LOAD, 2 + gap, STILL, 0)])})
    for size in (254, 255, 256):
        yield Case(f"a name of {size} bytes", {**PLAIN, SYSTEM: system().replace(b"k.bin", b"n" * size)})
        name = "é".encode() * (size // 2) + b"n" * (size % 2)
        yield Case(f"a name of {size} bytes, two a character", {**PLAIN, SYSTEM: system().replace(b"k.bin", name)})
    for name in (b"k.bin\\u0000", b"k.bin\\u0000x", b".", b"k.bin/", b"\\u0000", b"s.toml", b"k.bin\\n"):
        yield Case(f"the name {name.decode()}", {**PLAIN, SYSTEM: system().replace(b"k.bin", name)})
    for field, sizes in ((b"guest_memory", (16_777_216, 16_781_312)), (b"real_time_memory", (4_194_304, 4_198_400))):
        for size in (0, -65_536, 4096, 61_440, 65_535, 65_537, 67_584, 69_632, 1 << 32, (1 << 32) + 65_536, *sizes):
            yield Case(f"{field.decode()} {size}", {**PLAIN, SYSTEM: system().replace(field + b" = 65536", field + b" = %d" % size)})
    for version in (b"-1", b"0", b"1", b"2", b"3", b"257", b"0x2", b"1.0", b"true", b"[1]"):
        yield Case(f"version {version.decode()}", {**PLAIN, SYSTEM: system().replace(b"version = 1", b"version = " + version)})
    for tick in (b"999999999", b"1000000000", b"1000000001", b"0000000001", b"00000000001", b"000000001"):
        yield Case(f"an event of tick {tick.decode()}", {**WITH_SCRIPT, SCRIPT: tick + b" line 5"}, True)
    for line in range(18):
        yield Case(f"an event of line {line}", {**WITH_SCRIPT, SCRIPT: b"1 line 5\n2 line %d\n" % line}, True)
    for count in (0, 1, 2, 15, 16, 17):
        modules = b"modules = [" + b", ".join(b'"m.elf"' for _ in range(count)) + b"]\n"
        yield Case(f"{count} modules", {**WITH_MODULES, SYSTEM: system() + modules, MODULE: elf(0x11000, [(LOAD, 0x11000, b"", 0)])})
        yield Case(f"{count} modules at one place", {**WITH_MODULES, SYSTEM: system() + modules})
    for count in (15, 16, 17):
        yield Case(f"{count} events at once", {**WITH_SCRIPT, SCRIPT: b"3 line 5\n" * count + b"4 line 5\n"}, True)
        yield Case(f"{count} events of three kinds at once", {**WITH_SCRIPT, SCRIPT: b"3 com1 00\n3 com2 00\n" + b"3 line 15\n" * (count - 2)}, True)
    for size in (0, 1, 2, 3, 65_534, 65_535, 65_536, 65_537):
        yield Case(f"a flat image of {size} bytes", {IMAGE: (STILL + bytes(65_537))[:size]}, False, True)
    for missing in USUAL:
        yield Case(f"no {missing.decode()}", {name: content for name, content in WITH_ALL.items() if name != missing})


def orders() -> Iterator[Case]:
    """Every choice of what is wrong with each file of a run at once, so that the first refusal counts: the file isn't there, or has a cause."""
    texts = {"": system(True, True), "missing": None, "10": b"=", "11": system() + b"speed = 1\n"}
    images = {"": LARGER, "missing": None, "20.2": b"x" * 52, "21": elf(0, [(LOAD, GUEST, STILL, 0)]),
              "22": elf(0, [(LOAD, 0, STILL, 0), (LOAD, 1, STILL, 0)])}
    firsts = {"": FIRST, "missing": None, "20.4": put(FIRST, 16, b"\1"), "21": elf(0, [(LOAD, 0, STILL, 0)]), "22": elf(0, [(LOAD, GUEST, STILL, 0)])}
    seconds = {"": OTHER, "missing": None, "20.1": b"", "21": elf(0, [(LOAD, GUEST + REAL, STILL, 0)]), "22": FIRST}
    scripts = {"": EVENTS, "missing": None, "30": b"5 line 4\n"}
    for wrong in itertools.product(texts, images, firsts, seconds, scripts):
        chosen = zip((SYSTEM, IMAGE, MODULE, SECOND, SCRIPT), (texts, images, firsts, seconds, scripts), wrong)
        files = {name: contents[one] for name, contents, one in chosen}
        yield Case(f"wrong at once: {', '.join(one or 'nothing' for one in wrong)}", {name: one for name, one in files.items() if one is not None})


# By chance.

SYSTEM_WORDS = [b'"', b"'", b'"""', b"'''", b"[", b"]", b"[[", b"]]", b"{", b"}", b"=", b".", b",", b"#", b"\n", b"\r\n", b"\r", b"\\",
                b"\\u006b", b"\\n", b"_", b"0x", b"0o", b"0b", b"1e3", b"-", b"+", b"true", b"1979-05-27", b"07:32:00", b"\t", b" ", b"\x7f",
                b"\xff", b"\xc3\xa9", b"\0", b"a", b"a.b", b"{a = 1}", b"[1, 2,\n]", b"version", b"image", b"modules", b"script",
                b"guest_memory", b"65536", b"65_536", b"0x10000", b"4096", b"69632", b"1", b"2", b"3", b"k.bin", b"m.elf", b"d.txt",
                b"version = 2\n", b"\xef\xbb\xbf", b'"m.elf"', b"'n.elf'"]
SCRIPT_WORDS = [b" ", b"  ", b"\t", b"\n", b"\r\n", b"\r", b"#", b"0", b"1", b"5", b"15", b"16", b"line", b"com1", b"com2", b"com3", b"LINE",
                b"fF", b"4g", b"10", b"1000000000", b"1000000001", b"0000000002", b"00000000002", b"-", b"+", b"\0", b"\xff", b"3 line 5\n",
                b"3 com1 00\n", b"\n\n"]
FIELDS = [(at, 1) for at in range(7)] + [(16, 2), (18, 2), (20, 4), (24, 4), (28, 4), (42, 2), (44, 2)]
PARTS = [(0, 4), (4, 4), (8, 4), (16, 4), (20, 4)]
LARGE = [0x7FFFFFFF, 0x80000000, 0xFFFFFFFF, 0xFFFFFFFE, 0xFFFFF000]
NEAR = [0, 1, 2, 3, 4, 31, 32, 33, 51, 52, 53, 64, 65, 84, 4096, GUEST - 1, GUEST, GUEST + 1, GUEST + 15, GUEST + 16, GUEST + REAL - 4097,
        GUEST + REAL - 4096, GUEST + REAL - 1, GUEST + REAL, 0x1000, 0x2000, 0x2001, 0x11000, 0x12000, 0x13000, *LARGE]


def damaged_text(draw: random.Random, content: bytes, words: List[bytes]) -> bytes:
    for _ in range(draw.choice((1, 1, 1, 2, 3))):
        at = draw.randrange(len(content) + 1)
        how = draw.randrange(6)
        if how == 0:
            content = content[:at] + bytes([draw.randrange(256)]) + content[at + 1:]
        elif how == 1:
            lines = content.splitlines(True)
            lines.insert(draw.randrange(len(lines) + 1), lines.pop(draw.randrange(len(lines))) if lines else b"")
            content = b"".join(lines)
        else:
            content = content[:at] + draw.choice(words) + content[at + draw.choice((0, 0, 1, 1, 2, 5)):]
    return content


def damaged_image(draw: random.Random, content: bytes) -> bytes:
    """One to three fields of the header or of a part with other values, perhaps random bytes, and in some a cut or more bytes."""
    count = min(max(1, content[44]), 3)
    for _ in range(draw.choice((1, 1, 2, 3))):
        at, size = draw.choice(FIELDS) if draw.randrange(3) == 0 else draw.choice(PARTS)
        at += 52 + 32 * draw.randrange(count) if (at, size) in PARTS else 0
        value = draw.choice(NEAR) if draw.randrange(2) else value_by_chance(draw, len(content), size)
        content = put(content, at, number(value, size))
    if draw.randrange(5) == 0:
        content = content[:draw.randrange(len(content))] if draw.randrange(2) else content + bytes(draw.randrange(40))
    return content


def value_by_chance(draw: random.Random, length: int, size: int) -> int:
    return draw.choice((length + draw.randrange(-3, 4), draw.randrange(1 << 8 * size), draw.randrange(70)))


def new_part(draw: random.Random, first: int) -> Tuple[int, int, bytes, int]:
    kind = draw.choice((LOAD, LOAD, LOAD, LOAD, NOTE, 0, INTERPRETER if draw.randrange(20) == 0 else LOAD))
    place = draw.choice((draw.randrange(0, 65_536, 16), draw.randrange(65_536), draw.randrange(256)))
    content = draw.choice((STILL, RETURN, b"", ZEROS, bytes(draw.randrange(40))))
    return kind, first + place, content, draw.choice((0, 0, 1, 16, draw.randrange(300), draw.randrange(40_000)))


def new_image(draw: random.Random, first: int) -> bytes:
    """An image of parts that may meet, at random places of a side."""
    parts = [new_part(draw, first) for _ in range(draw.choice((0, 1, 2, 3, 5, 8)))]
    return elf(draw.choice([first, first + 65_535, *(place for _, place, _, _ in parts)]), parts)


def image_case(draw: random.Random, name: str) -> Case:
    base, file = draw.choice(((PLAIN, IMAGE), (WITH_ALL, IMAGE), (WITH_MODULES, MODULE), (WITH_MODULES, SECOND)))
    if draw.randrange(4) == 0:
        return Case(name, {**base, file: new_image(draw, 0 if file == IMAGE else GUEST)})
    return Case(name, {**base, file: damaged_image(draw, base[file])})


def system_case(draw: random.Random, name: str) -> Case:
    base = draw.choice((PLAIN, WITH_ALL))
    return Case(name, {**base, SYSTEM: damaged_text(draw, base[SYSTEM], SYSTEM_WORDS)})


def script_case(draw: random.Random, name: str) -> Case:
    return Case(name, {**WITH_SCRIPT, SCRIPT: damaged_text(draw, EVENTS, SCRIPT_WORDS)}, True)


KINDS: List[Callable[[random.Random, str], Case]] = [image_case, image_case, system_case, script_case]


def by_chance(seed: int, first: int, last: int) -> Iterator[Case]:
    """The cases of these numbers: each has a draw of its own, so that one can be made again alone."""
    for at in range(first, last):
        draw = random.Random(f"{seed} {at}")
        yield KINDS[at % len(KINDS)](draw, f"by chance, seed {seed}, number {at}")
