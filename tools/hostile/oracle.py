"""What a run comes to, from docs/FORMATS.md and docs/MACHINE.md alone: the refusal of its words and files with the first cause, or what a run of
the files prints. It knows five bytes of machine code, and says so where there are others. No other reader of the repository is used here."""
from __future__ import annotations

import hashlib
import re
from typing import Dict, List, NamedTuple, Optional, Tuple

from document import NoDocument, Unsure, read_document


class Rules(NamedTuple):
    """The numbers and order of the rules, so that a campaign can be tried with a wrong one."""
    header: int = 52
    program_header: int = 32
    most_headers: int = 64
    kinds: Tuple[int, ...] = (2,)
    machine: int = 3
    file_slack: int = 0
    size_slack: int = 0
    interpreter: int = 3
    side_slack: int = 0
    shared: bool = True
    stub: int = 16
    stack: int = 4096
    page: int = 4096
    least: int = 65_536
    most_guest: int = 16_777_216
    most_real: int = 4_194_304
    versions: Tuple[int, ...] = (1, 2)
    most_name: int = 255
    most_modules: int = 16
    fields_first: bool = False
    most_events: int = 16
    most_tick: int = 1_000_000_000
    digits: int = 10
    lines: Tuple[int, ...] = (1, 5, 6, 7, 8, 9, 10, 11, 12, 13, 14, 15)
    falls: bool = False
    kept_return: bool = True
    most_file: int = 33_554_432
    module_later: bool = True
    script_late: bool = True
    image_early: bool = True
    read_early: bool = False


RULES = Rules()
FLAT_SIDE = 65_536
LOAD = 1
CONTROLLERS = (0, 1, 8, 9, 10, 11, 12, 13, 14, 15, 3, 4, 5, 6, 7)


class Refusal(Exception):
    """A status and the bytes of the error line."""

    def __init__(self, status: int, line: bytes):
        super().__init__(line)
        self.status, self.line = status, line


class Expected(NamedTuple):
    """What a run has to answer: one of these outputs with its status, or, where the code is unknown, lines of this shape."""
    status: int
    output: bytes
    other: Optional[bytes] = None
    shape: Optional["Shape"] = None

    def holds(self, status: int, output: bytes) -> bool:
        if self.shape is not None:
            return self.shape.holds(status, output)
        return status == self.status and output in (self.output, self.other)


class Shape(NamedTuple):
    """Of a run whose guest does what this oracle doesn't know: its real-time lines, its ticks and its version of what may follow."""
    real: Optional[bytes]
    ticks: int
    whole: bool

    def holds(self, status: int, output: bytes) -> bool:
        if not output.endswith(b"\n"):
            return False
        lines = output[:-1].split(b"\n")
        if any(not re.fullmatch(rb"[RHG] [1-9]\d* [ -~]+", line) for line in lines):
            return False
        ticks = [int(line.split()[1]) for line in lines]
        real = b"".join(line + b"\n" for line in lines if line.startswith(b"R"))
        breach = any(re.match(rb"G \d+ breach ", line) for line in lines)
        fault = any(re.match(rb"R \d+ fault ", line) for line in lines)
        ends = lines[-1:] if not self.whole else lines[-2:-1]
        return (ticks == sorted(ticks) and ticks[-1] == self.ticks and (self.real is None or real == self.real)
                and status == (3 if breach else 4 if fault else 0)
                and re.fullmatch(rb"G %d end (runs|halted|stopped)( [0-9a-f]{8}){10}" % self.ticks, ends[0]) is not None)


class Segment(NamedTuple):
    place: int
    size: int
    content: bytes

    def end(self) -> int:
        return self.place + self.size


class Image(NamedTuple):
    entry: int
    segments: List[Segment]


class System(NamedTuple):
    version: int
    image: bytes
    guest: int
    real: int
    modules: List[bytes]
    script: Optional[bytes]


class Event(NamedTuple):
    tick: int
    line: Optional[int]


def refuse(code: str, name: bytes, more: bytes = b"") -> Refusal:
    return Refusal(1, b"E " + code.encode() + b" " + name + more + b"\n")


class Oracle:
    """The files of a folder by their names, and the rules."""

    def __init__(self, files: Dict[bytes, bytes], rules: Rules = RULES):
        self.files, self.rules = files, rules

    def run(self, system: bytes, ticks: int, hardware: bool = False) -> Expected:
        """`run SYSTEM --ticks N`, with a word of ticks that is accepted."""
        try:
            return self.accepted(self.system(system), ticks, hardware)
        except Refusal as refusal:
            return Expected(refusal.status, refusal.line)
        except Unsure:
            return Expected(1, b"E 10 " + system + b"\n", b"E 11 " + system + b"\n")

    def flat(self, name: bytes, ticks: int) -> Expected:
        """`flat IMAGE TICKS`, with a word of ticks that is accepted."""
        try:
            content = self.fetch(name)
            if len(content) > FLAT_SIDE:
                raise refuse("21", name)
        except Refusal as refusal:
            return Expected(refusal.status, refusal.line)
        guest = Guest(content.ljust(FLAT_SIDE, b"\0"), 0, ticks)
        if not guest.known:
            return Expected(0, b"", None, Shape(b"", ticks, False))
        return Expected(guest.status, guest.lines + guest.end)

    def fetch(self, name: bytes) -> bytes:
        if name not in self.files:
            raise Refusal(2, b"E read " + name + b"\n")
        if len(self.files[name]) > self.rules.most_file:
            raise refuse("12", name)
        return self.files[name]

    # The system file.

    def system(self, name: bytes) -> System:
        content = self.fetch(name)
        try:
            fields = read_document(content)
        except NoDocument:
            raise refuse("11" if self.rules.fields_first else "10", name) from None
        system = self.fields(fields)
        if system is None:
            raise refuse("11", name)
        return system

    def fields(self, fields: Dict[str, object]) -> Optional[System]:
        rules = self.rules
        needed = {"version", "image", "guest_memory", "real_time_memory"}
        if not needed <= set(fields) or not set(fields) <= needed | {"modules", "script"}:
            return None
        version, guest, real = (fields[name] for name in ("version", "guest_memory", "real_time_memory"))
        modules = fields.get("modules", [])
        if type(version) is not int or version not in rules.versions:
            return None
        if not self.is_memory(guest, rules.most_guest) or not self.is_memory(real, rules.most_real):
            return None
        names = [fields["image"], *(modules if type(modules) is list else [None])] + ([fields["script"]] if "script" in fields else [])
        if not all(self.is_name(one) for one in names) or len(modules) > rules.most_modules:
            return None
        image, *others = (one.encode() for one in names)
        return System(version, image, guest, real, others[:len(modules)], others[len(modules)] if "script" in fields else None)

    def is_memory(self, value: object, most: int) -> bool:
        return type(value) is int and self.rules.least <= value <= most and value % self.rules.page == 0

    def is_name(self, value: object) -> bool:
        return type(value) is str and 1 <= len(value.encode()) <= self.rules.most_name

    # Images and modules.

    def image(self, name: bytes) -> Image:
        content, rules = self.fetch(name), self.rules
        if len(content) < rules.header:
            raise refuse("20.1", name)
        if content[:4] != b"\x7fELF":
            raise refuse("20.2", name)
        if content[4] != 1 or content[5] != 1:
            raise refuse("20.3", name)
        if word(content, 16, 2) not in rules.kinds:
            raise refuse("20.4", name)
        if word(content, 18, 2) != rules.machine or word(content, 20, 4) != 1:
            raise refuse("20.5", name)
        table, each, count = word(content, 28, 4), word(content, 42, 2), word(content, 44, 2)
        if count > rules.most_headers or (count and (each != rules.program_header or table + 32 * count > len(content) + rules.file_slack)):
            raise refuse("20.6", name)
        segments = [self.segment(name, content, table + 32 * number) for number in range(count)]
        return Image(word(content, 24, 4), [segment for segment in segments if segment is not None and segment.size])

    def segment(self, name: bytes, content: bytes, at: int) -> Optional[Segment]:
        kind, offset, place, _, held, size = (word(content, at + 4 * number, 4) for number in range(6))
        if kind == LOAD and offset + held > len(content) + self.rules.file_slack:
            raise refuse("20.7", name)
        if kind == LOAD and held > size + self.rules.size_slack:
            raise refuse("20.8", name)
        if kind == self.rules.interpreter:
            raise refuse("20.9", name)
        return Segment(place, size, content[offset:offset + held]) if kind == LOAD else None

    def place(self, name: bytes, image: Image, first: int, end: int, taken: List[Tuple[int, int]]) -> None:
        """Checks the segments against a side and what is taken of it, which they join."""
        for segment in image.segments:
            if segment.place < first or segment.end() > end + self.rules.side_slack:
                raise refuse("21", name)
        for segment in image.segments:
            if self.rules.shared and any(segment.place < other and start < segment.end() for start, other in taken):
                raise refuse("22", name)
            taken.append((segment.place, segment.end()))

    # Scripts.

    def script(self, name: bytes) -> List[Event]:
        lines = self.fetch(name).split(b"\n")
        last = lines.pop()
        lines = [line[:-1] if self.rules.kept_return and line.endswith(b"\r") else line for line in lines] + ([last] if last else [])
        events: List[Event] = []
        for number, line in enumerate(lines, 1):
            if not line or line.startswith(b"#"):
                continue
            event = self.event(line)
            if event is None or (events and event.tick < events[-1].tick and not self.rules.falls) \
                    or len([one for one in events[-40:] if one.tick == event.tick]) >= self.rules.most_events:
                raise refuse("30", name, b" %d" % number)
            events.append(event)
        return events

    def event(self, line: bytes) -> Optional[Event]:
        found = re.fullmatch(rb"([0-9]{1,%d}) +(?:line +(0|[1-9][0-9]?)|com[12] +[0-9A-Fa-f]{2})" % self.rules.digits, line)
        if not found or not 1 <= int(found.group(1)) <= self.rules.most_tick:
            return None
        if found.group(2) is not None and int(found.group(2)) not in self.rules.lines:
            return None
        return Event(int(found.group(1)), None if found.group(2) is None else int(found.group(2)))

    # Whole runs.

    def accepted(self, system: System, ticks: int, hardware: bool) -> Expected:
        if self.rules.read_early:
            for name in system.modules:
                self.fetch(name)
        events = self.script(system.script) if system.script is not None and not self.rules.script_late else []
        image = self.placed_image(system) if self.rules.image_early else Image(0, [])
        start, end = system.guest, system.guest + system.real
        taken = [(start, start + self.rules.stub), (end - self.rules.stack, end)]
        modules = []
        for name in system.modules:
            module = self.image(name)
            self.place(name, module, start, end, taken if self.rules.module_later else list(taken))
            modules.append(module)
        if system.script is not None and self.rules.script_late:
            events = self.script(system.script)
        if not self.rules.image_early:
            image = self.placed_image(system)
        guest_side = filled(bytearray(system.guest), 0, [image])
        real_side = filled(bytearray(b"\xcd\xf9".ljust(system.real, b"\0")), start, modules)
        return whole(system, image, modules, guest_side, real_side, events, ticks, hardware)

    def placed_image(self, system: System) -> Image:
        image = self.image(system.image)
        self.place(system.image, image, 0, system.guest, [])
        return image


def word(content: bytes, at: int, size: int) -> int:
    return int.from_bytes(content[at:at + size], "little")


def filled(side: bytearray, first: int, images: List[Image]) -> bytearray:
    for image in images:
        for segment in image.segments:
            side[segment.place - first:segment.place - first + len(segment.content)] = segment.content
    return side


class Guest:
    """A guest of an image whose code is a jump to itself or `add [eax], al` on zeros, up to its breach by a fetch; `known` is false where it has
    other code. It is on the processor from `first` on."""

    def __init__(self, side: bytes, entry: int, ticks: int, first: int = 1):
        self.known, self.lines, self.status = True, b"", 0
        place, flags, mode, size = entry, 2, b"runs", len(side)
        for tick in range(first, ticks + 1):
            code = side[place:place + 2]
            if code == b"\xeb\xfe":
                break
            if code == b"\0\0":
                place, flags = place + 2, sum_flags(side[0])
            elif len(code) < 2 and code in (b"", b"\0", b"\xeb"):
                self.lines, self.status, mode = b"G %d breach fetch %08x\n" % (tick, max(place, size)), 3, b"stopped"
                break
            else:
                self.known = False
                break
        words = [place, flags, 0, 0, 0, 0, size, 0, 0, 0]
        self.end = b"G %d end %s %s\n" % (ticks, mode, b" ".join(b"%08x" % one for one in words))


def sum_flags(byte: int) -> int:
    """EFLAGS of a byte with 0 added to it: PF, ZF and SF, and bit 1, which is always set."""
    return 2 | (bin(byte).count("1") % 2 == 0) << 2 | (byte == 0) << 6 | byte & 0x80


class Inits:
    """The real-time lines of modules whose inits return at once, loop, or fault in their first unit, and the first tick of the guest. `known` is
    false where an init has other code."""

    def __init__(self, side: bytearray, first: int, modules: List[Image]):
        self.known, self.lines, self.fault, self.tick, self.loops = True, b"", False, 1, False
        end = first + len(side)
        for number, module in enumerate(modules):
            self.lines += b"R %d on init %d\n" % (self.tick, number)
            side[-4:] = first.to_bytes(4, "little")
            at = module.entry - first
            code = bytes(side[at:at + 2]) if at >= 0 else b""
            if module.entry < first or module.entry >= end or (number < first and code in (b"\0\0", b"\0")):
                self.lines += b"R %d fault init %d memory\n" % (self.tick, number)
                self.fault = True
                self.tick += 1
            elif code[:1] == b"\xc3":
                self.lines += b"R %d ret\n" % (self.tick + 1)
                self.tick += 2
            elif code == b"\xcd\xf9":
                self.lines += b"R %d ret\n" % self.tick
                self.tick += 1
            elif code == b"\xeb\xfe":
                self.loops = True
                break
            else:
                self.known = False
                break
        if not self.loops:
            self.lines += b"R %d on guest\n" % self.tick


def whole(system: System, image: Image, modules: List[Image], guest_side: bytearray, real_side: bytearray, events: List[Event], ticks: int,
          hardware: bool) -> Expected:
    """What a run of accepted files prints: all of it where the code is known and ticks are enough for the inits."""
    inits = Inits(real_side, system.guest, modules)
    if not inits.known or (not inits.loops and inits.tick > ticks):
        return Expected(0, b"", None, Shape(None, ticks, True))
    real = inits.lines + b"R %d end 0 0\nR %d memory %s\n" % (ticks, ticks, digest(real_side))
    guest = Guest(bytes(guest_side), image.entry, ticks if not inits.loops else 0, inits.tick)
    if not guest.known:
        return Expected(0, b"", None, Shape(real, ticks, True))
    ends = real[len(inits.lines):] + guest.end.replace(b"G 0 ", b"G %d " % ticks, 1) + b"G %d memory %s\n" % (ticks, digest(guest_side))
    shown = hardware_lines(events, ticks, inits) if hardware else []
    body = merged(inits.lines, b"".join(shown), guest.lines)
    status = guest.status or (4 if inits.fault else 0)
    return Expected(status, body + ends)


def merged(*parts: bytes) -> bytes:
    """The lines of all parts by tick, and within a tick in the order of the parts."""
    lines = [line for part in parts for line in part.splitlines(True)]
    return b"".join(sorted(lines, key=lambda line: int(line.split()[1])))


def hardware_lines(events: List[Event], ticks: int, inits: Inits) -> List[bytes]:
    """The edges and acknowledgements of the script's lines in a run without modules, where each tick drains."""
    lines: List[bytes] = []
    for tick in sorted({event.tick for event in events if event.tick <= ticks}):
        risen = {event.line for event in events if event.tick == tick and event.line is not None}
        lines += [b"H %d edge %d\n" % (tick, line) for line in sorted(risen)]
        lines += [b"H %d ack %d\n" % (tick, line) for line in CONTROLLERS if line in risen]
    return lines


def digest(side: bytearray) -> bytes:
    return hashlib.sha256(side).hexdigest().encode()
