"""Scripts of events from outside: their events, and their first bad line."""
from __future__ import annotations

import re
from typing import List, NamedTuple

from .causes import Mistake, Refused

LAST_TICK, MOST_IN_A_TICK = 1_000_000_000, 16
LINES = [1, *range(5, 16)]
OTHER_LINES = {0: "the timer's", 2: "the cascade of the two controllers", 3: "COM2's", 4: "COM1's: write `T com1 HH`"}
TICK = re.compile(r"[0-9]{1,10}")


class Event(NamedTuple):
    """What happens in a tick: `line` with its number, or `com1` or `com2` with a byte."""
    tick: int
    kind: str
    value: int


class BadLine(Exception):
    """Why a line is no event."""


def read_script(name: str, content: bytes) -> List[Event]:
    """The events of a script, or its first bad line."""
    events: List[Event] = []
    lines = content.split(b"\n")
    for number, line in enumerate(lines, 1):
        if number < len(lines) and line.endswith(b"\r"):
            line = line[:-1]
        try:
            add_line(events, line)
        except BadLine as error:
            why = f"{error}: '{line.decode('latin-1')}'"
            raise Refused(Mistake("30", name, why, number, f" {number}")) from None
    return events


def add_line(events: List[Event], line: bytes) -> None:
    if line == b"" or line.startswith(b"#"):
        return
    event = event_of(line.decode("latin-1"))
    if events and event.tick < events[-1].tick:
        raise BadLine(f"tick {event.tick} stands behind tick {events[-1].tick}; ticks never fall, so sort the lines (`sort -sn`)")
    if [before.tick for before in events[-MOST_IN_A_TICK:]] == [event.tick] * MOST_IN_A_TICK:
        raise BadLine(f"more than {MOST_IN_A_TICK} events in tick {event.tick}")
    events.append(event)


def event_of(line: str) -> Event:
    check_blanks(line)
    parts = re.split(" +", line)
    if len(parts) != 3:
        raise BadLine(f"{len(parts)} part{'s' * (len(parts) > 1)}; a line is `T line N`, `T com1 HH` or `T com2 HH`"
                      + (", and a comment has a line of its own" if "#" in line else ""))
    tick, kind, value = parts
    return Event(tick_of(tick), kind, value_of(kind, value))


def check_blanks(line: str) -> None:
    if "\t" in line:
        raise BadLine("a tab; the parts stand apart by spaces")
    if "\r" in line:
        raise BadLine("a carriage return that no line feed follows")
    if line.startswith(" ") or line.endswith(" "):
        raise BadLine("a space at the beginning or at the end")


def tick_of(text: str) -> int:
    if not TICK.fullmatch(text):
        raise BadLine(f"'{text}' is no tick, which has 1 to 10 decimal digits")
    if not 1 <= int(text) <= LAST_TICK:
        raise BadLine(f"tick {int(text)} isn't 1 to {LAST_TICK:,}")
    return int(text)


def value_of(kind: str, text: str) -> int:
    if kind == "line":
        return line_of(text)
    if kind in ("com1", "com2"):
        if not re.fullmatch("[0-9a-fA-F]{2}", text):
            raise BadLine(f"'{text}' isn't a byte in two hexadecimal digits")
        return int(text, 16)
    small = kind.lower()
    raise BadLine(f"'{kind}' is no event; there are line, com1 and com2"
                  + (", in small letters" if small in ("line", "com1", "com2") else ""))


def line_of(text: str) -> int:
    number = int(text) if re.fullmatch("[0-9]{1,3}", text) else -1
    if number not in LINES:
        what = f"; {number} is {OTHER_LINES[number]}" if number in OTHER_LINES else ""
        raise BadLine(f"'{text}' is no line of a script, which are 1 and 5 to 15{what}")
    if text != str(number):
        raise BadLine(f"'{text}' has a leading zero")
    return number
