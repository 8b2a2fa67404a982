#!/usr/bin/env python3
"""Makes scripts: a clock on a line, a text that a port receives, lines that rise by chance with a seed; and joins scripts."""
from __future__ import annotations

import argparse
import random
import sys
from typing import List

from common import command
from common.causes import Refused, content_of
from common.device_script import LAST_TICK, LINES, MOST_IN_A_TICK, Event, read_script

EPILOG = """The script goes to standard output. `join` puts the events of several scripts in the order of their ticks; events of one tick stay in
the order of the files.

examples:
  tools/script_recipes.py clock 8 100 --count 20 > clock
  tools/script_recipes.py text com1 'hello\\n' --first 1000 --every 40 > text
  tools/script_recipes.py random 5 9 --seed 7 --count 50 --first 100 --last 5000 > lines
  tools/script_recipes.py join clock text lines > script"""


def arguments() -> argparse.Namespace:
    parser = command.parser(__doc__, EPILOG)
    recipes = parser.add_subparsers(dest="recipe", metavar="RECIPE", required=True)
    clock = recipes.add_parser("clock", help="a line rises again and again")
    clock.add_argument("line", metavar="LINE", type=script_line, help="1 or 5 to 15")
    clock.add_argument("every", metavar="EVERY", type=command.positive, help="how many ticks lie between two rises")
    clock.add_argument("--first", metavar="T", type=command.positive, help="the first rise (EVERY)")
    clock.add_argument("--count", metavar="N", type=command.positive, default=20, help="how many rises (20)")
    text = recipes.add_parser("text", help="a port receives the bytes of a text")
    text.add_argument("port", choices=["com1", "com2"])
    text.add_argument("text", metavar="TEXT", help="\\n, \\r, \\t, \\\\ and \\xHH stand for a byte; - reads standard input as it is")
    text.add_argument("--first", metavar="T", type=command.positive, default=1, help="the tick of the first byte (1)")
    text.add_argument("--every", metavar="N", type=command.positive, default=40, help="how many ticks lie between two bytes (40)")
    chance = recipes.add_parser("random", help="lines rise by chance")
    chance.add_argument("lines", metavar="LINE", type=script_line, nargs="+", help="1 or 5 to 15")
    chance.add_argument("--seed", metavar="S", type=int, default=1, help="the same seed gives the same script (1)")
    chance.add_argument("--count", metavar="N", type=command.positive, default=20, help="how many rises (20)")
    chance.add_argument("--first", metavar="T", type=command.positive, default=1, help="no rise before it (1)")
    chance.add_argument("--last", metavar="T", type=command.positive, default=10_000, help="no rise behind it (10000)")
    join = recipes.add_parser("join", help="the events of several scripts")
    join.add_argument("scripts", metavar="SCRIPT", nargs="+")
    return parser.parse_args()


def script_line(text: str) -> int:
    if text not in map(str, LINES):
        raise argparse.ArgumentTypeError(f"{text} is no line of a script, which are 1 and 5 to 15")
    return int(text)


def clock(line: int, first: int, every: int, count: int) -> List[Event]:
    return [Event(first + every * number, "line", line) for number in range(count)]


def text(port: str, content: bytes, first: int, every: int) -> List[Event]:
    return [Event(first + every * number, port, byte) for number, byte in enumerate(content)]


def by_chance(lines: List[int], seed: int, count: int, first: int, last: int) -> List[Event]:
    if first > last:
        command.fail(f"--first {first} is behind --last {last}")
    draw = random.Random(seed)
    return in_order([Event(draw.randint(first, last), "line", draw.choice(lines)) for _ in range(count)])


def bytes_of(text: str) -> bytes:
    if text == "-":
        return sys.stdin.buffer.read()
    try:
        return text.encode().decode("unicode_escape").encode("latin-1")
    except UnicodeError as error:
        command.fail(f"'{text}': {error}")


def joined(names: List[str]) -> List[Event]:
    try:
        return in_order([event for name in names for event in read_script(name, content_of(name))])
    except Refused as refused:
        command.fail(refused.mistake.said())


def in_order(events: List[Event]) -> List[Event]:
    return sorted(events, key=lambda event: event.tick)


def events_of(words: argparse.Namespace) -> List[Event]:
    if words.recipe == "clock":
        return clock(words.line, words.first or words.every, words.every, words.count)
    if words.recipe == "text":
        return text(words.port, bytes_of(words.text), words.first, words.every)
    if words.recipe == "random":
        return by_chance(words.lines, words.seed, words.count, words.first, words.last)
    return joined(words.scripts)


def check(events: List[Event]) -> None:
    for event, later in zip(events, events[MOST_IN_A_TICK:]):
        if event.tick == later.tick:
            command.fail(f"tick {event.tick} has more than {MOST_IN_A_TICK} events")
    if events and events[-1].tick > LAST_TICK:
        command.fail(f"tick {events[-1].tick} is above {LAST_TICK:,}, the last of a script")


def main() -> int:
    events = events_of(arguments())
    check(events)
    for event in events:
        print(f"{event.tick} {event.kind} {event.value if event.kind == 'line' else f'{event.value:02x}'}")
    return 0


if __name__ == "__main__":
    command.run(main)
