#!/usr/bin/env python3
"""Runs the program with hostile words: at the limits of names and of numbers, without text, without end, and in every shape of the options. What has to
come is read off docs/FORMATS.md.

usage: words.py PROGRAM"""
from __future__ import annotations

import os
import random
import subprocess
import sys
import tempfile
from typing import Iterator, List, Tuple

import damage
import systems
from runner import WRONG, Ended, Folder, fail

USAGE = Ended(5 + WRONG, b"E usage\n")
NO_TEXT = Ended(7, b"")
MANY, LONG = 20_000, 100_000
SHUFFLES = 500


def read(name: bytes) -> Ended:
    return Ended(2, b"E read " + name + b"\n")


def ticks(word: bytes) -> Ended:
    return Ended(1, b"E 40 " + word + b"\n")


def done(count: int) -> Ended:
    return Ended(*systems.flat("", damage.STILL, count).expected[:2])


def numbers() -> Iterator[Tuple[bytes, object]]:
    """Words of ticks, and what they come to: a number of ticks, `E 40`, or no command."""
    for word in (b"1", b"5", b"05", b"00000000000000000005", b"0" * 19 + b"1"):
        yield word, int(word)
    for word in (b"0", b"00", b"0" * 20, b"1000000001", b"4294967296", b"4294967301", b"18446744073709551616", b"18446744073709551621", b"9" * 20):
        yield word, ticks(word)
    for word in (b"", b"0" * 20 + b"5", b"9" * 21, b"-1", b"+5", b" 5", b"5 ", b"5x", b"0x5", b"5.0", b"1e3", b"1_0", b"\xd9\xa5", b"5\n", b"9" * LONG):
        yield word, USAGE


def of_flat() -> Iterator[Tuple[List[bytes], Ended]]:
    for word, what in numbers():
        yield [b"flat", b"k.bin", word], done(what) if isinstance(what, int) else what
    for name in (b"n" * 255, b"-", b"--", b"-x", b"--ticks", b"a\nb", b"\xc3\xa9" * 127 + b"n", b"/", b".", b" "):
        yield [b"flat", name, b"5"], read(name)
    for name in (b"", b"n" * 256, b"\xc3\xa9" * 128, b"n" * LONG):
        yield [b"flat", name, b"5"], USAGE
    for some in ([], [b"flat"], [b"flat", b"k.bin"], [b"flat", b"k.bin", b"5", b"6"], [b"flat", b"k.bin", b"5", b""], [b"FLAT", b"k.bin", b"5"], [b""],
                 [b"", b"flat", b"k.bin", b"5"], [b"flat "], [b"a"] * MANY, [b"flat"] + [b"5"] * MANY, [b"n" * LONG], [b"--"], [b"-h"], [b"--version"]):
        yield some, USAGE


def of_run() -> Iterator[Tuple[List[bytes], Ended]]:
    for word, what in numbers():
        for some in ([b"run", b"none", b"--ticks", word], [b"run", b"--ticks=" + word, b"none"], [b"run", b"--hardware", b"--ticks", word, b"--", b"none"]):
            yield some, read(b"none") if isinstance(what, int) else what
    for name in (b"n" * 255, b"-", b"a\nb", b"\xc3\xa9" * 127):
        yield [b"run", name, b"--ticks", b"5"], read(name)
    for name in (b"-x", b"--", b"--ticks", b"--hardware"):
        yield [b"run", b"--ticks", b"5", b"--", name], read(name)
    for some in ([b"none"], [b"--ticks", b"5"], [b"none", b"--ticks"], [b"none", b"--ticks", b"5", b"--ticks", b"5"], [b"none", b"none", b"--ticks", b"5"],
                 [b"none", b"--tick", b"5"], [b"none", b"--hardware", b"--hardware", b"--ticks", b"5"], [b"none", b"--hardware=1", b"--ticks", b"5"],
                 [b"none", b"--hard", b"--ticks", b"5"], [b"", b"--ticks", b"5"], [b"n" * 256, b"--ticks", b"5"], [b"-x", b"--ticks", b"5"],
                 [b"none", b"--ticks", b"5", b"--help"], [b"none", b"--ticks", b"5", b"-h"], [b"none", b"--ticks", b"5", b"--", b"--hardware"],
                 [b"none", b"--ticks", b"5"] + [b"x"] * MANY, [b"none"] + [b"--hardware"] * MANY):
        yield [b"run", *some], USAGE


def no_text() -> Iterator[List[bytes]]:
    """Words of which one isn't text: a byte FFh, a part of a character, one of a surrogate, and one that is written with too many bytes."""
    for bad in (b"\xff", b"k\xc3", b"\xed\xa0\x80", b"\xc0\xaf", b"\xf4\x90\x80\x80"):
        for at in range(3):
            some = [b"flat", b"k.bin", b"5"]
            some[at] = bad
            yield some
        yield [b"flat", b"k.bin", b"5", bad]
        yield [bad]


def own_name(program: str) -> None:
    """The program's own name is a word too."""
    for name, wanted in ((b"\xff", NO_TEXT), (b"", done(5)), (b"n" * LONG, done(5))):
        with_name = subprocess.run([name, b"flat", b"k.bin", b"5"], executable=program, stdout=subprocess.PIPE, stderr=subprocess.PIPE, env={}, check=False)
        if Ended(with_name.returncode, with_name.stdout) != wanted or with_name.stderr:
            fail(f"the program's own name {name[:20]!r}: {with_name}, and not {wanted}")


def shuffled(draw: random.Random) -> Iterator[Tuple[List[bytes], Ended]]:
    """Words of `run` in any order, with some left out or twice. There is one positional word, one option with its value, and perhaps a flag."""
    for _ in range(SHUFFLES):
        parts = [part for part in ([b"none"], [b"--ticks", b"5"], [b"--hardware"]) for _ in range(draw.choice((0, 1, 1, 1, 1, 2)))]
        draw.shuffle(parts)
        count = [parts.count(part) for part in ([b"none"], [b"--ticks", b"5"], [b"--hardware"])]
        good = count[:2] == [1, 1] and count[2] < 2
        yield [b"run", *(word for part in parts for word in part)], read(b"none") if good else USAGE


def main() -> None:
    if len(sys.argv) != 2:
        fail("usage: words.py PROGRAM")
    program = os.path.abspath(sys.argv[1])
    with tempfile.TemporaryDirectory() as folder:
        os.chdir(folder)
        place = Folder(program)
        place.hold({damage.IMAGE: damage.STILL})
        os.mkdir(b"-")
        count = 0
        cases = [*of_flat(), *of_run(), *((some, NO_TEXT) for some in no_text()), *shuffled(random.Random(1))]
        for some, wanted in cases:
            ended = place.run(some)
            count += 1
            if ended != wanted:
                fail(f"{len(some)} words {[word[:40] for word in some[:8]]}: {Ended(ended.status, ended.output[:200])}, and not {wanted}")
        own_name(program)
    print(f"hostile: {count} lists of words are answered as docs/FORMATS.md says, at the limits of names and numbers, without text, and in any order")


if __name__ == "__main__":
    main()
