#!/usr/bin/env python3
"""Makes each put of a run fail after 0, 1 and 5 bytes, in each way in which a write fails: just the lines before and that many bytes are written, no
write follows, and the status is 2. Then each open and each read of a file fails, and each read and write moves one byte.

usage: failing_io.py PROGRAM"""
from __future__ import annotations

import errno
import os
import sys
import tempfile
from typing import Iterator, List

import damage
import library
import systems
from runner import WRONG, Ended, Folder, fail

AFTER = (0, 1, 5)
# The last is a write that takes no byte.
KINDS = (errno.EIO, errno.ENOSPC, errno.EPIPE, 0)


def runs() -> Iterator[systems.Run]:
    yield systems.fifo()
    yield systems.fifo(hardware=True)
    yield systems.of_oracle("two modules and a script", damage.WITH_ALL, 12)
    yield systems.of_oracle("a script and the hardware", damage.WITH_SCRIPT, 12, True)
    yield systems.flat("a flat image", b"\xeb\xfe", 5)
    yield from (run for run in systems.refused() if run.name != "a large image")


def fail_puts(place: Folder, shared: str, run: systems.Run, plain: Ended) -> int:
    """Each put of the run fails, after so many bytes of its line."""
    lines = plain.output.splitlines(True)
    for number in range(1, len(lines) + 1):
        for after in AFTER:
            for kind in KINDS:
                ended, seen = library.tried(place, shared, run.words, fail_write=number, after=after, fail_kind=kind)
                wanted = Ended(2, b"".join(lines[:number - 1]) + lines[number - 1][:after + WRONG])
                if ended != wanted:
                    fail(f"{run.name}: put {number} failing after {after} bytes (errno {kind}): {ended}, and not {wanted}")
                if seen.puts != number or seen.behind:
                    fail(f"{run.name}: put {number} failing after {after} bytes (errno {kind}): {seen.puts} puts and {seen.behind} writes behind it")
    return len(lines) * len(AFTER) * len(KINDS)


def fail_opens(place: Folder, shared: str, run: systems.Run, names: List[bytes]) -> None:
    """Each open fails: the file is named, in the order in which the files are read."""
    for number, name in enumerate(names, 1):
        for kind in (errno.EACCES, errno.EMFILE, errno.EIO):
            ended, seen = library.tried(place, shared, run.words, fail_open=number, fail_kind=kind)
            wanted = Ended(2, b"E read " + name + b"\n")
            if ended != wanted or seen.opens != number:
                fail(f"{run.name}: open {number} failing with errno {kind}: {ended} after {seen.opens} opens, and not {wanted}")


def fail_reads(place: Folder, shared: str, run: systems.Run, names: List[bytes], reads: int) -> None:
    """Each read fails: of all files each is named at least twice (its bytes, and its end), in their order, and no file behind it is opened."""
    named: List[bytes] = []
    for number in range(1, reads + 1):
        ended, seen = library.tried(place, shared, run.words, fail_read=number, fail_kind=errno.EIO)
        if ended.status != 2 or not ended.output.startswith(b"E read ") or seen.opens > len(names):
            fail(f"{run.name}: read {number} failing: {ended}")
        named.append(ended.output[len(b"E read "):-1])
        if named[-1] != names[seen.opens - 1]:
            fail(f"{run.name}: read {number} failing names {named[-1]}, and {names[seen.opens - 1]} was opened last")
    if [name for name in dict.fromkeys(named)] != names or any(named.count(name) < 2 for name in names):
        fail(f"{run.name}: reads that fail name {named}, and the files are {names}")


def main() -> None:
    if len(sys.argv) != 2:
        fail("usage: failing_io.py PROGRAM")
    program = os.path.abspath(sys.argv[1])
    with tempfile.TemporaryDirectory() as folder:
        os.chdir(folder)
        shared = library.build(folder)
        place = Folder(program)
        count = 0
        for run in [*runs(), *systems.makes_of(place, "puts that fail")]:
            place.hold(run.files)
            plain, seen = library.tried(place, shared, run.words)
            systems.checked(run, plain)
            if seen.puts != plain.output.count(b"\n"):
                fail(f"{run.name}: {seen.puts} puts, and {plain.output.count(bytes([10]))} lines")
            count += fail_puts(place, shared, run, plain)
            short, _ = library.tried(place, shared, run.words, short=1)
            if short != plain:
                fail(f"{run.name}: where each read and write moves one byte: {short}, and not {plain}")
        print(f"hostile: {count} puts that fail leave the lines before and a part of their own, with status 2, and none follows")
        for run in (systems.fifo(), systems.of_oracle("two modules and a script", damage.WITH_ALL, 12), systems.realistic(50)):
            place.hold(run.files)
            plain, seen = library.tried(place, shared, run.words)
            fail_opens(place, shared, run, run.names())
            fail_reads(place, shared, run, run.names(), seen.reads)
            if seen.opens != len(run.names()):
                fail(f"{run.name}: {seen.opens} files were opened, and there are {run.names()}")
        print("hostile: each open and each read that fails is answered with its file's name and status 2")


if __name__ == "__main__":
    main()
