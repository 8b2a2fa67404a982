#!/usr/bin/env python3
"""Runs three threads beside each guest that does what no guest may do: the real-time lines are the same in every case, the guest's line and the
status are those of the breach, and the guest's memory is as it was.

usage: breaches.py PROGRAM"""
from __future__ import annotations

import os
import sys
import tempfile

import damage
import oracle
import systems
from runner import WRONG, Ended, Folder, fail

TICKS = 69
# Three times: gate 2 makes a thread at 11085h of a priority and a stack, and gate 6 makes it due. They are due at 60, 60 and 61.
THREADS = b"".join(bytes.fromhex(f"b802000000bb85100100b9{priority}000000ba00{stack}0100cdf8b806000000bb{number}000000b9{due}000000bae8030000cdf8")
                   for priority, stack, number, due in (("0a", "30", "00", "3c"), ("0a", "40", "01", "3c"), ("14", "50", "02", "3d")))
MODULE = THREADS + bytes.fromhex("c340c3")
REAL = b"""R 1 on init 0
R 5 gate 2 00011085 0000000a 00013000 00000000 0
R 10 gate 6 00000000 0000003c 000003e8 00000000 0
R 15 gate 2 00011085 0000000a 00014000 00000000 1
R 20 gate 6 00000001 0000003c 000003e8 00000000 0
R 25 gate 2 00011085 00000014 00015000 00000000 2
R 30 gate 6 00000002 0000003d 000003e8 00000000 0
R 32 ret
R 33 on guest
R 60 release 0
R 60 release 1
R 60 on thread 0
R 61 release 2
R 61 on thread 2
R 63 ret
R 64 on thread 0
R 65 ret
R 66 on thread 1
R 68 ret
R 69 on guest
"""
END = b"R 69 end 0 0\n"
# Code, the guest's line, EIP at the end, and EAX and EDX, which one of them sets.
GUESTS = [
    ("fa", "33 breach cli", 0, 0), ("fb", "33 breach sti", 0, 0), ("cf", "33 breach iret", 0, 0),
    ("9c", "33 breach pushf", 0, 0), ("9d", "33 breach popf", 0, 0),
    ("f4", "33 breach hlt", 0, 0), ("cdf7", "33 breach int 247", 0, 0), ("cdff", "33 breach int 255", 0, 0), ("e420", "33 breach port 0020", 0, 0),
    ("e640", "33 breach port 0040", 0, 0), ("e51f", "33 breach port 001f", 0, 0), ("66baf802ec", "34 breach port 02f8", 4, 0x2F8),
    ("a100000100", "33 breach load 00010000", 0, 0), ("a300000100", "33 breach store 00010000", 0, 0),
    ("e9fbff0000", "34 breach fetch 00010000", 0x10000, 0),
    ("0f0b", "33 shutdown 6", 0, 0),
]


def main() -> None:
    if len(sys.argv) != 2:
        fail("usage: breaches.py PROGRAM")
    program = os.path.abspath(sys.argv[1])
    # What the threads leave: the word G below each stack's top, that below the top of the side for the init, and the code.
    side = bytearray(b"\xcd\xf9".ljust(damage.REAL, b"\0"))
    side[0x1000:0x1000 + len(MODULE)] = MODULE
    for top in (0x3000, 0x4000, 0x5000, damage.REAL):
        side[top - 4:top] = damage.GUEST.to_bytes(4, "little")
    with tempfile.TemporaryDirectory() as folder:
        os.chdir(folder)
        place = Folder(program)
        for code, line, eip, edx in GUESTS:
            image = bytes.fromhex(code)
            place.hold({damage.SYSTEM: damage.system() + b'modules = ["m.elf"]\n', damage.IMAGE: damage.elf(0, [(damage.LOAD, 0, image, 0)]),
                        damage.MODULE: damage.elf(0x11000, [(damage.LOAD, 0x11000, MODULE, 0)])})
            ended = place.run(systems.run_words(TICKS))
            words = [eip, 2, 0, 0, edx, 0, damage.GUEST, 0, 0, 0]
            ends = (b"R 69 memory %s\nG 69 end stopped %s\nG 69 memory %s\n"
                    % (oracle.digest(side), b" ".join(b"%08x" % word for word in words), oracle.digest(bytearray(image.ljust(damage.GUEST, b"\0")))))
            lines = oracle.merged(REAL, b"G " + line.encode() + b"\n")
            wanted = Ended(0 if "shutdown" in line or WRONG else 3, lines + END + ends)
            if ended != wanted:
                fail(f"the guest {code} beside three threads: {ended}, and not {wanted}")
    print(f"hostile: beside {len(GUESTS)} guests that do what none may do the real-time lines are the same, and each has its line and status")


if __name__ == "__main__":
    main()
