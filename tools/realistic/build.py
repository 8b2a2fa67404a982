#!/usr/bin/env python3
"""Writes the files of the realistic system into a folder: kernel.elf, one.elf, two.elf, script and system.toml. The code is assembled
here, so that no compiler is needed.

usage: build.py FOLDER
"""
import pathlib
import struct
import sys
from typing import Dict, List, Tuple

import system

GUEST_CALL, CLEAR_RETURN, SET_FLAG, REAL_TIME = 0xF6, 0xF2, 0xF1, 0xF8
REGISTERS = {"eax": 0, "ecx": 1, "edx": 2, "ebx": 3, "esi": 6}
FIRST_VECTOR = 0x20
INTERRUPT_GATE = 0x8E
COM1 = 0x3F8


class Code:
    """Bytes at an address, with labels for jumps."""

    def __init__(self, place: int):
        self.place = place
        self.code = bytearray()

    def here(self) -> int:
        return self.place + len(self.code)

    def add(self, *data: int) -> None:
        self.code += bytes(data)

    def word(self, value: int) -> None:
        self.code += struct.pack("<I", value & 0xFFFFFFFF)

    def move(self, register: str, value: int) -> None:
        self.add(0xB8 + REGISTERS[register])
        self.word(value)

    def interrupt(self, vector: int) -> None:
        self.add(0xCD, vector)

    def call(self, vector: int, function: int, **registers: int) -> None:
        """A gate with its function in EAX."""
        for register, value in registers.items():
            self.move(register, value)
        self.move("eax", function)
        self.interrupt(vector)

    def increment(self, place: int) -> None:
        self.add(0xFF, 0x05)
        self.word(place)

    def back(self, opcode: int, to: int) -> None:
        """A short jump to an address behind."""
        self.add(opcode, (to - self.here() - 2) & 0xFF)

    def work(self, ticks: int) -> None:
        """LOOP to itself, one tick each."""
        self.move("ecx", ticks)
        self.back(0xE2, self.here())

    def port(self, number: int) -> None:
        """MOV DX."""
        self.add(0x66, 0xBA, number & 0xFF, number >> 8)

    def out(self, port: int, value: int) -> None:
        self.port(port)
        self.add(0xB0, value, 0xEE)

    def push_all(self) -> None:
        self.add(0x60)

    def return_from_entry(self) -> None:
        self.add(0x61)
        self.interrupt(CLEAR_RETURN)

    def ret(self) -> None:
        self.add(0xC3)


def elf(place: int, data: bytes, memory: int, entry: int) -> bytes:
    """An ELF executable of one segment."""
    header = b"\x7fELF" + bytes((1, 1, 1)) + bytes(9)
    header += struct.pack("<HHIIIIIHHHHHH", 2, 3, 1, entry, 52, 0, 0, 52, 32, 1, 0, 0, 0)
    return header + struct.pack("<8I", 1, 84, place, place, len(data), memory, 7, 4) + data


def handlers(code: Code) -> Dict[int, int]:
    """The kernel's handlers, by their lines."""
    places = {system.TIMER: code.here()}
    code.push_all()
    code.increment(system.DUES)
    code.call(GUEST_CALL, 5, ebx=system.COUNTS, ecx=system.BUFFER, edx=system.COUNTS_GET)
    code.call(GUEST_CALL, 4, ebx=system.SET_POINTS, ecx=system.DUES, edx=system.WORD)
    code.return_from_entry()
    # Sends back what COM1 has received, until there is no more.
    places[system.SERIAL] = code.here()
    code.push_all()
    again = code.here()
    code.port(COM1 + 5)
    code.add(0xEC, 0xA8, 0x01, 0x74, 0x08)          # in al, dx; test al, 1; jz over the next 8 bytes
    code.port(COM1)
    code.add(0xEC, 0xEE)                            # in al, dx; out dx, al
    code.back(0xEB, again)
    code.return_from_entry()
    places[system.GUEST_LINE] = code.here()
    code.push_all()
    code.increment(system.LINES)
    code.return_from_entry()
    return places


def descriptors(places: Dict[int, int]) -> bytes:
    table = bytearray(8 * system.DESCRIPTOR_COUNT)
    for line, place in places.items():
        struct.pack_into("<HHBBH", table, 8 * (FIRST_VECTOR + line), place & 0xFFFF, 8, 0, INTERRUPT_GATE, place >> 16)
    return bytes(table)


def kernel() -> bytes:
    code = Code(system.KERNEL)
    places = handlers(code)
    entry = code.here()
    code.call(GUEST_CALL, 1, ebx=system.DESCRIPTORS, ecx=system.DESCRIPTOR_COUNT)
    code.call(GUEST_CALL, 2, ebx=~sum(1 << line for line in places))
    code.out(COM1 + 2, 1)                           # FIFOs on
    code.out(COM1 + 1, 1)                           # an interrupt for what is received
    code.out(COM1 + 4, 8)                           # OUT2 lets it out
    code.call(GUEST_CALL, 3, ebx=system.TIMER_PERIOD)
    code.interrupt(SET_FLAG)
    # For ever: the sum of the table's words.
    begin = code.here()
    code.move("esi", system.TABLE)
    code.move("ecx", system.TABLE_WORDS)
    code.add(0x31, 0xC0)                            # xor eax, eax
    inner = code.here()
    code.add(0x03, 0x06, 0x83, 0xC6, 0x04)          # add eax, [esi]; add esi, 4
    code.back(0xE2, inner)
    code.add(0xA3)                                  # mov [SUM], eax
    code.word(system.SUM)
    code.increment(system.ROUNDS)
    code.back(0xEB, begin)
    image = bytearray(at * 7 % 256 for at in range(system.KERNEL_SIZE))
    image[:len(code.code)] = code.code
    at = system.DESCRIPTORS - system.KERNEL
    image[at:] = bytes(len(image) - at)
    image[at:at + 8 * system.DESCRIPTOR_COUNT] = descriptors(places)
    return elf(system.KERNEL, bytes(image), len(image), entry)


def thread_code(code: Code, thread: system.Thread, count: int) -> int:
    begin = code.here()
    code.work(thread.work)
    if thread.fifo is not None:
        code.increment(count)
        code.call(REAL_TIME, 13, ebx=thread.fifo, ecx=count, edx=system.WORD)
    code.call(REAL_TIME, 7)
    code.back(0xEB, begin)
    return begin


def module(number: int) -> bytes:
    place, threads = system.MODULES[number]
    words, stacks = place + system.WORDS_OF_MODULE, place + system.STACKS_OF_MODULE
    code = Code(place)
    entries = [thread_code(code, thread, words + 4 * at) for at, thread in enumerate(threads)]
    handler = code.here()
    if number == 0:
        code.call(REAL_TIME, 14, ebx=system.SET_POINTS, ecx=words + 0x100, edx=system.WORD)
    else:
        code.increment(words + 0x100)
    code.ret()
    init = code.here()
    if number == 0:
        code.call(REAL_TIME, 11, ebx=system.COUNTS, ecx=system.COUNTS_SIZE)
        code.call(REAL_TIME, 11, ebx=system.SET_POINTS, ecx=system.SET_POINTS_SIZE)
        code.call(REAL_TIME, 16, ebx=system.SET_POINTS, ecx=handler)
    else:
        code.call(REAL_TIME, 18, ebx=system.MODULE_LINE, ecx=handler)
    for at, (thread, entry) in enumerate(zip(threads, entries)):
        code.call(REAL_TIME, 2, ebx=entry, ecx=thread.priority, edx=stacks + system.STACK_SIZE * (at + 1), esi=0)
        code.add(0x89, 0xC3)                        # mov ebx, eax
        code.call(REAL_TIME, 6, ecx=thread.start, edx=thread.period)
    code.ret()
    return elf(place, bytes(code.code), system.STACKS_OF_MODULE + system.STACK_SIZE * len(threads), init)


SYSTEM = f"""version = 1
image = "kernel.elf"
guest_memory = {system.GUEST_MEMORY}
real_time_memory = {system.REAL_TIME_MEMORY}
modules = ["one.elf", "two.elf"]
script = "script"
"""


def files() -> List[Tuple[str, bytes]]:
    script = "".join(f"{line}\n" for line in system.script())
    return [("kernel.elf", kernel()), ("one.elf", module(0)), ("two.elf", module(1)), ("script", script.encode()),
            ("system.toml", SYSTEM.encode())]


if __name__ == "__main__":
    if len(sys.argv) != 2:
        sys.exit("usage: build.py FOLDER")
    for name, data in files():
        (pathlib.Path(sys.argv[1]) / name).write_bytes(data)
