#!/usr/bin/env python3
"""Writes the rows of src/guest_calls.rt. The ticks were counted by hand, one for each instruction: the lines stand here as the rules of the guest's
calls give them, and the script only adds the bytes of the images and the digests of both sides.

Usage: python3 guest_call_rows.py (any Python 3.8 or later; the rows were written on 2 December 2026 with 3.11)
"""
import hashlib

G = R = 65536
MODULE = 0x11000
EAX, ECX, EDX, EBX = range(4)


def move(register, value):
    return bytes([0xB8 + register]) + (value & 0xFFFFFFFF).to_bytes(4, "little")


def side(first, *parts):
    """A side with these bytes at these addresses, and zeros."""
    held = bytearray(65536)
    for place, data in parts:
        held[place - first:place - first + len(data)] = data
    return held


def digest(held):
    return hashlib.sha256(held).hexdigest()


def segment(place, data):
    return b"".join(word.to_bytes(4, "little") for word in (1, 0, place, place, len(data), len(data), 7, 1)), data


def image(entry, *parts):
    """An ELF image with a segment for each part."""
    header = b"\x7fELF\1\1\1" + bytes(9) + bytes((2, 0, 3, 0, 1, 0, 0, 0)) + entry.to_bytes(4, "little") + (52).to_bytes(4, "little") + bytes(8)
    header += bytes((52, 0, 32, 0, len(parts), 0)) + bytes(6)
    offset = 52 + 32 * len(parts)
    table, rest = b"", b""
    for place, data in parts:
        words = (1, offset + len(rest), place, place, len(data), len(data), 7, 1)
        table += b"".join(word.to_bytes(4, "little") for word in words)
        rest += data
    return header + table + rest


def row(what, guest, module, ticks, status, lines, registers, guest_after, module_after=(), threads="0 0"):
    """`registers`: mode, EIP, EFLAGS, then EAX, ECX, EDX and EBX at the end."""
    code = b"".join(data for _, data in module)
    modules = f"m.elf={MODULE:x}={code.hex()}" if module else ""
    real = [(G, b"\xcd\xf9")] + list(module)
    if module:
        # An init or handler that started has the stub's address on its stack.
        real.append((G + R - 4, G.to_bytes(4, "little")))
    mode, eip, eflags, *general = registers
    words = " ".join(f"{word & 0xFFFFFFFF:08x}" for word in (eip, eflags, *general, G, 0, 0, 0))
    count = ticks.split()[0]
    ends = [f"R {count} end {threads}", f"R {count} memory {digest(side(G, *real, *module_after))}", f"G {count} end {mode} {words}",
            f"G {count} memory {digest(side(0, *guest, *guest_after))}"]
    print(" | ".join([what, modules, image(0, *guest).hex(), ticks, status, ";".join(lines + ends) + ";"]) + "\\n\\")


def calls():
    """A module with FIFO 1 of 4 bytes, in which it puts `abc`, and its handler; and a guest whose calls are refused, find nothing, move nothing,
    and get the three bytes. Its last put passes the end of its side. A return is two ticks: the RET, and INT F9h of the stub."""
    text, handler = MODULE + 55, MODULE + 58
    init = (move(EAX, 11) + move(EBX, 1) + move(ECX, 4) + b"\xcd\xf8" + move(EAX, 13) + move(ECX, text) + move(EDX, 3) + b"\xcd\xf8"
            + move(EAX, 16) + move(ECX, handler) + b"\xcd\xf8" + b"\xc3")
    init += bytes(55 - len(init)) + b"abc\xc3"
    gate = b"\xcd\xf6"
    code = (move(EAX, 4) + move(EBX, 5) + move(ECX, 0x200) + move(EDX, 2) + gate        # ticks 14 to 18: FIFO 5 isn't there
            + move(EAX, 5) + gate                                                       # 19, 20
            + move(EAX, 4) + move(EDX, 257) + gate                                      # 21 to 23: too many
            + move(EAX, 4) + move(EBX, 1) + move(EDX, 0) + gate                         # 24 to 27: no bytes
            + move(EAX, 5) + move(ECX, 0x208) + move(EDX, 8) + gate                     # 28 to 31: the three bytes
            + move(EAX, 4) + move(ECX, 0xFFFF) + move(EDX, 2))                          # 34 to 36, and 37 at the end of the side
    lines = ["R 1 on init 0", "R 4 gate 11 00000001 00000004 00000000 00000000 0", f"R 8 gate 13 00000001 {text:08x} 00000003 00000000 3",
             f"R 11 gate 16 00000001 {handler:08x} 00000003 00000000 0", "R 13 ret", "R 14 on guest",
             "R 18 reply -19 -", "G 18 put 5 7879", "R 20 reply -19 -", "G 20 get 5 2", "R 27 reply 0 -", "G 27 put 1 -",
             "R 31 reply 3 616263", "G 31 get 1 8", "R 32 on fifo 1", "R 33 ret", "R 34 on guest", "G 37 breach load 00010000"]
    row("calls that find nothing, are refused, move nothing, get what is there, and pass the side's end", [(0, code + gate), (0x200, b"xy")],
        [(MODULE, init)], "38", "breach", lines, ("stopped", len(code), 2, 4, 0xFFFF, 2, 1), [(0x208, b"abc")])


def get_outside():
    """Without a module: a get of which the last byte would be outside is a breach before any call, though there is no FIFO."""
    code = move(EAX, 5) + move(EBX, 1) + move(ECX, 0xFFFD) + move(EDX, 4)
    row("a get past the side's end", [(0, code + b"\xcd\xf6")], [], "6", "breach", ["R 1 on guest", "G 5 breach store 00010000"],
        ("stopped", len(code), 2, 5, 0xFFFD, 4, 1), [])


def full():
    """A FIFO of 4 bytes that is filled by the guest, full, and emptied by it; each call that moves something starts the handler in the next tick."""
    handler = MODULE + 30
    init = (move(EAX, 11) + move(EBX, 1) + move(ECX, 4) + b"\xcd\xf8" + move(EAX, 16) + move(ECX, handler) + b"\xcd\xf8" + b"\xc3\xc3")
    gate = b"\xcd\xf6"
    code = (move(EAX, 4) + move(EBX, 1) + move(ECX, 0x200) + move(EDX, 4) + gate        # ticks 10 to 14
            + move(EAX, 4) + move(EDX, 1) + gate                                        # 17 to 19
            + move(EAX, 5) + move(EDX, 8) + gate)                                       # 20 to 22
    lines = ["R 1 on init 0", "R 4 gate 11 00000001 00000004 00000000 00000000 0", f"R 7 gate 16 00000001 {handler:08x} 00000000 00000000 0",
             "R 9 ret", "R 10 on guest", "R 14 reply 4 -", "G 14 put 1 61626364", "R 15 on fifo 1", "R 16 ret", "R 17 on guest",
             "R 19 reply -28 -", "G 19 put 1 61", "R 22 reply 4 61626364", "G 22 get 1 8", "R 23 on fifo 1", "R 24 ret"]
    row("a FIFO that is filled, full and emptied", [(0, code), (0x200, b"abcd")], [(MODULE, init)], "24", "done", lines,
        ("runs", len(code), 2, 4, 0x200, 8, 1), [(0x200, b"abcd")])


def timer():
    """The guest's timer of 3 ticks, set in tick 16, beside a thread whose due is 20 and whose next one is further away than a one-shot reaches."""
    entry, stack = MODULE + 0x2F, 0x13000
    init = (move(EAX, 2) + move(EBX, entry) + move(ECX, 10) + move(EDX, stack) + move(6, 7) + b"\xcd\xf8"
            + move(EAX, 6) + b"\x31\xdb" + move(ECX, 20) + move(EDX, 0x8001) + b"\xcd\xf8" + b"\xc3")
    thread = b"\xcd\xf8\xeb\xfe"
    code = move(EAX, 3) + move(EBX, 3) + b"\xcd\xf6" + b"\xeb\xfe"
    lines = ["R 1 on init 0", f"R 6 gate 2 {entry:08x} 0000000a {stack:08x} 00000007 0", "R 11 gate 6 00000000 00000014 00008001 00000007 0",
             "H 11 set 17", "R 13 ret", "R 14 on guest", "H 16 set 5", "H 19 edge 0", "H 19 ack 0", "H 19 set 1",
             "R 20 release 0", "R 20 on thread 0", "R 20 gate 7 00000000 00000000 00000000 00000000 0", "H 20 edge 0", "H 20 ack 0", "H 20 set 3",
             "R 21 on guest", "H 22 edge 0", "H 22 ack 0", "H 22 set 5"]
    row("a timer of the guest beside the due of a thread", [(0, code)], [(MODULE, init + thread)], "24 --hardware", "done", lines,
        ("runs", 12, 2, 0, 0, 0, 3), [], [(stack - 4, G.to_bytes(4, "little"))], "1 0")


full()
calls()
get_outside()
timer()
