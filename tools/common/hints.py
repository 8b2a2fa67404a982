"""What a breach, a shutdown and an end mean for who wrote the guest, in a sentence or two each. From `docs/GUEST.md`."""
from __future__ import annotations

from typing import List, Optional

from .guest import Guest
from .trace import Line, State

GATES = {"cli": ("F0h", "cli()"), "sti": ("F1h", "sti()"), "iret": ("F2h", "the entry of examples/runtime/entries.S"),
         "pushf": ("F3h", "pushf()"), "popf": ("F4h", "popf()"), "hlt": ("F5h", "hlt()")}
PORTS = {**dict.fromkeys((0x20, 0x21, 0xa0, 0xa1), "the interrupt controllers, which belong to the executive; lines are masked by "
                         "set_mask(), and no end of interrupt is written"),
         **dict.fromkeys(range(0x40, 0x44), "the timer, which belongs to the executive; a clock is set_timer(), or a line of the script"),
         **dict.fromkeys(range(0x2f8, 0x300), "COM2, which belongs to the real-time side; the guest's port is COM1, at 3f8h")}
TRAPS = {0: "the divide error: the divisor was 0, or the quotient doesn't fit", 3: "INT3", 4: "INTO with OF set"}
# A guess how near a place is that a wrong index reaches.
NEAR = 0x10000


def breach_hint(line: Line, state: Optional[State], guest: Optional[Guest]) -> str:
    kind = line.words[0]
    if kind in GATES:
        gate, call = GATES[kind]
        return f"the instruction {kind} stands in the image; in its place stands the gate INT {gate}: {call}"
    if kind == "int":
        return f"INT {int(line.words[1]):x}h is no gate of a guest, which are F0h to F6h"
    if kind == "port":
        port = int(line.words[1], 16)
        return f"port {port:x}h is of {PORTS.get(port, 'another owner')}"
    place = int(line.words[1], 16)
    return fetch_hint(place, state, guest) if kind == "fetch" else access_hint(kind, place, state, guest)


def side_of(guest: Optional[Guest]) -> str:
    return f"the guest's memory, which ends at {guest.size:x}h" if guest else "the guest's memory"


def fetch_hint(place: int, state: Optional[State], guest: Optional[Guest]) -> str:
    if state and state.registers["EIP"] < place:
        return f"the instruction at EIP passes the end of {side_of(guest)}: the guest ran on behind its code"
    hint = (f"EIP itself is {place:x}h, outside {side_of(guest)}: a jump, a call or a return went there. Look at the tick before "
            "(tools/steps.py --until breach): a return address that was overwritten, or a pointer to a function that isn't set")
    if guest and state and state.registers["ESP"] >= guest.size:
        hint += ". ESP is at or past the end of memory: more was popped than pushed, as by a return from the start"
    return hint


def access_hint(kind: str, place: int, state: Optional[State], guest: Optional[Guest]) -> str:
    hint = f"EIP is the instruction, and {place:x}h, where it would {kind}, is outside {side_of(guest)}"
    if state and place in (state.registers["ESP"], (state.registers["ESP"] - 4) % 2 ** 32):
        return hint + stack_hint(kind, place, guest)
    if place >= 2 ** 32 - NEAR:
        return hint + ": an index below 0, or a small number taken off a null pointer"
    if guest and place < guest.size + NEAR:
        return hint + ": shortly behind it, as an index past the end of an array, or a guest_memory that is too small"
    return hint + ": a pointer that isn't set or was overwritten"


def stack_hint(kind: str, place: int, guest: Optional[Guest]) -> str:
    if kind == "load" and guest and place >= guest.size:
        return ". It is the stack: more was popped than pushed"
    return ". It is the stack: ESP was lost, or came down past address 0"


def shutdown_hint(line: Line, state: Optional[State], guest: Optional[Guest]) -> str:
    vector = int(line.words[0])
    what = vector_name(vector, state, guest)
    if vector == 6:
        return f"{what}. There is no handler for vector 6 either, so the guest is stopped"
    setting = f"set_handler(VECTOR_OF_LINE({vector - 32}), ..)" if 32 <= vector < 64 else f"set_handler({vector}, ..)"
    return (f"{what}, and vector {vector} has no descriptor that is present: no {setting}, or no load_handlers() before, or a table "
            "with fewer entries")


def vector_name(vector: int, state: Optional[State], guest: Optional[Guest]) -> str:
    if vector == 6:
        return opcode_hint(state, guest)
    if vector in TRAPS:
        return TRAPS[vector]
    if 32 <= vector < 64:
        return f"line {vector - 32} (or INT {vector:x}h)"
    return f"INT {vector:x}h"


def opcode_hint(state: Optional[State], guest: Optional[Guest]) -> str:
    what = "the bytes at EIP are no instruction of this machine"
    place = state.registers["EIP"] if state else None
    first = guest.image.byte(place) if guest and place is not None else None
    if first is None:
        return what + (": EIP is outside the image" if guest and place is not None else "")
    code = " ".join(f"{guest.image.byte(place + at) or 0:02x}" for at in range(4))
    if 0xd8 <= first <= 0xdf or first == 0x9b:
        return f"{what}: {code} is of the coprocessor. Compile with -mgeneral-regs-only: there is no floating point"
    if first == 0x0f:
        return f"{what}: {code} is younger than the i386, or of its system instructions. Compile with -march=i386"
    return f"{what}: {code}. The guest may have run into its data, or the instruction is left out (docs/GUEST.md)"


def end_hints(state: State, guest: Optional[Guest], trace: List[Line]) -> List[str]:
    """What is odd about the end: a halt for good, and an EIP below the image."""
    hints = []
    if state.mode == "halted" and not state.flag():
        hints.append("the guest is halted with its flag clear, so no line wakes it: sti_and_hlt() in place of hlt(), or main has returned")
    elif state.mode == "halted" and not any(line.kind == "enter" for line in trace):
        hints.append("the guest waits with its flag set, and no line was entered: look at its mask (set_mask), at the script's ticks, and "
                     "whether its timer is set (set_timer)")
    lowest = min((segment.place for segment in guest.image.segments), default=0) if guest else 0
    if state.registers["EIP"] < lowest:
        hints.append(f"EIP is below the image, which begins at {lowest:x}h: a null pointer was called, and zeros are performed as "
                     "`add %al, (%eax)` up to the start. tools/steps.py --until-eip 0 shows who called")
    return hints
