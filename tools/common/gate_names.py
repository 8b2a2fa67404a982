"""The gates of the real-time side, INT F8h, by their numbers, as `docs/SCHEDULE.md` has them."""
from __future__ import annotations

from typing import Callable, Dict, List, NamedTuple, Optional


class Gate(NamedTuple):
    """The name of a function of INT F8h, and what its registers are."""
    name: str
    arguments: Dict[str, str]


GATES = {
    1: Gate("gethrtime", {}),
    2: Gate("pthread_create", {"EBX": "entry", "ECX": "priority", "EDX": "stack top", "ESI": "argument"}),
    3: Gate("pthread_delete", {"EBX": "thread"}),
    4: Gate("pthread_suspend", {"EBX": "thread"}),
    5: Gate("pthread_wakeup", {"EBX": "thread"}),
    6: Gate("pthread_make_periodic", {"EBX": "thread", "ECX": "start", "EDX": "period"}),
    7: Gate("pthread_wait", {}),
    8: Gate("pthread_self", {}),
    9: Gate("pthread_setprio", {"EBX": "thread", "ECX": "priority"}),
    10: Gate("pthread_getprio", {"EBX": "thread"}),
    11: Gate("fifo_create", {"EBX": "FIFO", "ECX": "size"}),
    12: Gate("fifo_destroy", {"EBX": "FIFO"}),
    13: Gate("fifo_put", {"EBX": "FIFO", "ECX": "place", "EDX": "count"}),
    14: Gate("fifo_get", {"EBX": "FIFO", "ECX": "place", "EDX": "count"}),
    15: Gate("fifo_flush", {"EBX": "FIFO"}),
    16: Gate("fifo_create_handler", {"EBX": "FIFO", "ECX": "entry"}),
    17: Gate("fifo_count", {"EBX": "FIFO"}),
    18: Gate("request_irq", {"EBX": "line", "ECX": "entry"}),
    19: Gate("free_irq", {"EBX": "line"}),
    20: Gate("get_soft_irq", {}),
    21: Gate("free_soft_irq", {"EBX": "line"}),
    22: Gate("pend_irq", {"EBX": "line"}),
    23: Gate("nanosleep", {"EBX": "ticks"}),
    24: Gate("print", {"EBX": "place", "ECX": "count"}),
}
# A word for each, where there is little room.
SHORT = {1: "time", 2: "create", 3: "delete", 4: "suspend", 5: "wake", 6: "periodic", 7: "wait", 8: "self", 9: "setprio", 10: "getprio",
         11: "fifo", 12: "destroy", 13: "put", 14: "get", 15: "flush", 16: "handler", 17: "count", 18: "request", 19: "free", 20: "soft",
         21: "free soft", 22: "pend", 23: "sleep", 24: "print"}
ERRORS = {-11: "EAGAIN", -16: "EBUSY", -19: "ENODEV", -22: "EINVAL", -28: "ENOSPC"}
REGISTERS = ("EBX", "ECX", "EDX", "ESI")
IN_HEXADECIMAL = {"entry", "stack top", "argument", "place"}


def said(words: List[str], name: Callable[[int], str] = lambda place: "") -> str:
    """The words of a gate's line as a call: its name, what its registers are, with names of places, and its result."""
    gate = GATES.get(int(words[0]), Gate(f"function {words[0]}, which there isn't", {}))
    registers = dict(zip(REGISTERS, words[1:5]))
    arguments = [f"{what} {shown(what, int(registers[register], 16), name)}" for register, what in gate.arguments.items()]
    result = int(words[5])
    return f"{gate.name}({', '.join(arguments)}) = {ERRORS[result] + f' ({result})' if result in ERRORS else result}"


def shown(what: str, value: int, name: Callable[[int], str]) -> str:
    """A number, or a place with its name. A stack's top is behind its last byte, so it has the name of that."""
    if what not in IN_HEXADECIMAL:
        return str(value)
    called = name(value - 4).split("+")[0] if what == "stack top" else name(value) if what in ("entry", "place") else ""
    return f"{value:08x}" + f" {called}" * bool(called)


def entry_of(words: List[str]) -> Optional[int]:
    """The entry that a gate's line has, or none."""
    gate = GATES.get(int(words[0]))
    for register, what in gate.arguments.items() if gate else ():
        if what == "entry":
            return int(words[1 + REGISTERS.index(register)], 16)
    return None
