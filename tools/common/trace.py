"""The lines of a printed trace, by the table of `docs/FORMATS.md`."""
from __future__ import annotations

import re
from typing import Dict, Iterable, Iterator, List, NamedTuple, Tuple

BYTE, WORD, BYTES, NUMBER, DIGEST = "[0-9a-f]{2}", "[0-9a-f]{8}", "(?:-|(?:[0-9a-f]{2})+)", "[0-9]{1,10}", "[0-9a-f]{64}"
WHO = f"(?:guest|thread {NUMBER}|init {NUMBER}|irq {NUMBER}|fifo {NUMBER})"
FAULT = "(?:divide|opcode|int|memory|port|privileged)"
BREACH = f"(?:cli|sti|iret|pushf|popf|hlt|int {NUMBER}|port [0-9a-f]{{4}}|(?:fetch|load|store) {WORD})"
# What stands behind the letter, the tick and the kind of a line.
FORMS: Dict[Tuple[str, str], str] = {
    ("R", "com2"): BYTE, ("R", "release"): NUMBER, ("R", "on"): WHO, ("R", "gate"): f"{NUMBER}(?: {WORD}){{4}} -?{NUMBER}",
    ("R", "say"): BYTES, ("R", "ret"): "", ("R", "fault"): f"{WHO} {FAULT}", ("R", "reply"): f"-?{NUMBER} {BYTES}",
    ("R", "end"): f"{NUMBER} {NUMBER}", ("R", "memory"): DIGEST,
    ("H", "edge"): NUMBER, ("H", "ack"): NUMBER, ("H", "set"): NUMBER,
    ("G", "com1"): BYTE, ("G", "enter"): NUMBER, ("G", "int"): NUMBER, ("G", "halt"): "", ("G", "put"): f"{NUMBER} {BYTES}",
    ("G", "get"): f"{NUMBER} {NUMBER}", ("G", "shutdown"): NUMBER, ("G", "breach"): BREACH,
    ("G", "end"): f"(?:runs|halted|stopped)(?: {WORD}){{10}}", ("G", "memory"): DIGEST,
}
PATTERNS = {kind: re.compile(form) for kind, form in FORMS.items()}
REGISTERS = ["EIP", "EFLAGS", "EAX", "ECX", "EDX", "EBX", "ESP", "EBP", "ESI", "EDI"]
SOFT_FLAG = 0x200


class Line(NamedTuple):
    """A line of a trace: its letter, its tick, its kind, and the words behind that."""
    letter: str
    tick: int
    kind: str
    words: List[str]
    text: str


class State(NamedTuple):
    """What the guest's first end line says: `runs`, `halted` or `stopped`, and the registers by their names."""
    mode: str
    registers: Dict[str, int]

    def flag(self) -> bool:
        return bool(self.registers["EFLAGS"] & SOFT_FLAG)


class TraceError(Exception):
    """A line that no trace has."""


def line_of(text: str) -> Line:
    if text.startswith("E "):
        raise TraceError(f"the program refused its words or its files: '{text}'. tools/explain.py says why")
    words = text.split(" ")
    pattern = PATTERNS.get((words[0], words[2])) if len(words) > 2 else None
    if not pattern or not re.fullmatch("[0-9]{1,10}", words[1]) or not pattern.fullmatch(" ".join(words[3:])):
        raise TraceError(f"this is no line of a trace: '{text[:80]}'")
    return Line(words[0], int(words[1]), words[2], words[3:], text)


def lines_of(texts: Iterable[str]) -> Iterator[Line]:
    """The lines of a trace, whose ticks never fall."""
    tick = 0
    for number, text in enumerate(texts, 1):
        try:
            line = line_of(text.rstrip("\n"))
        except TraceError as error:
            raise TraceError(f"line {number}: {error}") from None
        if line.tick < tick:
            raise TraceError(f"line {number}: tick {line.tick} stands behind tick {tick}")
        tick = line.tick
        yield line


def state_of(line: Line) -> State:
    """The state that a line `end` of the guest says."""
    return State(line.words[0], {name: int(word, 16) for name, word in zip(REGISTERS, line.words[1:])})
