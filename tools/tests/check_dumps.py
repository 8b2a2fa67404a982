#!/usr/bin/env python3
"""Tries trace_vcd on the examples' traces: a small reader of value change dumps, written from the grammar of IEEE 1364, section 18, reads each
dump, and the signals in each tick are what the lines of the trace say. GTKWave's own reader takes them too, where it is installed."""
from __future__ import annotations

import os
import re
import shutil
import subprocess
import tempfile
from typing import Callable, Dict, Iterator, List, NamedTuple, Set, Tuple

from common_test import REAL_TIME, TOP, equal, fail, held, lines_of, passed, ready_in_each_tick, stretches, tool, traces

EVENTS = ("com1", "com2", "enter", "int", "gate", "say", "put", "get", "ret", "halt", "fault", "shutdown", "breach")
TYPES = {"wire": None, "event": 1, "string": 1}


class Var(NamedTuple):
    """A declaration: its type, its width and its name with its scopes."""
    kind: str
    width: int
    name: str


class Dump:
    """What is read of a dump: for each name the values from their times on."""

    def __init__(self, text: str):
        self.variables: Dict[str, Var] = {}
        self.changes: Dict[str, List[Tuple[int, str]]] = {}
        head, _, body = text.partition("$enddefinitions $end\n")
        self.read_head(head.split())
        self.read_body(body)

    def read_head(self, words: List[str]) -> None:
        scopes: List[str] = []
        while words:
            end = words.index("$end")
            keyword, arguments, words = words[0], words[1:end], words[end + 1:]
            if keyword == "$scope":
                equal("a scope", (arguments[0], len(arguments)), ("module", 2))
                scopes.append(arguments[1])
            elif keyword == "$upscope":
                scopes.pop()
            elif keyword == "$var":
                self.declare(arguments, scopes)
            elif keyword not in ("$version", "$timescale"):
                fail(f"a dump has no {keyword}")
        equal("the scopes that are open", scopes, [])

    def declare(self, arguments: List[str], scopes: List[str]) -> None:
        kind, width, short, name = arguments
        if kind not in TYPES or TYPES[kind] not in (None, int(width)) or short in self.variables or not scopes:
            fail(f"this isn't declared well: {arguments}")
        if not re.fullmatch(r"[!-~]+", short) or not re.fullmatch(r"[a-z]\w*", name):
            fail(f"a name has other characters: {arguments}")
        self.variables[short] = Var(kind, int(width), ".".join([*scopes[1:], name]))
        self.changes[self.variables[short].name] = []

    def read_body(self, body: str) -> None:
        """Times rise; the first values stand between `$dumpvars` and `$end`, of all variables but events."""
        now, in_first, first = -1, False, set()
        for line in body.splitlines():
            if line.startswith("#"):
                if int(line[1:]) <= now:
                    fail(f"time {line} stands behind {now}")
                now = int(line[1:])
            elif line in ("$dumpvars", "$end"):
                in_first = line == "$dumpvars"
            else:
                variable = self.read_change(line, now)
                if in_first:
                    first.add(variable.name)
        self.last = now
        equal("the variables with a first value", first, {variable.name for variable in self.variables.values() if variable.kind != "event"})

    def read_change(self, line: str, now: int) -> Var:
        text, vector, scalar = re.fullmatch(r"s(\S+) (\S+)", line), re.fullmatch(r"b([01]+|x) (\S+)", line), re.fullmatch(r"([01])(\S+)", line)
        found = text or vector or scalar
        variable = self.variables.get(found.group(2)) if found else None
        if not variable:
            fail(f"this is no change of a declared variable: {line}")
        fits = (variable.kind == "string" if text else variable.kind == "wire" and len(found.group(1)) <= variable.width if vector
                else variable.width == 1 and variable.kind != "string")
        if not fits or now < 0:
            fail(f"this change doesn't fit {variable}: {line}")
        self.changes[variable.name].append((now, found.group(1)))
        return variable

    def ticks(self, name: str) -> Set[int]:
        """The ticks in which a bit is 1; its value holds up to its next change."""
        found: Set[int] = set()
        changes = self.changes.get(name, [])
        for (tick, value), (following, _) in zip(changes, changes[1:] + [(self.last, "")]):
            if value == "1":
                found |= set(range(tick, following))
        return found

    def events(self, name: str) -> List[int]:
        return [tick for tick, _ in self.changes.get(name, [])]

    def values(self, name: str, ticks: List[int]) -> Iterator[str]:
        changes, at = self.changes[name], 0
        for tick in ticks:
            while at + 1 < len(changes) and changes[at + 1][0] <= tick:
                at += 1
            yield changes[at][1]


def when(lines: List[List[str]], is_one: Callable[[List[str]], bool]) -> List[int]:
    return sorted({int(words[1]) for words in lines if is_one(words)})


def check_events(trace: str, dump: Dump, lines: List[List[str]]) -> None:
    for kind in EVENTS:
        equal(f"the events {kind} of {trace}", dump.events(f"calls.on_{kind}"), when(lines, lambda words: words[2] == kind))
    for number in range(64):
        equal(f"the releases of thread {number} of {trace}", dump.events(f"threads.thread_{number}_release"),
              when(lines, lambda words: words[2:] == ["release", str(number)]))
    for name, letter in (("com1", "G"), ("com2", "R")):
        sent = [words for words in lines if words[2] == name]
        if sent:
            found = dump.values(f"calls.{name}", [int(words[1]) for words in sent])
            equal(f"the bytes of {name} of {trace}", [int(value, 2) for value in found], [int(words[3], 16) for words in sent])
            equal(f"the letters of {name}", {words[0] for words in sent}, {letter})


def check_activities(trace: str, dump: Dump, lines: List[List[str]]) -> None:
    """Who is on, in each tick, by the text and by the bits; who is ready, and how many."""
    ticks = list(range(1, int(lines[-1][1]) + 1))
    by_tick = {tick: who for who, on in held(lines).items() for tick in on}
    equal(f"the holders of {trace}", list(dump.values("holder", ticks)), [by_tick.get(tick, "-").replace(" ", "_") for tick in ticks])
    for who, on in held(lines).items():
        name = who.replace(" ", "_")
        if who != "guest":
            scope, end = ("threads", "_on") if who.startswith("thread") else ("handlers", "")
            equal(f"when {who} is on in {trace}", stretches(dump.ticks(f"{scope}.{name}{end}")), stretches(on))
    held_ticks = [tick for tick, mode in zip(ticks, dump.values("guest", ticks)) if mode == "held"]
    equal(f"when the guest of {trace} is held", held_ticks, [tick for tick in ticks if by_tick.get(tick) != "guest"])
    if any(words[2] in ("gate", "release") for words in lines):
        found: Dict[int, Set[int]] = {number: dump.ticks(f"threads.thread_{number}_ready") for number in range(64)}
        for (tick, ready), count in zip(ready_in_each_tick(lines), dump.values("ready", ticks) if "ready" in dump.changes else ["0"] * len(ticks)):
            equal(f"who is ready in tick {tick} of {trace}", {number for number in found if tick in found[number]}, ready)
            equal(f"how many are ready in tick {tick} of {trace}", 0 if count == "x" else int(count, 2), len(ready))


def check_lines(trace: str, dump: Dump, lines: List[List[str]]) -> None:
    """Interrupt lines, which stand from an edge to the next acknowledgement, and the settings of the one-shot."""
    for number in range(16):
        edges = when(lines, lambda words: words[2:] == ["edge", str(number)])
        acks = when(lines, lambda words: words[2:] == ["ack", str(number)])
        equal(f"the edges of line {number} of {trace}", dump.events(f"lines.edge_{number}"), edges)
        equal(f"the acknowledgements of line {number} of {trace}", dump.events(f"lines.ack_{number}"), acks)
        latched: Set[int] = set()
        for edge in edges:
            latched |= set(range(edge, next((ack for ack in acks if ack >= edge), int(lines[-1][1])) + 1))
        equal(f"when line {number} of {trace} is latched", stretches(dump.ticks(f"lines.line_{number}")), stretches(latched))
    settings = [(int(words[1]), int(words[3])) for words in lines if words[2] == "set"]
    if settings:
        found = dump.values("lines.one_shot", [tick for tick, _ in settings])
        equal(f"the settings of {trace}", [int(value, 2) for value in found], [count for _, count in settings])


def check_fifos(trace: str, dump: Dump, lines: List[List[str]]) -> None:
    """The bytes that wait in each FIFO: what was put, less what was got, by the results of both sides' calls."""
    waits: Dict[str, int] = {}
    reply = 0
    for words in lines:
        result = int(words[8]) if words[2] == "gate" else 0
        fifo = str(int(words[4], 16)) if words[2] == "gate" else words[3] if len(words) > 3 else ""
        if words[2] == "reply":
            reply = int(words[3])
        elif words[2] in ("put", "get") and (fifo in waits or reply >= 0):
            waits[fifo] += max(0, reply) if words[2] == "put" else -max(0, reply)
        elif words[2] == "gate" and words[3] in ("11", "15") and result >= 0:
            waits[fifo] = 0
        elif words[2] == "gate" and words[3] in ("13", "14") and result >= 0:
            waits[fifo] += result if words[3] == "13" else -result
        elif words[2] == "gate" and words[3] == "12" and result >= 0:
            del waits[fifo]
        else:
            continue
        if fifo in waits:
            [value] = dump.values(f"fifos.fifo_{fifo}_bytes", [int(words[1])])
            if not any(other[1] == words[1] and other is not words and other[2] in ("put", "get", "gate") for other in lines):
                equal(f"the bytes in FIFO {fifo} in tick {words[1]} of {trace}", int(value, 2), waits[fifo])


def check_real_time(dump: Dump) -> None:
    equal("the late releases", dump.events("threads.thread_0_late"), [52])
    equal("the dues of thread 0", list(dump.values("threads.thread_0_due", [8, 9, 20, 24, 52, 55])),
          ["x", f"{20:b}", "x", f"{50:b}", "x", f"{80:b}"])
    equal("the calls on FIFO 1", (dump.events("fifos.fifo_1_put"), dump.events("fifos.fifo_1_get")), ([31], [38]))
    equal("the bytes in FIFO 1", list(dump.values("fifos.fifo_1_bytes", [10, 11, 31, 38])), ["x", "0", "10", "1"])


def main() -> None:
    os.chdir(TOP)
    with tempfile.TemporaryDirectory() as folder:
        for trace in traces():
            file = f"{folder}/dump.vcd"
            tool("trace_vcd", trace, "-o", file)
            with open(file, encoding="utf-8") as text:
                dump = Dump(text.read())
            lines = lines_of(trace)
            for check in (check_events, check_activities, check_lines, check_fifos):
                check(trace, dump, lines)
            if trace == REAL_TIME:
                check_real_time(dump)
            if shutil.which("vcd2fst") and subprocess.run(["vcd2fst", file, f"{folder}/dump.fst"], stdout=subprocess.DEVNULL,
                                                          stderr=subprocess.DEVNULL, check=False).returncode:
                fail(f"vcd2fst doesn't read the dump of {trace}")
    passed(f"the dumps of {len(traces())} traces are well formed and have in each tick what the lines say")
    passed("vcd2fst, of gtkwave, reads them" if shutil.which("vcd2fst") else "skipped, no vcd2fst, of gtkwave: whether it reads the dumps")


if __name__ == "__main__":
    main()
