#!/usr/bin/env python3
"""Asserts what a run of the realistic system has to be by its numbers: how often each thing happens, when threads are released, what goes
through the FIFOs and over COM1, and that the ready thread of greatest priority is on. Nothing here comes from the program.

usage: check.py < TRACE
"""
import pathlib
import sys
from typing import Dict, List, Tuple

import system

sys.path.insert(0, str(pathlib.Path(__file__).resolve().parents[2] / "examples"))
import schedule_model  # pylint: disable=wrong-import-position

Line = Tuple[int, List[str]]
# A handler or an init puts off releases for at most so many ticks, and the guest an entry for all that may go before it.
HANDLER, BUSY = 10, 2 * system.SCRIPT_STEP


def fail(what: str) -> None:
    sys.exit(f"realistic: {what}")


def shown(value: object) -> str:
    text = str(value)
    return text if len(text) < 1_000 else f"{text[:1_000]} ..."


def equal(what: str, got: object, wanted: object) -> None:
    if got != wanted:
        fail(f"{what}: {shown(got)}, not {shown(wanted)}")


class Trace:
    def __init__(self, text: str):
        self.lines: Dict[str, List[Line]] = {"R": [], "G": []}
        for line in text.splitlines():
            letter, tick, *words = line.split(" ")
            self.lines[letter].append((int(tick), words))

    def of(self, letter: str, *first: str) -> List[Line]:
        """The lines that begin with these words, with what stands behind them."""
        count = len(first)
        return [(tick, words[count:]) for tick, words in self.lines[letter] if words[:count] == list(first)]


def near(what: str, ticks: List[int], wanted: List[int], late: int) -> None:
    """Each of these comes in the tick that is wanted, or a little later."""
    equal(f"how often {what}", len(ticks), len(wanted))
    for tick, due in zip(ticks, wanted):
        if not due <= tick <= due + late:
            fail(f"{what} in {tick}, wanted in {due}")


def script_of(kind: str, what: str = "") -> List[Tuple[int, str]]:
    events = [line.split() for line in system.script()]
    return [(int(tick), value) for tick, word, value in events if word == kind and what in ("", value)]


def check_threads(trace: Trace) -> None:
    created = trace.of("R", "gate", "2")
    equal("the threads' numbers", [int(words[-1]) for _, words in created], list(range(len(system.THREADS))))
    equal("their priorities", [int(words[1], 16) for _, words in created], [thread.priority for thread in system.THREADS])
    periodic = [(*(int(word, 16) for word in words[:3]), words[-1]) for _, words in trace.of("R", "gate", "6")]
    equal("their starts and periods", periodic, [(number, thread.start, thread.period, "0") for number, thread in enumerate(system.THREADS)])
    for number, thread in enumerate(system.THREADS):
        releases = [tick for tick, words in trace.of("R", "release") if words == [str(number)]]
        near(f"thread {number} is released", releases, list(thread.dues()), HANDLER)
    turns = sum(len(thread.dues()) for thread in system.THREADS)
    equal("the results of pthread_wait", [words[-1] for _, words in trace.of("R", "gate", "7")], ["0"] * turns)
    equal("threads that live at the end", [words for _, words in trace.of("R", "end")], [[str(len(system.THREADS)), "0"]])


def check_lines(trace: Trace) -> None:
    near("the handler of the module's line starts", [tick for tick, _ in trace.of("R", "on", "irq", str(system.MODULE_LINE))],
         [tick for tick, _ in script_of("line", str(system.MODULE_LINE))], HANDLER)
    near("the guest enters its line", [tick for tick, _ in trace.of("G", "enter", str(32 + system.GUEST_LINE))],
         [tick for tick, _ in script_of("line", str(system.GUEST_LINE))], BUSY)
    received = script_of("com1")
    near("the guest enters COM1's line", [tick for tick, _ in trace.of("G", "enter", str(32 + system.SERIAL))],
         [tick for tick, _ in received], BUSY)
    equal("the bytes sent are those received", [words for _, words in trace.of("G", "com1")], [[byte] for _, byte in received])
    # The timer is set within the first period, so its first due is within the second.
    dues = system.TICKS // system.TIMER_PERIOD - 1
    entries = [tick for tick, _ in trace.of("G", "enter", str(32 + system.TIMER))]
    near("the guest enters the timer's line", entries, [system.TIMER_PERIOD * (1 + at) for at in range(dues)], system.TIMER_PERIOD - 1)


def check_fifos(trace: Trace) -> None:
    entries = len(trace.of("G", "enter", str(32 + system.TIMER)))
    replies = dict(trace.of("R", "reply"))
    gets, puts = trace.of("G", "get"), trace.of("G", "put")
    equal("the replies are those of the calls", sorted(replies), sorted(tick for tick, _ in gets + puts))
    equal("the gets", [words for _, words in gets], [[str(system.COUNTS), str(system.COUNTS_GET)]] * entries)
    counts = [count.to_bytes(4, "little").hex() for count in range(1, entries + 1)]
    equal("the puts", [words for _, words in puts], [[str(system.SET_POINTS), count] for count in counts])
    equal("the replies to puts", [replies[tick] for tick, _ in puts], [[str(system.WORD), "-"]] * entries)
    # The first thread has put its count in each turn. What the guest got is the first of it, and what is left fits into the FIFO.
    turns = len(system.THREADS[0].dues())
    equal("the results of rtf_put", [words[-1] for _, words in trace.of("R", "gate", "13")], [str(system.WORD)] * turns)
    got = bytes.fromhex("".join(bytes_got for tick, _ in gets for bytes_got in replies[tick][1:] if bytes_got != "-"))
    put = b"".join(count.to_bytes(4, "little") for count in range(1, turns + 1))
    equal("the counts that the guest got", got, put[:len(got)])
    lengths = [len(replies[tick][1].strip("-")) // 2 for tick, _ in gets]
    equal("the results of gets", [int(replies[tick][0]) for tick, _ in gets], lengths)
    # A get behind the last turn but some takes all that is there: at most one period's turns are left.
    left = (len(put) - len(got)) // system.WORD
    if not 0 <= left <= 2 * system.TIMER_PERIOD // system.THREADS[0].period:
        fail(f"{left} counts are left in the FIFO")
    # Each put of the guest starts the handler, which takes the word.
    near("the FIFO's handler starts", [tick for tick, _ in trace.of("R", "on", "fifo", str(system.SET_POINTS))],
         [tick + 1 for tick, _ in puts], HANDLER)
    equal("the results of rtf_get", [words[-1] for _, words in trace.of("R", "gate", "14")], [str(system.WORD)] * entries)


def main() -> None:
    trace = Trace(sys.stdin.read())
    equal("faults, breaches and shutdowns", trace.of("R", "fault") + trace.of("G", "breach") + trace.of("G", "shutdown"), [])
    equal("refused gates", [line for line in trace.of("R", "gate") if line[1][-1].startswith("-")], [])
    check_threads(trace)
    equal("the lines `on`", schedule_model.follow(trace.lines["R"]), "")
    check_lines(trace)
    check_fifos(trace)
    handlers = len(trace.of("R", "on", "irq")) + len(trace.of("R", "on", "fifo"))
    equal("the returns of inits and handlers", len(trace.of("R", "ret")), len(system.MODULES) + handlers)
    ends = [(letter, words[0]) for letter in "RG" for tick, words in trace.lines[letter][-2:] if tick == system.TICKS]
    equal("the end lines", ends, [("R", "end"), ("R", "memory"), ("G", "end"), ("G", "memory")])
    print(f"realistic: {system.TICKS} ticks: {len(trace.of('R', 'release'))} releases, {handlers} handlers, {len(trace.of('G', 'enter'))} entries, "
          f"{len(trace.of('R', 'reply'))} calls on FIFOs and {len(trace.of('G', 'com1'))} bytes are those that the system's numbers say")


if __name__ == "__main__":
    main()
