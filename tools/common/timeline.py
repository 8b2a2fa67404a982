"""A trace as rows over time: who is on the processor and who is ready, what the guest does, and marks for what happens."""
from __future__ import annotations

from typing import Iterator, List, NamedTuple, Optional, Tuple

from .gate_names import SHORT
from .real_time import GUEST, RealTime, Thread, read_real_time
from .trace import Line

# Rows in the order in which they are drawn: activities, the guest, and kinds of lines.
ACTIVITIES = ["init", "irq", "fifo", "thread"]
MARKS = ["gate", "say", "com2", "edge", "ack", "set", "enter", "int", "put", "get", "com1", "shutdown", "breach"]
NUMBERED = ("edge", "ack", "enter", "int")


class Span(NamedTuple):
    """A stretch of ticks, from the first to the last, both of them in it. Its kind is on, ready, runs, halted or stopped."""
    row: str
    first: int
    last: int
    kind: str


class Mark(NamedTuple):
    """What happens in a tick. Its kind is due, release, late, waits, fault, or mark for a line that has a row of its own. Of its labels the
    first that finds room is shown."""
    row: str
    tick: int
    kind: str
    labels: Tuple[str, ...]
    text: str


class Timeline(NamedTuple):
    """What is drawn of the ticks from the first to the last."""
    first: int
    last: int
    rows: List[str]
    spans: List[Span]
    marks: List[Mark]


class Holding:
    """One thing that is so from a tick on, until the next."""

    def __init__(self) -> None:
        self.spans: List[Tuple[int, int, str]] = []
        self.since, self.what = 1, ""

    def change(self, tick: int, what: str) -> None:
        if self.what and tick > self.since:
            self.spans.append((self.since, tick - 1, self.what))
        self.since, self.what = tick, what


def holders_of(trace: List[Line], last: int) -> List[Span]:
    """Who is on the processor; a trace of `flat` has no such lines, and then it is the guest."""
    holding = Holding()
    if not any(line.letter == "R" for line in trace):
        holding.change(1, GUEST)
    for line in trace:
        if line.letter == "R" and line.kind == "on":
            holding.change(line.tick, " ".join(line.words))
    holding.change(last + 1, "")
    return [Span(who, first, end, "on") for first, end, who in holding.spans]


def guest_modes(trace: List[Line], last: int) -> List[Span]:
    """Whether the guest runs, is halted or is stopped. A halt and a stop hold from the tick behind their own on."""
    holding = Holding()
    holding.change(1, "runs")
    for line in trace:
        if line.letter == "G" and line.kind == "halt":
            holding.change(line.tick + 1, "halted")
        elif line.letter == "G" and line.kind == "enter" and holding.what == "halted":
            holding.change(line.tick, "runs")
        elif line.letter == "G" and line.kind in ("breach", "shutdown"):
            holding.change(line.tick + 1, "stopped")
    holding.change(last + 1, "")
    return [Span(GUEST, first, end, mode) for first, end, mode in holding.spans]


def guest_spans(holders: List[Span], modes: List[Span]) -> Iterator[Span]:
    """The guest's modes in the ticks in which it is on the processor; in the others it stands still."""
    held = [span for span in holders if span.row == GUEST]
    at = 0
    for span in held:
        while at < len(modes) and modes[at].last < span.first:
            at += 1
        for mode in modes[at:]:
            if mode.first > span.last:
                break
            yield Span(GUEST, max(span.first, mode.first), min(span.last, mode.last), mode.kind)


def thread_spans(thread: Thread, row: str, last: int) -> Iterator[Span]:
    for first, end in thread.ready:
        if first <= last:
            yield Span(row, first, end, "ready")


def thread_marks(thread: Thread, row: str) -> Iterator[Mark]:
    unreleased = set(thread.unreleased)
    for due in thread.dues:
        yield Mark(row, due, "due", (), f"{due}: due of thread {thread.number}" + ", without a release" * (due in unreleased))
    for tick, due in thread.releases:
        if tick > due:
            yield Mark(row, tick, "late", (f"+{tick - due}",), f"R {tick} release {thread.number}, due in {due}: {tick - due} ticks late")
        else:
            yield Mark(row, tick, "release", (), f"R {tick} release {thread.number}")
    for tick, function in thread.blocks:
        yield Mark(row, tick, "waits", (SHORT[function],), f"{tick}: gate {function}, {SHORT[function]}")


def byte_label(word: str) -> str:
    byte = int(word, 16)
    return chr(byte) if 0x20 < byte < 0x7f else word


def said_label(word: str) -> str:
    """Bytes as their characters, where all of them have one, and else as digits."""
    content = b"" if word == "-" else bytes.fromhex(word)
    return content.decode("ascii") if all(0x20 <= byte < 0x7f for byte in content) else word


def mark_of(line: Line) -> Optional[Mark]:
    """The mark of a line; a fault stands in the row of who faulted."""
    if line.kind == "fault":
        return Mark(" ".join(line.words[:-1]), line.tick, "fault", (line.words[-1],), line.text)
    if line.kind not in MARKS:
        return None
    row = f"{line.kind} {line.words[0]}" if line.kind in NUMBERED else line.kind
    labels: Tuple[str, ...] = ()
    if line.kind in ("com1", "com2"):
        labels = (byte_label(line.words[0]),)
    elif line.kind == "breach":
        labels = (" ".join(line.words), line.words[0])
    elif line.kind == "say":
        labels = (said_label(line.words[0]),)
    elif line.kind == "gate":
        labels = (f"{line.words[0]} {SHORT.get(int(line.words[0]), '')}".strip(), line.words[0])
    elif line.kind not in NUMBERED:
        labels = (line.words[0],)
    return Mark(row, line.tick, "mark", labels, line.text)


def row_names(real_time: RealTime) -> List[Tuple[Thread, str]]:
    """The row of each thread: its number, and its priority in brackets where it is known. A number that had several threads has one row,
    with the priority of the last."""
    names = {thread.number: f"thread {thread.number}" + f" ({thread.priority})" * (thread.priority is not None)
             for thread in real_time.all_threads}
    return [(thread, names[thread.number]) for thread in real_time.all_threads]


def order_of(row: str) -> Tuple[int, int, int]:
    """The place of a row: activities, then the guest, then marks; each by its number."""
    words = row.split()
    number = int(words[1]) if len(words) > 1 and words[1].isdecimal() else 0
    if words[0] in ACTIVITIES:
        return 0, ACTIVITIES.index(words[0]), number
    return (1, 0, 0) if row == GUEST else (2, MARKS.index(words[0]), number)


def timeline(trace: List[Line], first: Optional[int], last: Optional[int]) -> Timeline:
    """What is drawn of a trace, from its first tick or the one that is given to its last or the one that is given."""
    end = trace[-1].tick if trace else 1
    first, last = first or 1, min(last or end, end)
    real_time, holders = read_real_time(trace), holders_of(trace, end)
    names = row_names(real_time)
    of_number = {f"thread {thread.number}": row for thread, row in names}
    spans = [span for thread, row in names for span in thread_spans(thread, row, end)]
    spans += [span._replace(row=of_number.get(span.row, span.row)) for span in holders if span.row != GUEST]
    spans += guest_spans(holders, guest_modes(trace, end))
    marks = [mark for thread, row in names for mark in thread_marks(thread, row)]
    marks += [mark._replace(row=of_number.get(mark.row, mark.row)) for mark in map(mark_of, trace) if mark]
    spans = [span._replace(first=max(span.first, first), last=min(span.last, last))
             for span in spans if span.last >= first and span.first <= last]
    marks = [mark for mark in marks if first <= mark.tick <= last]
    rows = sorted({item.row for item in [*spans, *marks]}, key=order_of)
    return Timeline(first, last, rows, spans, marks)
