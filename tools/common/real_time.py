"""The real-time side, read off its printed lines by the rules of `docs/SCHEDULE.md`: threads with their dues and turns, who is on the
processor, FIFOs with their bytes, and the entries of handlers.

A turn of a thread is what it does from where it is released to where it waits for its next due. Where the trace doesn't say when a
thread came, as in a part of a trace, it has no priority and no period."""
from __future__ import annotations

from typing import Dict, List, NamedTuple, Optional, Tuple

from .trace import Line

CREATE, DELETE, SUSPEND, WAKEUP, MAKE_PERIODIC, WAIT, SETPRIO = 2, 3, 4, 5, 6, 7, 9
FIFO_CREATE, FIFO_DESTROY, FIFO_PUT, FIFO_GET, FIFO_FLUSH, FIFO_HANDLER = 11, 12, 13, 14, 15, 16
REQUEST_IRQ, FREE_IRQ, NANOSLEEP = 18, 19, 23
GUEST = "guest"


class Turn:
    """One turn. It begins with a due, where the thread was woken (gate 5), or where it was created (gate 2)."""

    def __init__(self, cause: str, since: int, released: int, period: Optional[int]):
        self.cause = cause                          # due, woken or created
        self.since = since                          # the due, or the first tick in which the thread could be on
        self.released = released                    # the tick of the line that says so
        self.period = period                        # of the thread when the turn began with a due; None where it has none
        self.started: Optional[int] = None          # the first tick in which it was on
        self.ended: Optional[int] = None            # its last tick
        self.end = ""                               # how it ended: waits, sleeps, suspended, returned, deleted, fault, made periodic

    def is_done(self) -> bool:
        """Whether the thread came to the end of its turn by itself."""
        return self.end in ("waits", "sleeps", "suspended", "returned", "made periodic")

    def response(self) -> Optional[int]:
        """The ticks from the due to the end, both of them in it, of a turn that came to its end."""
        return self.ended - self.since + 1 if self.is_done() else None


class Thread:
    """A thread from its creation to its end; its number may be another's afterwards."""

    def __init__(self, number: int, created: Optional[int] = None, entry: Optional[int] = None, priority: Optional[int] = None):
        self.number, self.created, self.entry, self.priority = number, created, entry, priority
        self.period: Optional[int] = None
        self.next = 0                               # the due of the turn that goes on, or of the next one
        self.due: Optional[int] = None              # until when it waits
        self.waits_until: List[Tuple[int, Optional[int]]] = []  # from which tick on it waits for which due, or for none
        self.turn: Optional[Turn] = None
        self.turns: List[Turn] = []
        self.dues: List[int] = []                   # all dues that have come
        self.unreleased: List[int] = []             # those of them that had no release
        self.releases: List[Tuple[int, int]] = []   # the tick and the due of each line `release`
        self.ready: List[Tuple[int, int]] = []      # stretches of ticks in which it was ready, the first and the last
        self.ready_since: Optional[int] = None
        self.blocks: List[Tuple[int, int]] = []     # the ticks of the gates with which it waited, and their functions
        self.gone: Optional[int] = None

    def wait_until(self, tick: int, due: Optional[int]) -> None:
        self.due = due
        self.waits_until.append((tick, due))

    def begin(self, cause: str, since: int, released: int) -> None:
        self.turn = Turn(cause, since, released, self.period if cause == "due" else None)
        self.turns.append(self.turn)

    def finish(self, tick: int, how: str) -> None:
        if self.turn:
            self.turn.ended, self.turn.end = tick, how
        self.turn = None

    def goes_on(self) -> bool:
        """Whether it is in a turn that only the wait for its next due ends: a periodic thread may sleep in its turn."""
        return bool(self.turn and self.turn.period)

    def become_ready(self, tick: int) -> None:
        if self.ready_since is None:
            self.ready_since = tick

    def block(self, tick: int) -> None:
        if self.ready_since is not None and self.ready_since <= tick:
            self.ready.append((self.ready_since, tick))
        self.ready_since = None

    def drop_due(self, tick: int) -> None:
        """It doesn't wait for its due any more; one that has come had no release."""
        if self.due is not None and self.due <= tick:
            self.dues.append(self.due)
            self.unreleased.append(self.due)
        if self.due is not None:
            self.wait_until(tick, None)

    def drop_dues(self, tick: int) -> None:
        """Nor will those be served that came while its turn went on."""
        self.drop_due(tick)
        if self.goes_on():
            passed = range(self.next + self.turn.period, tick + 1, self.turn.period)
            self.dues += passed
            self.unreleased += passed


class Call(NamedTuple):
    """A call on a FIFO: who made it, what it was, its result, and how many bytes waited afterwards, if that is known."""
    tick: int
    who: str
    fifo: int
    what: str
    result: int
    waits: Optional[int]


class RealTime:
    """What is known behind the lines that were taken."""

    def __init__(self) -> None:
        self.on: Optional[str] = None
        self.threads: Dict[int, Thread] = {}        # those that live
        self.all_threads: List[Thread] = []
        self.handlers: Dict[str, int] = {}          # the entries of `irq L` and `fifo F`
        self.starts: Dict[str, int] = {}            # the tick in which an activity was put on last
        self.gates: Dict[str, Line] = {}            # the last gate of an activity
        self.fifos: Dict[int, int] = {}             # how many bytes wait
        self.calls: List[Call] = []
        self.reply: Optional[Line] = None

    def thread(self, number: int) -> Thread:
        if number not in self.threads:
            self.add(Thread(number))
        return self.threads[number]

    def add(self, thread: Thread) -> None:
        self.threads[thread.number] = thread
        self.all_threads.append(thread)

    def caller(self) -> Optional[Thread]:
        words = self.on.split() if self.on else []
        return self.thread(int(words[1])) if words and words[0] == "thread" else None

    def take(self, line: Line) -> None:
        if line.letter == "R" and line.kind in TAKERS:
            TAKERS[line.kind](self, line)
        elif line.letter == "G" and line.kind in ("put", "get"):
            self.take_guest_call(line)

    def take_release(self, line: Line) -> None:
        thread = self.thread(int(line.words[0]))
        due = line.tick if thread.due is None else thread.due
        thread.wait_until(line.tick, None)
        thread.dues.append(due)
        thread.releases.append((line.tick, due))
        thread.become_ready(line.tick)
        if not thread.turn:
            thread.begin("due", due, line.tick)

    def take_on(self, line: Line) -> None:
        self.on = " ".join(line.words)
        self.starts[self.on] = line.tick
        thread = self.caller()
        if thread:
            thread.become_ready(line.tick)
            if thread.turn and thread.turn.started is None:
                thread.turn.started = line.tick

    def take_gate(self, line: Line) -> None:
        function, result = int(line.words[0]), int(line.words[5])
        if self.on:
            self.gates[self.on] = line
        if result >= 0:
            arguments = [int(word, 16) for word in line.words[1:5]]
            self.thread_gate(line.tick, function, arguments, result)
            self.other_gate(line.tick, function, arguments, result)

    def thread_gate(self, tick: int, function: int, arguments: List[int], result: int) -> None:
        number, second, third = arguments[:3]
        caller = self.caller()
        if function == CREATE:
            self.add(Thread(result, tick, number, second))
            self.threads[result].become_ready(tick + 1)
            self.threads[result].begin("created", tick + 1, tick)
        elif function == DELETE:
            self.end_thread(self.thread(number), tick, "deleted")
        elif function == SUSPEND:
            self.suspend(self.thread(number), tick, caller)
        elif function == WAKEUP:
            wake(self.thread(number), tick)
        elif function == MAKE_PERIODIC:
            self.make_periodic(self.thread(number), tick, second, third, caller)
        elif function == WAIT and caller:
            wait(caller, tick)
        elif function == SETPRIO:
            self.thread(number).priority = second
        elif function == NANOSLEEP and caller:
            sleep(caller, tick, number)

    def suspend(self, thread: Thread, tick: int, caller: Optional[Thread]) -> None:
        thread.drop_due(tick)
        thread.block(tick)
        if thread is caller:
            thread.blocks.append((tick, SUSPEND))
        if not thread.goes_on():
            thread.finish(tick, "suspended")

    def make_periodic(self, thread: Thread, tick: int, start: int, period: int, caller: Optional[Thread]) -> None:
        thread.drop_dues(tick)
        thread.block(tick)
        if thread is caller:
            thread.blocks.append((tick, MAKE_PERIODIC))
        thread.finish(tick, "made periodic" if thread is caller else "")
        thread.next, thread.period = start, period
        thread.wait_until(tick, start)

    def end_thread(self, thread: Thread, tick: int, how: str) -> None:
        thread.drop_dues(tick)
        thread.block(tick)
        thread.finish(tick, how)
        thread.gone = tick
        self.threads.pop(thread.number, None)
        if self.on == f"thread {thread.number}":
            self.on = None

    def other_gate(self, tick: int, function: int, arguments: List[int], result: int) -> None:
        if function == REQUEST_IRQ:
            self.handlers[f"irq {arguments[0]}"] = arguments[1]
        elif function == FREE_IRQ:
            self.handlers.pop(f"irq {arguments[0]}", None)
        elif function == FIFO_HANDLER:
            self.handlers[f"fifo {arguments[0]}"] = arguments[1]
        elif function in FIFO_CALLS:
            self.fifo_call(tick, self.on or "", arguments[0], FIFO_CALLS[function], result)

    def fifo_call(self, tick: int, who: str, fifo: int, what: str, result: int) -> None:
        if what in ("create", "flush"):
            self.fifos[fifo] = 0
        elif what == "destroy":
            self.fifos.pop(fifo, None)
        elif result >= 0 and fifo in self.fifos:
            self.fifos[fifo] = max(0, self.fifos[fifo] + (result if what == "put" else -result))
        self.calls.append(Call(tick, who, fifo, what, result, self.fifos.get(fifo)))

    def take_guest_call(self, line: Line) -> None:
        """The reply stands before it in the same tick; where it was left out of the trace, its result isn't known."""
        if self.reply and self.reply.tick == line.tick:
            self.fifo_call(line.tick, GUEST, int(line.words[0]), line.kind, int(self.reply.words[0]))

    def take_reply(self, line: Line) -> None:
        self.reply = line

    def take_ret(self, line: Line) -> None:
        thread = self.caller()
        self.on = None
        if thread:
            self.end_thread(thread, line.tick, "returned")

    def take_fault(self, line: Line) -> None:
        who = " ".join(line.words[:2])
        self.handlers.pop(who, None)
        self.on = None
        if line.words[0] == "thread":
            self.end_thread(self.thread(int(line.words[1])), line.tick, "fault")

    def close(self, tick: int) -> None:
        """The trace ends with this tick: stretches end there, and dues that have come are listed."""
        for thread in self.all_threads:
            if thread.gone is None:
                since, turn = thread.ready_since, thread.turn
                thread.drop_dues(tick)
                thread.block(tick)
                thread.ready_since, thread.turn = since, turn


def wake(thread: Thread, tick: int) -> None:
    if thread.ready_since is not None:
        return
    thread.drop_due(tick)
    thread.become_ready(tick + 1)
    if not thread.turn:
        thread.begin("woken", tick + 1, tick)


def wait(thread: Thread, tick: int) -> None:
    thread.block(tick)
    thread.blocks.append((tick, WAIT))
    thread.finish(tick, "waits")
    if thread.period:
        thread.next += thread.period
        thread.wait_until(tick, thread.next)


def sleep(thread: Thread, tick: int, ticks: int) -> None:
    thread.block(tick)
    thread.blocks.append((tick, NANOSLEEP))
    if not thread.goes_on():
        thread.finish(tick, "sleeps")
    thread.wait_until(tick, tick + ticks)


FIFO_CALLS = {FIFO_CREATE: "create", FIFO_DESTROY: "destroy", FIFO_PUT: "put", FIFO_GET: "get", FIFO_FLUSH: "flush"}
TAKERS = {"release": RealTime.take_release, "on": RealTime.take_on, "gate": RealTime.take_gate, "reply": RealTime.take_reply,
          "ret": RealTime.take_ret, "fault": RealTime.take_fault}


def read_real_time(trace: List[Line]) -> RealTime:
    """All that the trace says."""
    found = RealTime()
    for line in trace:
        found.take(line)
    found.close(trace[-1].tick if trace else 0)
    return found
