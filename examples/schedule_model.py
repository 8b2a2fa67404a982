"""A small model of the real-time side, for `check_trace.py`: which activity is on in each tick, and the real-time lines, of a module that is
given as what its source does. An activity is a generator of stretches: so many units, up to a gate whose result it is sent, or up to
its return. It goes on behind a stretch when that is performed, so it may read what other activities have changed. It is written from the
rules of docs/SCHEDULE.md, and knows no instruction and no memory. Holders, at the end, reads the lines of any module by the same rules."""
import itertools
from typing import NamedTuple, Optional, Tuple


class Gate(NamedTuple):
    """So many units, of which the last is this gate. `text` is what a print says."""
    units: int
    function: int
    arguments: Tuple[int, ...] = ()
    text: bytes = b""


class Units(NamedTuple):
    """So many units, none of which is a gate."""
    units: int


class Return(NamedTuple):
    """So many units, of which the last is the return's gate, behind the RET."""
    units: int


class Forever(NamedTuple):
    """A loop that nothing ends."""


CREATE, DELETE, SUSPEND, WAKEUP, MAKE_PERIODIC, WAIT, SETPRIO, NANOSLEEP, PRINT = 2, 3, 4, 5, 6, 7, 9, 23, 24
FIFO_CREATE, FIFO_PUT, FIFO_GET, FIFO_HANDLER, REQUEST_IRQ = 11, 13, 14, 16, 18
GUEST, INIT = "guest", "init 0"


class Thread:
    def __init__(self, program, priority):
        self.work = Work(program)
        self.priority = priority
        self.due: Optional[int] = None          # while it waits
        self.period = 0
        self.next = 0
        self.since = 0                          # while it is ready: its due, where that released it, or the tick in which it was made


class Work:
    """What an activity has still to do of its stretch."""

    def __init__(self, program):
        self.program = program
        self.take(next(program))

    def take(self, stretch):
        self.stretch = stretch
        self.left = getattr(stretch, "units", None)

    def unit(self):
        """Performs a unit, and answers the stretch that ends with it."""
        if self.left is None:
            return None
        self.left -= 1
        return self.stretch if self.left == 0 else None

    def go_on(self, result):
        self.take(self.program.send(result))


class Model:
    """The run of a module without lines and FIFOs, in a version of the rule that picks among equal priorities. `entries` says by address what a
    new thread does: it is called with its argument."""

    def __init__(self, init, entries, version=1):
        self.version = version
        self.init = Work(init)
        self.entries = entries
        self.threads = {}
        self.ready = []
        self.on = None
        self.lines = []
        self.guest_ticks = []

    def line(self, tick, *words):
        self.lines.append((tick, [str(word) for word in words]))

    def tick(self, tick):
        if self.on != INIT:
            self.release(tick)
        picked = self.pick()
        if picked != self.on:
            self.line(tick, "on", *picked.split())
        self.on = picked
        if picked == GUEST:
            self.guest_ticks.append(tick)
            return
        thread = None if picked == INIT else int(picked.split()[1])
        work = self.init if thread is None else self.threads[thread].work
        done = work.unit()
        if isinstance(done, Units):
            work.go_on(None)
        elif isinstance(done, Gate):
            result = self.gate(tick, thread, done)
            if thread is None or thread in self.threads:
                work.go_on(result)
        elif isinstance(done, Return):
            self.line(tick, "ret")
            if thread is None:
                self.init = None
            else:
                self.remove(thread)
        goes_on = self.init is not None if thread is None else thread in self.ready
        self.on = picked if goes_on else None

    def release(self, tick):
        due = sorted((thread.due, number) for number, thread in self.threads.items() if thread.due is not None and thread.due <= tick)
        for came, number in due:
            self.threads[number].due = None
            self.threads[number].since = came
            self.ready.append(number)
            self.line(tick, "release", number)

    def pick(self):
        if self.init is not None:
            return INIT
        if not self.ready:
            return GUEST
        return f"thread {first(self.version, self.ready, lambda number: self.threads[number].priority, lambda number: self.threads[number].since)}"

    def remove(self, number):
        del self.threads[number]
        if number in self.ready:
            self.ready.remove(number)

    def wait(self, number, due):
        self.threads[number].due = due
        if number in self.ready:
            self.ready.remove(number)

    def gate(self, tick, caller, gate):
        result = 0
        if gate.function == CREATE:
            entry, priority, _, argument = gate.arguments
            result = next(number for number in range(64) if number not in self.threads)
            self.threads[result] = Thread(self.entries[entry](argument), priority)
            self.threads[result].since = tick
            self.ready.append(result)
        elif gate.function == DELETE:
            self.remove(gate.arguments[0])
        elif gate.function == MAKE_PERIODIC:
            number, start, period = gate.arguments
            self.threads[number].period, self.threads[number].next = period, start
            self.wait(number, start)
        elif gate.function == WAIT:
            thread = self.threads[caller]
            thread.next += thread.period
            self.wait(caller, thread.next)
        elif gate.function == NANOSLEEP:
            self.wait(caller, tick + gate.arguments[0])
        self.line(tick, "gate", gate.function, *(f"{argument:08x}" for argument in gate.arguments), result)
        if gate.function == PRINT:
            self.line(tick, "say", gate.text.hex())
        return result


def first(version, ready, priority, since):
    """Of the ready threads in order of arrival, the one that goes first: of those of the greatest priority the first that came; in version 2 the
    one that is ready since the earliest tick, and of such the first that came. `max` answers the first of equals."""
    return max(ready, key=priority if version == 1 else lambda number: (priority(number), -since(number)))


def used(words):
    """The words of an R line, without the registers of a gate that its function doesn't read."""
    counts = {CREATE: 4, DELETE: 1, MAKE_PERIODIC: 3, WAIT: 0, NANOSLEEP: 1, PRINT: 2, FIFO_CREATE: 2, FIFO_PUT: 3, FIFO_GET: 3,
              FIFO_HANDLER: 2, REQUEST_IRQ: 2}
    if words[0] != "gate":
        return words
    return [*words[:2], *words[2:2 + counts[int(words[1])]], words[-1]]


class Holders:
    """Reads real-time lines, and says where a line `on` isn't what the lines before it ask for: the ready thread that goes first by the version, or
    the guest where none is ready, in each tick in which nothing else goes on; an init or a handler to its end. When a handler starts
    isn't asked. A thread's due is that of gates 6, 7 and 23."""

    def __init__(self, version=1):
        self.version = version
        self.on = None
        self.ready = []
        self.priorities = {}
        self.since = {}
        self.next, self.periods = {}, {}
        self.dues = {}
        self.last = 0

    def tick(self, tick, lines):
        """The lines of the next tick that has some, as lists of words."""
        if self.on is None and tick != self.last + 1:
            raise ValueError(f"nothing is on in {self.last + 1}")
        self.last = tick
        for words in lines:
            if words[0] == "release":
                self.arrive(int(words[1]), self.dues[int(words[1])])
        told = [" ".join(words[1:]) for words in lines if words[0] == "on"]
        holder = self.held(tick, told[0] if told else None)
        for words in lines:
            if words[0] == "gate":
                self.gate(tick, holder, int(words[1]), [int(word, 16) for word in words[2:6]], int(words[6]))
            elif words[0] in ("ret", "fault"):
                self.remove(holder)
                holder = None
        self.on = None if holder is None or is_thread(holder) and number_of(holder) not in self.ready else holder

    def held(self, tick, told):
        wanted = self.wanted()
        if told is None:
            if self.on is None or self.on != wanted:
                raise ValueError(f"no line 'on {wanted}' in {tick}")
            return self.on
        starts = is_short(told)
        if is_short(self.on) or told == self.on or not starts and told != wanted:
            raise ValueError(f"a line 'on {told}' in {tick}, where {self.on} was on and {wanted} goes first")
        return told

    def wanted(self):
        return self.wanted_by(self.version)

    def wanted_by(self, version):
        """Who is on by a version of the rule, if no handler starts."""
        if is_short(self.on):
            return self.on
        if not self.ready:
            return GUEST
        return f"thread {first(version, self.ready, self.priorities.get, self.since.get)}"

    def arrive(self, number, since):
        self.ready.append(number)
        self.since[number] = since

    def remove(self, holder):
        if is_thread(holder) and number_of(holder) in self.ready:
            self.ready.remove(number_of(holder))

    def gate(self, tick, holder, function, registers, result):
        if result < 0:
            return
        if function == CREATE:
            self.priorities[result] = registers[1]
            self.arrive(result, tick)
        elif function in (DELETE, SUSPEND, MAKE_PERIODIC):
            self.remove(f"thread {registers[0]}")
            if function == MAKE_PERIODIC:
                self.next[registers[0]], self.periods[registers[0]] = registers[1], registers[2]
                self.dues[registers[0]] = registers[1]
        elif function == WAKEUP and registers[0] not in self.ready:
            self.arrive(registers[0], tick)
        elif function == SETPRIO:
            self.priorities[registers[0]] = registers[1]
        elif function == WAIT:
            self.remove(holder)
            number = number_of(holder)
            self.next[number] += self.periods[number]
            self.dues[number] = self.next[number]
        elif function == NANOSLEEP:
            self.remove(holder)
            self.dues[number_of(holder)] = tick + registers[0]


def is_thread(holder):
    return holder is not None and holder.startswith("thread ")


def number_of(holder):
    return int(holder.split()[1])


def is_short(holder):
    """An init or a handler, which goes on to its end."""
    return holder is not None and holder.split()[0] in ("init", "irq", "fifo")


def follow(lines, version=1):
    """Reads all real-time lines of a run, as ticks with words, by Holders. The answer is what is wrong, or nothing."""
    holders = Holders(version)
    try:
        for tick, group in itertools.groupby(lines, key=lambda line: line[0]):
            holders.tick(tick, [words for _, words in group])
    except ValueError as wrong:
        return str(wrong)
    return ""
