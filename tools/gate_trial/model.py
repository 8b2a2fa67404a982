#!/usr/bin/env python3
"""A plain model of the table of gates in docs/SCHEDULE.md, and random sequences of gates over it.

  model.py FIRST COUNT        makes the sequences FIRST, FIRST + 1, .. as main.rt.txt beside it does, and prints a digest of what every
                              gate was asked and answered and of what stands at the end, with how often each gate was asked
  model.py FIRST COUNT show   prints that itself

The model is written from docs/SCHEDULE.md alone, over Python's lists and sets. Of main.rt.txt it has the draws and the order of what is
noted; of the program that is compared it has nothing.
"""
import collections
import sys

EAGAIN, EBUSY, ENODEV, EINVAL, ENOSPC = -11, -16, -19, -22, -28
FIRST, SIZE, GATES = 0x1000, 512, 60
HOLDABLE = {1, 3} | set(range(5, 16))
ORDER = [0, 1, *range(8, 16), *range(3, 8)]
ALL = 2**64 - 1
INIT, THREAD, IRQ, FIFO = range(4)


class Thread:
    def __init__(self, entry, priority, top, argument):
        self.priority, self.ready, self.due, self.period, self.next = priority, True, None, 0, 0
        self.entry, self.stack, self.argument = entry, top - 4, argument


class Fifo:
    def __init__(self, size):
        self.size, self.bytes, self.handler, self.mark = size, [], 0, False


class Model:
    def __init__(self, version, side):
        self.version, self.side = version, side
        self.threads, self.ready, self.fifos = {}, [], {}
        self.held, self.marks, self.soft, self.latched = {}, set(), set(), set()

    def outside(self, at, count):
        return count and not (FIRST <= at and at + count <= FIRST + SIZE)

    def range(self, at, count):
        return self.side[at - FIRST : at - FIRST + count]

    def store(self, at, bytes):
        self.side[at - FIRST : at - FIRST + len(bytes)] = bytes

    def gone(self, id):
        del self.threads[id]
        self.unready(id)

    def unready(self, id):
        self.ready = [it for it in self.ready if it[0] != id]

    # the line is acknowledged where it is latched; who had it before gets it
    def acknowledge(self, line):
        if line not in self.latched:
            return 0, -1
        self.latched.discard(line)
        return (0 if line in self.held or line == 3 else 1 << line), line

    def free(self, line):
        taken = self.acknowledge(line)
        del self.held[line]
        self.marks.discard(line)
        return taken

    # gives the result, the lines for the guest, the acknowledged one and the printed bytes; None for a fault
    def gate(self, kind, number, now, f, b, c, d, s):
        if f in (13, 14, 24):
            at, count = (b, c) if f == 24 else (c, d)
            if count > 256:
                return EINVAL, 0, -1, None
            if self.outside(at, count):
                return None
        marks, taken, said = 0, -1, None
        thread, fifo = self.threads.get(b), self.fifos.get(b)
        calling = self.threads[number] if kind == THREAD else None
        result = EINVAL
        if f == 1:
            result = now
        elif f == 2:
            if c <= 255 and d >= 4 and not self.outside(d - 4, 4):
                free = [n for n in range(64) if n not in self.threads]
                result = free[0] if free else EAGAIN
                if free:
                    self.threads[free[0]] = Thread(b, c, d, s)
                    self.ready.append((free[0], now))
                    self.store(d - 4, list(FIRST.to_bytes(4, "little")))
        elif f == 3 and thread:
            result = 0
            self.gone(b)
        elif f == 4 and thread:
            result = 0
            thread.ready, thread.due = False, None
            self.unready(b)
        elif f == 5 and thread:
            result = 0
            if not thread.ready:
                thread.ready, thread.due = True, None
                self.ready.append((b, now))
        elif f == 6 and thread and 1 <= d <= 10**9 and c <= 2 * 10**9:
            result = 0
            thread.ready, thread.due, thread.period, thread.next = False, c, d, c
            self.unready(b)
        elif f == 7 and calling and calling.period:
            result = 0
            calling.next += calling.period
            calling.ready, calling.due = False, calling.next
            self.unready(number)
        elif f == 8 and calling:
            result = number
        elif f == 9 and thread and c <= 255:
            result = 0
            thread.priority = c
        elif f == 10 and thread:
            result = thread.priority
        elif f == 11:
            if b <= 63 and 1 <= c <= 16384:
                result = EBUSY if fifo else 0
                if not fifo:
                    self.fifos[b] = Fifo(c)
        elif f in (12, 13, 14, 15, 16, 17):
            result = ENODEV
            if fifo:
                result = 0
                if f == 12:
                    del self.fifos[b]
                elif f == 13:
                    result = d if len(fifo.bytes) + d <= fifo.size else ENOSPC
                    if result >= 0:
                        fifo.bytes += self.range(c, d)
                elif f == 14:
                    result = min(d, len(fifo.bytes))
                    if result:
                        self.store(c, fifo.bytes[:result])
                    fifo.bytes = fifo.bytes[result:]
                elif f == 15:
                    fifo.bytes = []
                elif f == 16:
                    fifo.handler = c
                    fifo.mark = fifo.mark and c != 0
                else:
                    result = len(fifo.bytes)
        elif f == 18 and b in HOLDABLE:
            result = EBUSY if b in self.held else 0
            if b not in self.held:
                marks, taken = self.acknowledge(b)
                self.held[b] = c
        elif f == 19 and b in self.held:
            result = 0
            marks, taken = self.free(b)
        elif f == 20:
            free = [n for n in range(16, 32) if n not in self.soft]
            result = free[0] if free else EBUSY
            self.soft.update(free[:1])
        elif f == 21 and b in self.soft:
            result = 0
            self.soft.discard(b)
        elif f == 22 and (b <= 15 or b in self.soft):
            result = 0
            marks = 1 << b
        elif f == 23 and calling and 1 <= b <= 10**9:
            result = 0
            calling.ready, calling.due = False, now + b
            self.unready(number)
        elif f == 24:
            result = 0
            said = self.range(b, c)
        return result, marks, taken, said

    # what a fault of an activity leaves
    def drop(self, kind, number):
        if kind == THREAD:
            self.gone(number)
        elif kind == IRQ and number in self.held:
            return self.free(number)
        elif kind == FIFO and number in self.fifos:
            self.fifos[number].handler, self.fifos[number].mark = 0, False
        return 0, -1

    # the latched lines are acknowledged: those that modules hold are marked, the others are the guest's, but for lines 0 and 3
    def drain(self):
        lines, self.latched = self.latched, set()
        self.marks |= lines & set(self.held)
        return sum(1 << n for n in lines), sum(1 << n for n in lines - set(self.held) - {0, 3})


class Trace:
    """What was noted: a digest of it, and where it is to be shown its lines."""

    def __init__(self, shown):
        self.digest, self.shown, self.words = 0xCBF29CE484222325, shown, []

    def note(self, *numbers):
        digest = self.digest
        for number in numbers:
            digest = ((digest ^ (number & ALL)) * 0x100000001B3) & ALL
            digest = (digest << 5 | digest >> 59) & ALL
        self.digest = digest
        if self.shown:
            self.words += map(str, numbers)

    def end(self):
        self.note(-2)
        if self.shown:
            print(*self.words)
            self.words = []


class Draws:
    def __init__(self, number):
        self.x = number * 0x9E3779B97F4A7C15 & ALL

    def draw(self, limit):
        self.x = (self.x * 6364136223846793005 + 1442695040888963407) & ALL
        return (self.x >> 33) % limit

    def address(self):
        return FIRST - 6 + self.draw(SIZE + 12)

    def word(self):
        kind = self.draw(4)
        if kind == 0:
            return LIMITS[self.draw(24)]
        return self.address() if kind == 1 else self.draw(10) if kind == 2 else self.draw(0xFFFFFFFF)

    def count(self):
        return 250 + self.draw(10) if self.draw(8) == 0 else self.draw(20)

    def likely(self, f):
        draw, address = self.draw, self.address
        if f == 2:
            return [address(), draw(260), address(), draw(0xFFFFFFFF)]
        if f == 6:
            return [draw(5), draw(300), 1 + draw(50), 0]
        if f == 9:
            return [draw(6), draw(260), 0, 0]
        if f == 11:
            return [draw(4), 1 + draw(60), 0, 0]
        if f in (12, 15, 17):
            return [draw(4), 0, 0, 0]
        if f in (13, 14):
            return [draw(4), address(), self.count(), 0]
        if f == 16:
            return [draw(4), draw(2) * address(), 0, 0]
        if f == 18:
            return [3 + draw(6), address(), 0, 0]
        if f == 19:
            return [3 + draw(6), 0, 0, 0]
        if f in (21, 22):
            return [12 + draw(8), 0, 0, 0]
        if f == 23:
            return [draw(60), 0, 0, 0]
        if f == 24:
            return [address(), self.count(), 0, 0]
        return [draw(6), 0, 0, 0]

    def function(self):
        kind = self.draw(8)
        if kind == 0:
            return 2
        if kind == 1:
            return 11 + self.draw(6)
        if kind == 2:
            return 6 + self.draw(2)
        return LIMITS[self.draw(24)] if kind == 3 and self.draw(2) == 0 else self.draw(26)

    def caller(self, model):
        id, kind = self.draw(5), self.draw(8)
        if kind == 1:
            return IRQ, self.draw(10)
        if kind == 2:
            return FIFO, id
        return (INIT if kind == 0 or id not in model.threads else THREAD), id


LIMITS = [0, 1, 2, 3, 15, 16, 31, 32, 63, 64, 255, 256, 257, 0x107, 16384, 16385, 999999999, 1000000000, 1000000001]
LIMITS += [2000000000, 2000000001, 0x7FFFFFFF, 0x80000000, 0xFFFFFFFF]
FAILURES = (EAGAIN, EBUSY, ENODEV, EINVAL, ENOSPC)


def one_gate(model, draws, now, trace, asked, done):
    kind, number = draws.caller(model)
    f = draws.function()
    words = draws.likely(f)
    if draws.draw(4) == 0:
        place = draws.draw(4)
        words[place] = draws.word()
    b, c, d, s = words
    trace.note(kind, number, now, f, b, c, d, s)
    gave = model.gate(kind, number, now, f, b, c, d, s)
    name = f if 1 <= f <= 24 else 0
    asked[name] += 1
    eax = f
    if gave is None:
        trace.note(-3)
    else:
        result, marks, taken, said = gave
        said = said or []
        trace.note(result, marks, taken, len(said), *said)
        eax = result % 2**32
        done[name] += result not in FAILURES
    trace.note(eax, c, d, b, 0x88, 0, s, 0, 0x77)
    trace.end()


def note_end(model, trace):
    for id in sorted(model.threads):
        it = model.threads[id]
        doing = -1 if it.ready else -2 if it.due is None else it.due
        trace.note(id, it.priority, doing, it.entry, it.stack, it.argument, 0x202)
        trace.end()
    since = dict(model.ready)
    place = {id: n for n, (id, _) in enumerate(model.ready)}
    longest = since if model.version == 2 else place
    trace.note(*sorted(since, key=lambda id: (-model.threads[id].priority, longest[id], place[id])))
    trace.end()
    for due, id in sorted((it.due, id) for id, it in model.threads.items() if it.due is not None):
        trace.note(id, due)
    trace.end()
    for n in sorted(model.fifos):
        if model.fifos[n].mark:
            trace.note(n, model.fifos[n].handler)
    trace.end()
    for n in sorted(model.fifos):
        bytes = model.fifos[n].bytes
        trace.note(n, len(bytes))
        for first in range(0, len(bytes), 256):
            part = bytes[first : first + 256]
            trace.note(len(part), *part)
        trace.end()
    trace.note(*sorted(model.held), *sorted(model.soft))
    trace.end()
    for n in ORDER:
        if n in model.marks:
            trace.note(n, model.held[n])
    trace.end()
    model.marks = set()
    trace.note(*model.drain())
    trace.end()
    trace.note(SIZE, *model.side)
    trace.end()


def sequence(number, trace, asked, done):
    draws = Draws(number)
    model = Model(1 + number % 2, [draws.draw(256) for _ in range(SIZE)])
    now, gates = 1, 0
    while gates < GATES:
        kind = draws.draw(64)
        if kind <= 7:
            line = draws.draw(10)
            if line != 2:
                model.latched.add(line)
        elif kind == 8:
            trace.note(*model.drain())
            trace.end()
        elif kind <= 10:
            fifo = model.fifos.get(draws.draw(4))
            if fifo and fifo.handler:
                fifo.mark = True
        elif kind == 11:
            who = draws.caller(model)
            trace.note(*who, 0, *model.drop(*who), 0)
            trace.end()
        elif kind <= 13:
            now += draws.draw(100)
        else:
            one_gate(model, draws, now, trace, asked, done)
            gates += 1
    note_end(model, trace)


def main(words):
    if len(words) < 2:
        print(__doc__, end="", file=sys.stderr)
        return 2
    trace, asked, done = Trace(len(words) > 2), collections.Counter(), collections.Counter()
    for number in range(int(words[0]), int(words[0]) + int(words[1])):
        sequence(number, trace, asked, done)
    print(f"digest {trace.digest:016x}")
    print("asked and succeeded:", ", ".join(f"{f} {asked[f]} {done[f]}" for f in sorted(asked)), file=sys.stderr)
    return 0


if __name__ == "__main__":
    sys.exit(main(sys.argv[1:]))
