#!/usr/bin/env python3
"""Asserts what the trace of an example has to be by its C source, its script and the definitions of the machine.

usage: check_trace.py EXAMPLE < TRACE

Nothing here comes from the program: the texts are those of the sources, a serial byte takes 32 ticks, an instruction, a gate
or an entry takes one, and the numbers of instructions were counted in the disassembly of the kept images.
"""
import hashlib
import pathlib
import struct
import sys

import schedule_model
from schedule_model import Forever, Gate, Return, Units

HERE = pathlib.Path(__file__).parent
SIDE = 65536
# A byte written in tick t is taken into the shift register in tick t + 1 and leaves 32 ticks later.
WRITE_TO_LEAVE = 33
BYTE = 32


class Trace:
    """The lines of a run, read as letter, tick and words."""

    def __init__(self, text):
        self.lines = []
        for line in text.splitlines():
            letter, tick, *words = line.split(" ")
            self.lines.append((letter, int(tick), words))
        ticks = [tick for _, tick, _ in self.lines]
        equal("the ticks never fall", ticks, sorted(ticks))

    def of(self, letter, name):
        return [(tick, words[1:]) for l, tick, words in self.lines if l == letter and words[0] == name]

    def entries(self):
        return [(tick, int(words[0])) for tick, words in self.of("G", "enter")]

    def traps(self):
        return [(tick, int(words[0])) for tick, words in self.of("G", "int")]

    def halts(self):
        return [tick for tick, _ in self.of("G", "halt")]

    def sent(self):
        """The bytes that left COM1, and their ticks."""
        lines = self.of("G", "com1")
        return bytes(int(words[0], 16) for _, words in lines), [tick for tick, _ in lines]

    def registers(self):
        """Of the guest's first end line: EIP EFLAGS EAX ECX EDX EBX ESP EBP ESI EDI."""
        [(_, words)] = self.of("G", "end")
        return words[0], [int(word, 16) for word in words[1:]]

    def hardware(self):
        """All lines of the hardware, as they stand."""
        return [(tick, words[0], int(words[1])) for letter, tick, words in self.lines if letter == "H"]

    def only(self, letter, names):
        equal(f"the kinds of {letter} lines", {words[0] for l, _, words in self.lines if l == letter}, set(names))


def equal(what, got, wanted):
    if got != wanted:
        sys.exit(f"check_trace: {what}: {got}, not {wanted}")


def digest(side):
    return hashlib.sha256(bytes(side)).hexdigest()


def real_time_side(trace):
    """Nothing happens on the real-time side: its memory is the stub CD F9 and zeros."""
    side = bytearray(SIDE)
    side[0:2] = b"\xcd\xf9"
    equal("the guest is on from tick 1", trace.of("R", "on"), [(1, ["guest"])])
    equal("no thread lives", [words for _, words in trace.of("R", "end")], [["0", "0"]])
    equal("the real-time memory", [words for _, words in trace.of("R", "memory")], [[digest(side)]])
    trace.only("R", ["on", "end", "memory"])


def steps_of(start, count, step=BYTE):
    return [start + step * i for i in range(count)]


DIVIDE_ERROR, SYSTEM_CALL = 0, 0x80


def interrupts(trace):
    equal("there are no R lines", [line for line in trace.lines if line[0] != "G"], [])
    trace.only("G", ["int", "end"])
    # 24 instructions and gates stand before the first call. A round of the loop is the call, the addition, the gate of iret, a
    # store, an increment, a comparison, a jump and a load. The division stands ten ticks behind the last call.
    calls = steps_of(25, 4, 8)
    equal("the entries", trace.traps(), [(tick, SYSTEM_CALL) for tick in calls] + [(calls[-1] + 10, DIVIDE_ERROR)])
    # The sum of 1 to 4, 100 by 7 and one divide error. EFLAGS is that of the comparison that ended the loop: ZF and PF.
    equal("the end", trace.registers(), ("runs", [0x16, 0x46, 1 + 2 + 3 + 4, 100 // 7, 1, 0, SIDE, 0, 0, 0]))


def first_steps(trace):
    real_time_side(trace)
    trace.only("G", ["com1", "halt", "end", "memory"])
    text, ticks = trace.sent()
    equal("the text", text, b"Hello, i386\n")
    # Twelve instructions stand before the first write.
    equal("the ticks of the bytes", ticks, steps_of(13 + WRITE_TO_LEAVE, len(text)))
    # The poll takes 4 ticks and a write comes 5 ticks behind the read that saw the buffer empty.
    written = [13, 23]
    for leaves in ticks[:-2]:
        poll = written[-1] + 5
        while poll < leaves:
            poll += 4
        written.append(poll + 5)
    equal("the last byte but one leaves behind the last write", ticks[-2] > written[-1], True)
    # Behind the last write: an increment, the test, the jump and a move; then the gate. Two pops and the return follow.
    time = written[-1] + 5
    equal("the halt", trace.halts(), [time + 4])
    # ECX and EDX are the ports that were named last; EFLAGS is that of the test for the text's end.
    equal("the end", trace.registers(), ("halted", [0x1007, 0x46, time, 0x3fd, 0x3f8, 0, SIDE, 0, 0, 0]))
    # The guest's memory: its image, and the return to the halt that the call of main has pushed; the rest is zeros.
    image = (HERE / "first_steps/image.elf").read_bytes()
    offset, place = (int.from_bytes(image[52 + at:56 + at], "little") for at in (4, 8))
    size = int.from_bytes(image[52 + 16:52 + 20], "little")
    side = bytearray(SIDE)
    side[place:place + size] = image[offset:offset + size]
    side[SIDE - 4:] = (0x1005).to_bytes(4, "little")
    equal("the guest's memory", [words for _, words in trace.of("G", "memory")], [[digest(side)]])


FIVE, NINE, SERIAL = 32 + 5, 32 + 9, 32 + 4


def shadow_and_halt(trace):
    real_time_side(trace)
    trace.only("G", ["enter", "halt", "end", "memory"])
    # The time gate of the first wait stands in the ticks 59, 63, ...: the first from 500 on is 503. The flag is set in tick
    # 507, tick 508 is in the shadow. The handler of line 5 takes 28 ticks the first time, and then line 9 is entered.
    # In the second wait the gate stands in 564, 568, ..., 800; sti is in 803, halt in 804, and the line is entered at once.
    # From then on a halted guest enters in the tick of the script.
    equal("the entries", trace.entries(),
          [(509, FIVE), (537, NINE), (805, NINE), (1000, FIVE), (1200, NINE), (1400, FIVE)])
    # From an entry to the next halt: 28 ticks behind line 9 for the first, 27 for the second, 30 behind line 5, and 42
    # where the loop ends and main returns.
    equal("the halts", trace.halts(), [804, 805 + 27, 1000 + 30, 1200 + 27, 1400 + 42])
    # One step passed in the shadow; line 5 rose four times and was entered three times; line 9 three times each. EFLAGS is
    # that of the last OR.
    equal("the end", trace.registers(), ("halted", [0x1007, 6, 1 << 16 | 3 << 8 | 3, SIDE, 3 << 8, 0, SIDE, 0, 0, 0]))


def serial_echo(trace):
    real_time_side(trace)
    trace.only("G", ["com1", "enter", "halt", "end", "memory"])
    script = [line.split() for line in (HERE / "serial_echo/script").read_text().splitlines() if not line.startswith("#")]
    received = bytes(int(byte, 16) for _, _, byte in script)
    text, ticks = trace.sent()
    equal("the bytes sent are those received", text, received)
    equal("the text", text, b"RTLinuxhello\n")
    # The fourth byte reaches the trigger; the timeout comes 128 ticks behind the last byte; six bytes come in one tick.
    entries = [1120, 1480 + 128, 2000]
    equal("the entries", trace.entries(), [(tick, SERIAL) for tick in entries])
    # The first write is the 38th instruction of an entry.
    equal("the ticks of the bytes", ticks,
          [tick for entry, count in zip(entries, [4, 3, 6]) for tick in steps_of(entry + 38 + WRITE_TO_LEAVE, count)])
    # Main halts in tick 50. From an entry to the next halt it takes 51 ticks and 10 for each byte.
    equal("the halts", trace.halts(), [50] + [entry + 51 + 10 * count for entry, count in zip(entries, [4, 3, 6])])
    # EIP is behind the halt in main, EFLAGS has the flag set, ECX is the number of vectors, and the stack is that of main.
    equal("the end", trace.registers(),
          ("halted", [0x10ba, 0x246, 0, 256, 0x3f9, 0xffffffef, SIDE - 32, SIDE - 24, 0, 0]))


def transmit(trace):
    trace.only("G", ["com1", "enter", "halt", "end"])
    equal("there are no R lines", [line for line in trace.lines if line[0] != "G"], [])
    text, ticks = trace.sent()
    equal("the text", text, b"Sent sixteen at a time, by interrupts.\n")
    # The guest halts in tick 53 and is woken by the line that was marked before; the first write is the 31st instruction of
    # an entry, and each further byte takes 10. No gap comes between two fills.
    equal("the ticks of the bytes", ticks, steps_of(54 + 31 + WRITE_TO_LEAVE, len(text)))
    # The buffer is empty where the last byte of a fill goes on into the shift register, that is where the byte before it
    # leaves: 16, 16 and 7 bytes. The last of these entries turns the interrupt off.
    fills = [54, ticks[14], ticks[30]]
    off = ticks[37]
    # The first byte of a fill goes on at once, so the line rises while the handler still writes: one more entry each, in
    # the tick behind the handler's return, which finds nothing to do. A fill that finds the text's end takes 3 ticks more.
    idle = [fill + 31 + 10 * (count - 1) + rest for fill, count, rest in zip(fills, [16, 16, 7], [17, 17, 20])]
    equal("the entries", trace.entries(), [(tick, SERIAL) for tick in sorted([*fills, *idle, off])])
    equal("the halts", trace.halts(), [53] + [tick + 29 for tick in idle] + [off + 51])
    equal("the end", trace.registers(), ("halted", [7, 2, len(text), SIDE, 0x3f9, 0, SIDE, 0, 0, 0]))


CLOCK = 32 + 8


def round_robin(trace):
    real_time_side(trace)
    trace.only("G", ["com1", "enter", "int", "halt", "end", "memory"])
    text, ticks = trace.sent()
    equal("the bytes of each task", [text.count(byte) for byte in b"wpt"], [5, 5, 1])
    equal("there are no other bytes", len(text), 11)
    script = (HERE / "round_robin/script").read_text().splitlines()
    rises = [int(line.split()[0]) for line in script if not line.startswith("#")]
    entries = [tick for tick, vector in trace.entries()]
    equal("the vectors of the entries", {vector for _, vector in trace.entries()}, {CLOCK})
    equal("each rise is entered, before the next", [sum(rise <= tick < rise + 150 for tick in entries) for rise in rises], [1] * 20)
    calls = [tick for tick, vector in trace.traps()]
    equal("the vectors of the calls", {vector for _, vector in trace.traps()}, {SYSTEM_CALL})
    # A rise is entered at once, unless it comes while a call is served, with the flag clear.
    for rise, entry in zip(rises, entries):
        equal(f"a call is served at the rise in {rise}", entry == rise or any(rise - 100 < tick < rise for tick in calls), True)
    # The waiter sends its byte behind the tenth rise of the clock.
    equal("the waiter has waited", ticks[text.index(b"t")] > entries[9] + WRITE_TO_LEAVE, True)
    # The worker has 5 + 1 calls, the polite task 5 + 5 + 1, and the waiter asks the clock at least once and has 2 more.
    equal("there are enough calls", len(calls) >= 6 + 11 + 3, True)
    # A turn begins at the start, at each rise of the clock while a task is alive, at each giving way, and at the end of a task but
    # the last.
    mode, registers = trace.registers()
    equal("the mode", mode, "halted")
    equal("the turns", sum(registers[2].to_bytes(4, "big")), 1 + 20 + 5 + 2)
    equal("the end is behind all calls", [tick > max(calls) for tick in trace.halts()], [True])
    equal("main has returned", (registers[0], registers[6]), (0x1007, SIDE))


TIMER = 32 + 0
# The one-shot reaches so far, and is set to 2k - 1 for a rise k ticks on.
REACH = 32768


def set_for(ticks):
    return 2 * min(ticks, REACH) - 1


def timer(trace):
    real_time_side(trace)
    trace.only("G", ["com1", "enter", "halt", "end", "memory"])
    second, busy, alarm = 200, 600, 40000
    # 49 instructions and gates stand before the gate that sets the timer; the time is asked for 4 ticks before it.
    started = 50
    dues = [started + second * k for k in range(1, 63)]
    # The stretch with the flag clear is measured from the time that is asked for 30 ticks behind the 25th due. Its loop asks again 4 ticks
    # later and then each 5 ticks; the flag is set 4 ticks behind the last of them, and the tick behind that is in the shadow.
    asked = dues[24] + 30
    last_look = next(tick for tick in range(asked + 4, asked + 2 * busy, 5) if tick - asked >= busy)
    late = last_look + 6
    missed = [due for due in dues if asked < due < late]
    equal("three dues come while the flag is clear", missed, [asked - 30 + second * k for k in (1, 2, 3)])
    entries = sorted([*(due for due in dues if due not in missed), late])
    equal("an entry for each due, but one for the three", len(entries), 60)
    # The last report is of the 60th entry. The gate that makes the timer an alarm stands 170 ticks behind it.
    alarm_set = entries[59] + 170
    rung = alarm_set + alarm
    equal("the entries", trace.entries(), [(tick, TIMER) for tick in [*entries, rung]])
    # The one-shot is set by the gate and by each due for the next. The alarm is too far: what rises on the way there has no entry. The
    # gate that turns the timer off sets nothing, so the one-shot that was set before still rises, and then no more.
    wanted = [(started, "set", set_for(second))]
    for due in dues:
        wanted += [(due, "edge", 0), (due, "ack", 0), (due, "set", set_for(second))]
    way = alarm_set + REACH
    wanted += [(alarm_set, "set", set_for(alarm)), (way, "edge", 0), (way, "ack", 0), (way, "set", set_for(rung - way)),
               (rung, "edge", 0), (rung, "ack", 0), (rung, "set", set_for(alarm)), (rung + REACH, "edge", 0), (rung + REACH, "ack", 0)]
    equal("the lines of the hardware", trace.hardware(), wanted)
    # The count of the entries lost two seconds. A report follows an entry, and its first write is 112 ticks behind that; behind the alarm
    # it is 32.
    reports = [entries[19], entries[39], entries[59]]
    equal("the seconds by the time", [(tick - started) // second for tick in reports], [20, 42, 62])
    text, ticks = trace.sent()
    equal("the text", text, b"0:20 0:20\n0:40 0:42\n1:00 1:02\nalarm\n")
    equal("the ticks of the bytes", ticks, [tick for report in reports for tick in steps_of(report + 112 + WRITE_TO_LEAVE, 10)]
          + steps_of(rung + 32 + WRITE_TO_LEAVE, 6))
    # Main halts first in tick 58. From an entry to the next halt it takes 27 ticks, 28 where the entry comes behind the stretch, 174 or,
    # with the gate of the timer, 178 behind a report, and 75 at the end. Behind the 25th due the stretch begins.
    longer = {late: 28, reports[0]: 174, reports[1]: 174, reports[2]: 178, rung: 75}
    equal("the halts", trace.halts(), [58] + [tick + longer.get(tick, 27) for tick in [*entries, rung] if tick != dues[24]])
    # EAX has 62 seconds and 61 entries; the flag is set, and EFLAGS else that of the OR. ECX is the stack's end, by main's start.
    equal("the end", trace.registers(), ("halted", [0x1007, 0x202, 62 << 8 | 61, SIDE, 61, 0, SIDE, 0, 0, 0]))


def symbols_of(path):
    """The names of an ELF file for 32 bits, with their addresses and sizes."""
    file = (HERE / path).read_bytes()
    place, = struct.unpack_from("<I", file, 32)
    size, count = struct.unpack_from("<HH", file, 46)
    sections = [struct.unpack_from("<10I", file, place + size * at) for at in range(count)]
    [table] = [section for section in sections if section[1] == 2]
    texts = sections[table[6]][4]
    names = {}
    for at in range(table[4], table[4] + table[5], 16):
        name, value, length = struct.unpack_from("<3I", file, at)
        names[file[texts + name:file.index(0, texts + name)].decode()] = (value, length)
    return names


class ThreadsModule:
    """What `threads/threads.c` does. The numbers of units were counted in the disassembly; WORK is the loop of so many units."""

    START, FAST_PERIOD, FAST_WORK, MIDDLE_PERIOD, MIDDLE_WORK, SLOW_PERIOD, SLOW_WORK = 1000, 400, 20, 800, 100, 1600, 800
    SLEEP, SLEEPS, STUCK_START, STUCK_PERIOD, GOOD_TURNS = 700, 3, 1300, 600, 2

    def __init__(self):
        self.places = symbols_of("threads/module.symbols")
        self.beats = 0

    def place(self, name):
        return self.places[name][0]

    def entries(self):
        return {self.place("periodic"): self.periodic, self.place("slow"): self.slow, self.place("sleeper"): self.sleeper,
                self.place("stuck"): self.stuck}

    def say(self, units, text):
        return Gate(units, schedule_model.PRINT, (self.place(f"{text}_text"), len(text)), text.encode())

    def periodic(self, work):
        begins = 3 + 1
        while True:
            yield Gate(begins + work + 2, schedule_model.WAIT)
            begins = 2

    def slow(self, watched):
        seen, watching, begins = None, True, 11 + 1
        while True:
            yield Units(begins + self.SLOW_WORK + 2)
            if watching:
                yield Units(3)
            if watching and self.beats == seen:
                yield Gate(3, schedule_model.DELETE, (watched,))
                yield self.say(4, "stuck")
                yield Units(2)
                watching = False
            seen = self.beats
            yield Gate(3, schedule_model.WAIT)
            begins = 1

    def sleeper(self, sleeps):
        begins = 8
        for _ in range(sleeps):
            yield Gate(begins + 3, schedule_model.NANOSLEEP, (self.SLEEP,))
            yield self.say(4, "awake")
            begins = 2
        yield Return(2 + 4 + 2)

    def stuck(self, good_turns):
        begins = 3
        for _ in range(good_turns):
            yield Units(begins + 2 + 3)
            self.beats += 1
            yield Gate(2, schedule_model.WAIT)
            begins = 1
        yield Forever()

    def init(self):
        created = {}
        for units, name, entry, priority, argument in (
                (12, "fast", "periodic", 40, self.FAST_WORK), (6, "middle", "periodic", 30, self.MIDDLE_WORK),
                (8, "stuck", "stuck", 10, self.GOOD_TURNS), (7, "slow", "slow", 20, None), (7, "sleeper", "sleeper", 35, self.SLEEPS)):
            stack_top = sum(self.places[f"{name}_stack"])
            argument = created["stuck"] if argument is None else argument
            created[name] = yield Gate(units, schedule_model.CREATE, (self.place(entry), priority, stack_top, argument))
        for units, name, start, period in ((6, "fast", self.START, self.FAST_PERIOD), (4, "middle", self.START, self.MIDDLE_PERIOD),
                                           (4, "slow", self.START, self.SLOW_PERIOD), (5, "stuck", self.STUCK_START, self.STUCK_PERIOD)):
            yield Gate(units, schedule_model.MAKE_PERIODIC, (created[name], start, period))
        yield Return(7)


def threads(trace):
    ticks, period = 6000, 500
    module = ThreadsModule()
    model = schedule_model.Model(module.init(), module.entries())
    for tick in range(1, ticks + 1):
        model.tick(tick)
    got = [(tick, schedule_model.used(words)) for letter, tick, words in trace.lines if letter == "R"]
    equal("the last line of the real-time side", got.pop()[1][0], "memory")
    equal("the end of the real-time side", got.pop(), (ticks, ["end", str(len(model.threads)), str(len(model.ready))]))
    for line, wanted in zip(got, model.lines):
        equal("a line of the real-time side", line, wanted)
    equal("how many lines the real-time side has", len(got), len(model.lines))
    # Thread 0 never waits for another thread: a release each period, and a turn of 24 ticks.
    releases = [tick for tick, words in trace.of("R", "release") if words == ["0"]]
    equal("the releases of the fast thread", releases, list(range(module.START, ticks, module.FAST_PERIOD)))
    turns = [tick for tick, words in trace.of("R", "on") if words == ["thread", "0"]]
    equal("its turns", turns, releases)
    # The thread that was deleted is in no later line.
    [(deleted, words)] = [(tick, words) for tick, words in trace.of("R", "gate") if words[0] == "3"]
    later = [words for letter, tick, words in trace.lines if letter == "R" and tick > deleted]
    gone = str(int(words[1], 16))
    equal("later lines of the deleted thread", [words for words in later if words in (["release", gone], ["on", "thread", gone])], [])
    # The guest sets its timer in its 42nd unit and halts in its 44th. An entry is in its first tick from the due on, and dues that have come
    # before it are one mark. The byte is written 20 of its ticks later, and it halts 29 later.
    mine = model.guest_ticks
    started, entries, written, halts, at = mine[41], [], [], [mine[43]], 44
    due = started + period
    while True:
        at = next((at for at in range(at, len(mine)) if mine[at] >= due), None)
        if at is None:
            break
        entries.append(mine[at])
        written.append(mine[at + 20])
        halts.append(mine[at + 29])
        due += period * ((mine[at] - due) // period + 1)
        at += 30
    equal("the entries", trace.entries(), [(tick, TIMER) for tick in entries])
    equal("the halts", trace.halts(), halts)
    # COM1 sends while threads are on.
    text, left = trace.sent()
    equal("the text", text, b"".join(b"%d" % count for count in range(1, len(entries) + 1)))
    equal("the ticks of the bytes", left, [tick + WRITE_TO_LEAVE for tick in written])
    trace.only("G", ["com1", "enter", "halt", "end", "memory"])
    # EIP is behind the halt, EFLAGS has the flag and else that of the last test, EAX is the answer for the timer, and the stack is that of main.
    equal("the end", trace.registers(), ("halted", [0x1075, 0x246, 0, 256, 0, period, SIDE - 32, SIDE - 24, 0, 0]))


class VersionsModule:
    """What versions.c does: the loops and numbers of its source, and the units between its gates, counted in the disassembly."""
    PRIORITY = 10
    SAMPLER_START, SAMPLER_PERIOD, FIRST_WORK, SAMPLER_WORK = 200, 100, 220, 20
    REPORTER_START, REPORTER_PERIOD, REPORTER_WORK = 350, 400, 60

    def __init__(self):
        self.symbols = symbols_of("versions/module.symbols")

    def entries(self):
        return {self.symbols["sampler"][0]: self.sampler, self.symbols["reporter"][0]: self.reporter}

    def sampler(self, work):
        yield Gate(6 + work, schedule_model.WAIT)
        while True:
            yield Gate(4 + self.SAMPLER_WORK, schedule_model.WAIT)

    def reporter(self, work):
        yield Gate(6 + work, schedule_model.WAIT)
        while True:
            yield Gate(4 + work, schedule_model.WAIT)

    def init(self):
        created = []
        for units, name, work in ((11, "sampler", self.FIRST_WORK), (6, "reporter", self.REPORTER_WORK)):
            top = sum(self.symbols[f"{name}_stack"])
            created.append((yield Gate(units, schedule_model.CREATE, (self.symbols[name][0], self.PRIORITY, top, work))))
        yield Gate(7, schedule_model.MAKE_PERIODIC, (created[0], self.SAMPLER_START, self.SAMPLER_PERIOD))
        yield Gate(5, schedule_model.MAKE_PERIODIC, (created[1], self.REPORTER_START, self.REPORTER_PERIOD))
        yield Return(6)


def versions(trace, version):
    ticks = 1000
    module = VersionsModule()
    model = schedule_model.Model(module.init(), module.entries(), version)
    for tick in range(1, ticks + 1):
        model.tick(tick)
    lines = [(tick, words) for letter, tick, words in trace.lines if letter == "R"]
    got = [(tick, schedule_model.used(words)) for tick, words in lines]
    equal("the last line of the real-time side", got.pop()[1][0], "memory")
    equal("the end of the real-time side", got.pop(), (ticks, ["end", "2", str(len(model.ready))]))
    equal("the lines of the real-time side", got, model.lines)
    equal("the lines `on`", schedule_model.follow(lines, version), "")
    # Another version is told by them: it would put on the other thread in the tick behind the sampler's first turn.
    behind = module.SAMPLER_START + 6 + module.FIRST_WORK
    told = schedule_model.follow(lines, 3 - version)
    equal("where the other version differs", f"in {behind}," in told, True)
    # The guest calls main, clears EAX, and adds 1 in every other tick of its own.
    trace.only("G", ["end", "memory"])
    counted = (len(model.guest_ticks) - 1) // 2
    mode, registers = trace.registers()
    equal("the mode", mode, "runs")
    equal("what the guest has counted", registers[2], counted)


def versions_1(trace):
    versions(trace, 1)


def versions_2(trace):
    versions(trace, 2)


RECORDS, SET_POINTS, RECORD = 0, 1, 16


def control_loop(trace):
    ticks, first, turn, turns_a_log, changes = 26000, 400, 500, 4, {1: 500, 4: 700, 10: 200}
    # What the host computed from the same C, a turn in each line: its number, the set point, what is measured, the output.
    records = [tuple(int(word) for word in line.split()) for line in (HERE / "control_loop/results").read_text().splitlines()]
    logs = len(records) // turns_a_log
    turns = list(range(first, ticks + 1, turn))
    equal("the releases", trace.of("R", "release"), [(tick, ["0"]) for tick in turns])
    equal("the lines `on`", schedule_model.follow([(tick, words) for letter, tick, words in trace.lines if letter == "R"]), "")
    gates = trace.of("R", "gate")
    places = symbols_of("control_loop/module.symbols")
    wanted = [(11, RECORDS, 16 * RECORD, 0), (11, SET_POINTS, 16, 0), (16, SET_POINTS, places["on_set_point"][0], 0),
              (18, 9, places["on_load"][0], 0), (2, places["controller"][0], 10, sum(places["controller_stack"]), 0, 0), (6, 0, first, turn, 0)]
    [(returned, _), *_] = trace.of("R", "ret")
    begun = [schedule_model.used(["gate", *words])[1:] for tick, words in gates if tick < returned]
    equal("the gates of the init", begun, [[str(function), *(f"{word:08x}" for word in words), str(result)] for function, *words, result in wanted])
    waits = [(tick, words[-1]) for tick, words in gates if words[0] == "7"]
    equal("a wait behind each put", waits, [(tick + 2, "0") for tick, words in gates if words[0] == "13"])
    puts = [(tick, words) for tick, words in gates if words[0] == "13"]
    equal("a put of a record in each turn", [sum(begins < tick < begins + turn for tick, _ in puts) for begins in turns], [1] * len(turns))
    equal("each record fits", {(words[1], words[3], words[-1]) for _, words in puts}, {(f"{RECORDS:08x}", f"{RECORD:08x}", str(RECORD))})
    # A log follows four turns: the kernel gets their records, sends the set point that comes into force behind them, and writes the last.
    entries = [tick for tick, _ in trace.entries()]
    equal("the entries", trace.entries(), [(entries[0] + turns_a_log * turn * log, TIMER) for log in range(logs)])
    equal("the timer is set soon", turns_a_log * turn < entries[0] <= turns_a_log * turn + 200, True)
    gets = trace.of("G", "get")
    equal("the gets", [words for _, words in gets], [[str(RECORDS), str(turns_a_log * 4 * RECORD)]] * logs)
    for log, (tick, _) in enumerate(gets, 1):
        equal(f"the get of log {log} is between its turns", turns[log * turns_a_log - 1] < tick < turns[log * turns_a_log], True)
    replies = dict(trace.of("R", "reply"))
    got = bytes.fromhex("".join(replies[tick][1] for tick, _ in gets))
    equal("the replies", [replies[tick][0] for tick, _ in gets], [str(turns_a_log * RECORD)] * logs)
    equal("the records", list(struct.iter_unpack("<4i", got)), records)
    sent = trace.of("G", "put")
    equal("the set points", [words for _, words in sent], [[str(SET_POINTS), struct.pack("<i", point).hex()] for point in changes.values()])
    for log, (tick, _) in zip(changes, sent):
        equal(f"the set point of log {log} is between its turns", gets[log - 1][0] < tick < turns[log * turns_a_log], True)
        equal("its reply", replies.pop(tick), ["4", "-"])
    equal("the replies are those", sorted(replies), [tick for tick, _ in gets])
    # A put of the guest starts the handler in the next tick, and so does line 9 in its own. Each returns to the guest.
    script = [line.split() for line in (HERE / "control_loop/script").read_text().splitlines() if not line.startswith("#")]
    starts = [(tick + 1, ["fifo", str(SET_POINTS)]) for tick, _ in sent] + [(int(tick), ["irq", line]) for tick, _, line in script]
    begun = trace.of("R", "on")
    equal("the handlers", [line for line in begun if line[1][0] in ("fifo", "irq")], sorted(starts))
    equal("the returns", len(trace.of("R", "ret")), 1 + len(starts))
    for tick, words in starts:
        behind = next(line for line in begun if line[0] > tick)
        equal(f"what is on behind the handler of tick {tick}", behind[1], ["guest"])
    taken = [(words[1], words[-1]) for _, words in gates if words[0] == "14"]
    equal("what the handler takes, until there is no more", taken, [(f"{SET_POINTS:08x}", "4"), (f"{SET_POINTS:08x}", "0")] * len(sent))
    text, _ = trace.sent()
    last_of_logs = records[turns_a_log - 1::turns_a_log]
    equal("the text", text.decode(), "".join("".join(f"{number:5}" for number in record) + "\n" for record in last_of_logs))
    equal("the end", trace.of("R", "end"), [(ticks, ["1", "0"])])
    trace.only("R", ["on", "gate", "ret", "release", "reply", "end", "memory"])
    trace.only("G", ["com1", "enter", "halt", "put", "get", "end", "memory"])


if __name__ == "__main__":
    checks = {check.__name__: check for check in
              (interrupts, first_steps, shadow_and_halt, serial_echo, transmit, round_robin, timer, threads, versions_1, versions_2, control_loop)}
    if len(sys.argv) != 2 or sys.argv[1] not in checks:
        sys.exit(f"usage: check_trace.py {'|'.join(checks)} < TRACE")
    checks[sys.argv[1]](Trace(sys.stdin.read()))
