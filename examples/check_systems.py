#!/usr/bin/env python3
"""Asserts what the trace of a system with modules has to be by its sources, its script and what was computed apart from the program.

usage: check_systems.py EXAMPLE < TRACE

That the trace is the one of the definitions, line by line, is for machine_model.py. Here is what each example is there to show: texts and
outputs as the host computes them, response times as the analysis has them, who has a line when, and that the schedule stays what it is.
"""
import struct
import sys

import schedule_model
from check_trace import HERE, Trace, WRITE_TO_LEAVE, equal

START_TASK, STOP_TASK = 1, 2


def real_time(trace):
    return [(tick, words) for letter, tick, words in trace.lines if letter == "R"]


def gates(trace, function):
    """The gates of a function, as tick, registers and result."""
    return [(tick, [int(word, 16) for word in words[1:5]], int(words[5])) for tick, words in trace.of("R", "gate") if int(words[0]) == function]


def releases(trace, thread):
    return [tick for tick, words in trace.of("R", "release") if words == [str(thread)]]


def script_of(example):
    lines = [line.split() for line in (HERE / example / "script").read_text().splitlines() if not line.startswith("#")]
    return [(int(tick), kind, number) for tick, kind, number in lines]


def by_priority(trace):
    equal("the lines `on`", schedule_model.follow(real_time(trace)), "")


def frank(trace):
    """The guest's commands, and what comes of them: releases from the start on, each a period behind the other, until the stop."""
    log, logs, letters = 1000, 9, "fz"
    plan = [(START_TASK, 0, 500), (START_TASK, 1, 200), (STOP_TASK, 0, 0), (START_TASK, 0, 300), (STOP_TASK, 0, 0), (STOP_TASK, 1, 0)]
    by_priority(trace)
    puts = [(tick, struct.unpack("<3i", bytes.fromhex(words[1]))) for tick, words in trace.of("G", "put") if words[0] == "2"]
    equal("the commands", [command for _, command in puts], plan)
    equal("their handler", [tick for tick, words in trace.of("R", "on") if words == ["fifo", "2"]], [tick + 1 for tick, _ in puts])
    clocks = iter(gates(trace, 1))
    running, wanted = {}, {0: [], 1: []}
    for tick, (command, task, period) in puts:
        if command == START_TASK:
            now = next(clocks)[2]
            equal("the clock is read in the handler", tick < now < tick + 60, True)
            running[task] = (now + period, period)
        else:
            start, period = running.pop(task)
            wanted[task] += range(start, tick, period)
    equal("no task goes on", running, {})
    # A due that comes while a handler is on is served behind it.
    came = {task: releases(trace, task) for task in wanted}
    for task, dues in wanted.items():
        equal(f"how many releases task {task} has", len(came[task]), len(dues))
        equal(f"the releases of task {task}", [due <= tick <= due + 60 for due, tick in zip(dues, came[task])], [True] * len(dues))
    # A log has what the threads put since the last one; the threads have put a letter in each turn.
    gets = trace.of("G", "get")
    equal("the gets", [words[0] for _, words in gets], ["0", "1"] * logs)
    text, last = "", [0, 0]
    for tick, words in gets:
        task = int(words[0])
        text += letters[task] * sum(last[task] < put < tick for put in came[task]) + ("\n" if task else "")
        last[task] = tick
    equal("the text", trace.sent()[0].decode(), text)
    equal("the entries", len(trace.entries()), logs)
    equal("a log each period", {b - a for (a, _), (b, _) in zip(trace.entries(), trace.entries()[1:])} <= set(range(log - 40, log + 41)), True)


def sensor_loop(trace):
    """The sensor's bytes in the script are those of the host's plant, and the actuator's bytes of the run are the host's answers to them."""
    first, period, reading = 400, 400, 300
    rows = [tuple(int(word) for word in line.split()) for line in (HERE / "sensor_loop/results").read_text().splitlines()]
    script = script_of("sensor_loop")
    equal("the script", script, [(reading + period * turn, "com2", f"{measured:02x}") for turn, (measured, _) in enumerate(rows)])
    by_priority(trace)
    sent = trace.of("R", "com2")
    equal("the actuator's bytes", [int(words[0], 16) for _, words in sent], [output for _, output in rows])
    equal("line 3 has its handler in the tick of the byte", [tick for tick, words in trace.of("R", "on") if words == ["irq", "3"]],
          [tick for tick, _, _ in script])
    turns = [first + period * turn for turn in range(len(rows))]
    equal("the turns", releases(trace, 0)[:len(turns)], turns)
    for turn, (tick, _) in zip(turns, sent):
        equal("a byte leaves before the next reading", turn + WRITE_TO_LEAVE < tick < turn + period - 100, True)


def module_calls(trace):
    """A dot for each call; of those in the helper's loop, two for one line of the source."""
    source = (HERE / "module_calls/module_calls.c").read_text()
    calls = source.count("WANT(") - source.count("#define WANT(") + 1
    by_priority(trace)
    text = b"".join(bytes.fromhex(words[0]) for _, words in trace.of("R", "say") if words[0] != "-").decode()
    equal("what it says but dots", text.replace(".", ""), "-2147483648 4294967295 1234abcd c text %\nthrough\n")
    equal("how many dots", text.count("."), calls)
    equal("the gates that are called", sorted({int(words[0]) for _, words in trace.of("R", "gate")}), list(range(1, 25)))
    equal("the end", trace.of("R", "end"), [(12000, ["0", "0"])])


def analysis(costs, periods, at):
    """The longest response of the thread at this place, where those before it are more urgent: the least R that is its cost and what
    comes before it in R ticks (Joseph and Pandya 1986; Audsley and others 1993)."""
    response = costs[at]
    while True:
        longer = costs[at] + sum(-(-response // periods[j]) * costs[j] for j in range(at))
        if longer == response:
            return response
        response = longer


def rate_monotonic(trace):
    together, ticks = 6000, 9000
    periods, works = (200, 350, 600, 1000, 1800), (36, 56, 76, 116, 196)
    # A turn is the loop and four instructions: the jump back, two loads of registers, and the gate.
    costs = [work + 4 for work in works]
    by_priority(trace)
    holder, held, waits, used = None, 0, {thread: [] for thread in range(5)}, {thread: [] for thread in range(5)}
    lines = {}
    for tick, words in real_time(trace):
        lines.setdefault(tick, []).append(words)
    for tick in range(1, ticks + 1):
        for words in lines.get(tick, ()):
            if words[0] == "on":
                holder = int(words[2]) if words[1] == "thread" else None
        if holder is not None:
            used[holder].append(tick)
        for words in lines.get(tick, ()):
            if words[0] == "gate" and words[1] == "7":
                waits[holder].append((tick, len(used[holder])))
                used[holder] = []
    for thread in range(5):
        turns = [(release, next((tick, held) for tick, held in waits[thread] if tick >= release)) for release in releases(trace, thread)
                 if any(tick >= release for tick, _ in waits[thread])]
        steady = [(release, turn) for release, turn in turns if release >= together]
        equal(f"the ticks of each turn of thread {thread}", {held for _, (_, held) in steady}, {costs[thread]})
        longest = max(tick - release + 1 for release, (tick, _) in steady)
        wanted = analysis(costs, periods, thread)
        equal(f"the longest response of thread {thread}", longest, wanted)
        equal("it is that of the common release", steady[0][1][0] - steady[0][0] + 1, wanted)
        equal("it is in time", wanted <= periods[thread], True)


def lent_line(trace):
    each, line = 3, 9
    by_priority(trace)
    [(taken, _, took)] = gates(trace, 18)
    [(back, _, gave)] = gates(trace, 19)
    equal("the line is taken and given back", (took, gave, 2000 <= taken < 2020, 4000 <= back < 4040), (0, 0, True, True))
    rises = [tick for tick, _, _ in script_of("lent_line")]
    lent = [tick for tick in rises if taken < tick < back]
    equal("the handler, in the tick of each rise between", [tick for tick, words in trace.of("R", "on") if words == ["irq", str(line)]], lent)
    passed = [tick for tick, registers, result in gates(trace, 22) if (registers[0], result) == (line, 0)]
    equal("each third is passed on", [max(rise for rise in lent if rise < tick) for tick in passed], lent[each - 1::each])
    wanted = sorted([tick for tick in rises if tick not in lent] + passed)
    entries = trace.entries()
    equal("the vectors", {vector for _, vector in entries}, {32 + line})
    equal("an entry for each rise of the guest's, and for each that is passed on", len(entries), len(wanted))
    for came, (entered, _) in zip(wanted, entries):
        equal("the entry comes when nothing real-time is on", came <= entered <= came + 10, True)
    equal("the text", trace.sent()[0], bytes(range(ord("a"), ord("a") + len(entries))))
    [(_, [said])] = trace.of("R", "say")
    equal("the count", bytes.fromhex(said).decode(), f"{len(lent)} rises")


def faults(trace):
    kinds = ["divide", "memory", "opcode", "int", "port", "privileged"]
    by_priority(trace)
    told = trace.of("R", "fault")
    equal("the faults", [words for _, words in told], [["thread", str(thread), kind] for thread, kind in enumerate(kinds)] + [["irq", "6", "divide"]])
    for thread, (tick, _) in enumerate(told[:len(kinds)]):
        due = 500 + 50 * thread + 2 * 400
        equal("it comes in the third turn", due <= tick <= due + 20, True)
        later = [words for at, words in real_time(trace) if at > tick and words[-2:] == ["thread", str(thread)] or at > tick and words == ["release", str(thread)]]
        equal(f"thread {thread} is gone", later, [])
    steady = list(range(300, 3001, 300))
    equal("the steady thread goes on", releases(trace, len(kinds)), steady)
    equal("it says so in each turn but the one that the end cuts off", [words for _, words in trace.of("R", "say")], [["6f6e"]] * (len(steady) - 1))
    [first, second] = [tick for tick, _, _ in script_of("faults")]
    equal("the first rise is the handler's", [tick for tick, words in trace.of("R", "on") if words[0] == "irq"], [first])
    equal("the second is the guest's", trace.entries(), [(second, 38)])
    equal("the text", trace.sent()[0], b"6")
    equal("the end", trace.of("R", "end"), [(3000, ["1", "1"])])


def breach(trace):
    threads = Trace((HERE / "threads/expected").read_text())
    equal("the real-time lines are those of examples/threads", real_time(trace), real_time(threads))
    [(tick, words)] = trace.of("G", "breach")
    equal("the breach", words, ["store", "00011000"])
    text, [left] = trace.sent()
    equal("the byte that was on its way leaves, and no other", (text, left > tick), (b"!", True))
    equal("the guest is stopped for good", [words[0] for _, words in trace.of("G", "end")], ["stopped"])
    trace.only("G", ["breach", "com1", "end", "memory"])


def worst_guest(trace):
    first, period, held, ticks = 500, 137, 25, 6000
    by_priority(trace)
    dues = list(range(first, ticks + 1, period))
    came = releases(trace, 0)
    equal("a release for each due", len(came), len(dues))
    late = [tick - due for tick, due in zip(came, dues)]
    # What holds it back is the loop of the thread below it, which CLI comes before: the loop, and STI.
    equal("never late by more than the module's own loop", 0 < max(late) <= held + 2, True)
    on = dict((tick, words) for tick, words in trace.of("R", "on"))
    for tick, lateness in zip(came, late):
        if lateness:
            before = max(at for at in on if at < tick)
            equal("late behind the holder alone", on[before], ["thread", "1"])
    said = [int(words[0], 16) for _, words in trace.of("R", "say")]
    # Two instructions behind the release it reads the clock; seven, where its function begins.
    begins = [7] + [2] * (len(said) - 1)
    equal("what it says", said, [lateness + more for lateness, more in zip(late, begins)])


def idle(trace):
    worst_guest(trace)
    trace.only("G", ["halt", "end", "memory"])


def storm(trace):
    worst_guest(trace)
    equal("lines 0, 4 and 5 come in, and line 12 has no turn", {vector for _, vector in trace.entries()}, {32, 36, 37})


def wild(trace):
    worst_guest(trace)
    equal("the breach", [words for _, words in trace.of("G", "breach")], [["cli"]])


if __name__ == "__main__":
    checks = {check.__name__: check for check in (frank, sensor_loop, module_calls, rate_monotonic, lent_line, faults, breach,
                                                 idle, storm, wild)}
    if len(sys.argv) != 2 or sys.argv[1] not in checks:
        sys.exit(f"usage: check_systems.py {'|'.join(checks)} < TRACE")
    checks[sys.argv[1]](Trace(sys.stdin.read()))
