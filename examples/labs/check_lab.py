#!/usr/bin/env python3
"""Says whether the trace of a lab is what its task asks for.

usage: check_lab.py LAB                       prints how many ticks the lab is run
       check_lab.py LAB TRACE                 checks the trace
       check_lab.py reading_a_trace TRACE ANSWERS    checks the answers to the questions of that lab
"""
import itertools
import pathlib
import re
import sys

sys.path.insert(0, str(pathlib.Path(__file__).resolve().parent.parent))

from check_trace import Trace, equal  # noqa: E402


def fail(what):
    sys.exit(f"lab: {what}")


def gates(trace, function):
    return [(tick, [int(word, 16) for word in words[1:5]], int(words[5])) for tick, words in trace.of("R", "gate") if int(words[0]) == function]


def holders(trace, ticks):
    """Who is on in each tick, from 1 on."""
    on, who = dict((tick, " ".join(words)) for tick, words in trace.of("R", "on")), None
    for tick in range(1, ticks + 1):
        who = on.get(tick, who)
        yield tick, who


def said(trace):
    return "".join(bytes.fromhex(words[0]).decode() for _, words in trace.of("R", "say"))


# Reading a trace.

def answers_of(trace):
    """What the trace itself answers to the questions, worked out from its lines."""
    who = dict(holders(trace, trace.of("R", "end")[0][0]))
    periods = {registers[0]: registers[2] for _, registers, _ in gates(trace, 6)}
    waits = [tick for tick, _, _ in gates(trace, 7)]
    [(deleted, registers, _)] = gates(trace, 3)
    first = {}
    for tick, name in who.items():
        first.setdefault(name, tick)
    released = next(tick for tick, words in trace.of("R", "release") if words == ["2"])
    return [
        [trace.of("R", "ret")[0][0]],
        [len(gates(trace, 2))],
        [periods[1]],
        [first["thread 3"]],
        [next(tick for tick in waits if tick >= 1000) - 1000 + 1],
        [int(who[1399].split()[1])],
        [released, first["thread 2"]],
        [registers[0], deleted],
        [sum(who[tick] == "guest" for tick in range(1, 1001))],
        [bytes.fromhex(next(words[0] for tick, words in trace.of("R", "say") if who[tick] == "thread 4")).decode()],
    ]


def check_answers(trace, path):
    wanted = answers_of(trace)
    given = {}
    for line in pathlib.Path(path).read_text(encoding="utf-8").splitlines():
        number, _, answer = line.partition(":")
        given[number.strip()] = answer
    wrong = [number for number, right in enumerate(wanted, 1)
             if re.findall(r"[0-9a-z]+", given.get(str(number), "").replace(",", "").lower()) != [str(part) for part in right]]
    if wrong:
        fail("not right yet: " + ", ".join(map(str, wrong)))


# The other labs.

PRIORITIES_TICKS = 5000


def priorities(trace):
    turns = {0: 500, 1: 600, 2: 650}
    for thread, start in turns.items():
        ticks = [tick for tick, words in trace.of("R", "release") if words == [str(thread)]]
        equal(f"the releases of thread {thread}", ticks, list(range(start, PRIORITIES_TICKS + 1, 2000)))
    text = said(trace)
    if text != "lmsSML" * 3:
        fail(f"the threads say {text}, not {'lmsSML' * 3}")


DEADLINE_TICKS = 9000


def missed_deadline(trace):
    start, periods, works = 1000, (200, 500, 1000), (40, 120, 300)
    who = dict(holders(trace, DEADLINE_TICKS))
    for thread, (period, work) in enumerate(zip(periods, works)):
        name = f"thread {thread}"
        ends = [tick for tick, _, _ in gates(trace, 7) if who[tick] == name]
        dues = list(range(start, DEADLINE_TICKS - period, period))
        if len(ends) < len(dues):
            fail(f"{name} has {len(ends)} turns in {len(dues)} periods")
        last = start - 1
        for due, end in zip(dues, ends):
            if end >= due + period:
                fail(f"{name} was due in {due}, and its turn ends in {end}, not before {due + period}")
            held = sum(who[tick] == name for tick in range(max(due, last + 1), end + 1))
            if held < work:
                fail(f"the turn of {name} that was due in {due} has {held} ticks; its work alone is {work}")
            last = end


RACE_TICKS = 8000


def race(trace):
    turns = len([1 for tick, words in trace.of("R", "release") if words == ["0"]]) // 2
    text = trace.sent()[0].decode()
    if "!" in text:
        fail(f"the guest got a record that wasn't one: {text}")
    if len(text) < turns - 1 or turns < 20:
        fail(f"the guest got {len(text)} records, of {turns} turns")


LINE_WAY_TICKS = 3000
RISES = [500, 900, 903, 1500, 1530, 2200]


def line_way(trace):
    starts = [tick for tick, words in trace.of("R", "on") if words == ["irq", "7"]]
    if len(starts) != len(RISES):
        fail(f"the handler starts {len(starts)} times for {len(RISES)} rises")
    for rise, tick in zip(RISES, starts):
        if not rise <= tick <= rise + 20:
            fail(f"the rise of {rise} starts the handler in {tick}")
    woken = [tick for tick, _, result in gates(trace, 5) if result == 0]
    if len(woken) != len(RISES):
        fail(f"the worker is woken {len(woken)} times for {len(RISES)} rises")
    marks = [tick for tick, registers, result in gates(trace, 22) if (registers[0], result) == (16, 0)]
    if len(marks) != len(RISES):
        fail(f"the soft line is marked {len(marks)} times for {len(RISES)} rises")
    who = dict(holders(trace, LINE_WAY_TICKS))
    if any(who[tick] != "thread 0" for tick in marks):
        fail("the soft line is marked by another than the worker")
    for before, (rise, mark) in zip([0, *marks], zip(RISES, marks)):
        worked = sum(who[tick] == "thread 0" for tick in range(max(rise, before), mark + 1))
        if worked < 40:
            fail(f"behind the rise of {rise} the worker works {worked} ticks before it marks the line, not 40")
    # The guest has one entry for marks that come before it has the processor again.
    asked = [tick for tick in marks if any(who[later] == "guest" for later in range(tick, next((m for m in marks if m > tick), LINE_WAY_TICKS)))]
    equal("the guest's entries", len(trace.entries()), len(asked))
    equal("their vector", {vector for _, vector in trace.entries()}, {48})


ROUND_ROBIN_TICKS = 8000


def round_robin(trace):
    text = trace.sent()[0].decode()
    blocks = [(letter, len(list(some))) for letter, some in itertools.groupby(text)]
    if len(blocks) < 12:
        fail(f"the tasks have {len(blocks)} turns: {text}")
    order = "".join(letter for letter, _ in blocks)
    if order != ("abc" * len(blocks))[:len(blocks)]:
        fail(f"the turns are in the order {order}")
    counts = {count for _, count in blocks[:-1]}
    if min(counts) < 2:
        fail(f"a turn has a single letter: {text}")


LABS = {"priorities": (priorities, PRIORITIES_TICKS), "missed_deadline": (missed_deadline, DEADLINE_TICKS), "race": (race, RACE_TICKS),
        "line_way": (line_way, LINE_WAY_TICKS), "round_robin": (round_robin, ROUND_ROBIN_TICKS)}


def main():
    words = sys.argv[1:]
    if len(words) == 1 and words[0] in LABS:
        print(LABS[words[0]][1])
        return
    if len(words) == 3 and words[0] == "reading_a_trace":
        check_answers(Trace(pathlib.Path(words[1]).read_text(encoding="utf-8")), words[2])
    elif len(words) == 2 and words[0] in LABS:
        LABS[words[0]][0](Trace(pathlib.Path(words[1]).read_text(encoding="utf-8")))
    else:
        sys.exit(f"usage: check_lab.py {'|'.join(LABS)} [TRACE], or check_lab.py reading_a_trace TRACE ANSWERS")
    print(f"lab: {words[0]} is done")


if __name__ == "__main__":
    main()
