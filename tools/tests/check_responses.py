#!/usr/bin/env python3
"""Compares response_times with a response-time analysis that knows no trace: of random systems of periodic threads, whose lines are made here tick
by tick, and of the examples, whose threads' costs are counted in their lines.

The analysis: in a busy period that begins with w, a turn ends before the least f with f = w + the costs of the turns of its thread up to it + the costs of all
turns of greater priority that are due before f (Joseph and Pandya 1986; Lehoczky 1990). Where all first dues are one tick and no turn is
longer than its period, the longest response is the least R with R = C + the sum of ceil(R / T) * C over the greater priorities."""
from __future__ import annotations

import os
import random
import re
from typing import Dict, List, NamedTuple, Optional, Tuple

from common_test import REAL_TIME, TOP, equal, fail, has, held, lines_of, passed, tool

RANDOM_SYSTEMS, SEED = 60, 12
EXAMPLES = ["threads", "control_loop", "rate_monotonic"]


class Task(NamedTuple):
    """A periodic thread: its turns take `cost` ticks each, up to the gate with which it waits."""
    priority: int
    start: int
    period: int
    cost: int


class Job(NamedTuple):
    """One turn: whose, its priority, its due and its cost. None as the thread stands for handlers, which go before all threads."""
    thread: Optional[int]
    priority: int
    due: int
    cost: int


# The analysis.

def fixpoint(jobs: List[Job], begin: int, cost: int) -> int:
    """The least f with f = begin + cost + the costs of the jobs that are due from the beginning on and before f."""
    end = begin + cost
    while True:
        following = begin + cost + sum(job.cost for job in jobs if begin <= job.due < end)
        if following == end:
            return end
        end = following


def responses(jobs: List[Job], thread: int, priority: int) -> List[Tuple[int, int]]:
    """The due and the response of each job of a thread, in ticks from the due to the last, both of them in it."""
    greater = [job for job in jobs if job.priority > priority]
    own = sorted(job for job in jobs if job.thread == thread)
    found, at = [], 0
    while at < len(own):
        begin = busy_period_of(greater + own, own[at].due)
        cost = 0
        for job in own[at:]:
            end = fixpoint(greater, begin, cost + job.cost)
            if cost and fixpoint(greater, begin, cost) <= job.due:
                break
            cost += job.cost
            found.append((job.due, end - job.due))
            at += 1
    return found


def busy_period_of(jobs: List[Job], due: int) -> int:
    """The beginning of the busy period in which a due lies."""
    begin = end = 0
    for job in sorted(jobs, key=lambda job: job.due):
        if job.due > due:
            break
        if job.due >= end:
            begin = end = job.due
        end += job.cost
    return begin


def longest_by_formula(tasks: List[Task], task: Task) -> int:
    """The longest response where all turns begin together, by R = C + the sum of ceil(R / T) * C."""
    greater = [other for other in tasks if other.priority > task.priority]
    response = task.cost
    while True:
        following = task.cost + sum(-(-response // other.period) * other.cost for other in greater)
        if following == response:
            return response
        response = following


# Random systems: their lines, by the rule that the ready thread of greatest priority is on.

def trace_of(tasks: List[Task], ticks: int) -> str:
    lines = ["R 1 on init 0"]
    lines += [f"R {2 + at} gate 2 00011000 {task.priority:08x} 00012000 00000000 {at}" for at, task in enumerate(tasks)]
    lines += [f"R {10 + at} gate 6 {at:08x} {task.start:08x} {task.period:08x} 00000000 0" for at, task in enumerate(tasks)]
    lines += ["R 20 ret"]
    due = [task.start for task in tasks]
    left = [0] * len(tasks)
    on = "init 0"
    for tick in range(21, ticks + 1):
        for number, task in enumerate(tasks):
            if left[number] == 0 and due[number] <= tick:
                lines.append(f"R {tick} release {number}")
                left[number] = task.cost
        ready = [number for number in range(len(tasks)) if left[number]]
        picked = max(ready, key=lambda number: tasks[number].priority, default=None)
        who = "guest" if picked is None else f"thread {picked}"
        if who != on:
            lines.append(f"R {tick} on {who}")
        on = who
        if picked is not None:
            left[picked] -= 1
            if left[picked] == 0:
                lines.append(f"R {tick} gate 7 00000000 00000000 00000000 00000000 0")
                due[picked] += tasks[picked].period
                on = "" if due[picked] <= tick + 1 else on
    lines.append(f"R {ticks} end {len(tasks)} {sum(1 for number in range(len(tasks)) if left[number])}")
    return "\n".join(lines) + "\n"


def random_tasks(draw: random.Random) -> List[Task]:
    """Rate monotonic: the shorter the period, the greater the priority. Half of them begin together; their load is 40 to 110 percent."""
    count, load, start = draw.randint(2, 6), draw.uniform(0.4, 1.1), draw.randint(30, 60)
    periods = draw.sample(range(20, 400), count)
    together = draw.random() < 0.5
    priorities = {period: 100 - at for at, period in enumerate(sorted(periods))}
    return [Task(priorities[period], start if together else start + draw.randint(0, 300), period, max(1, int(period * load / count))) for period in periods]


class Row(NamedTuple):
    """What response_times prints of a thread, by the names of the columns, and its turns as dues with responses."""
    columns: Dict[str, str]
    turns: List[Tuple[int, Optional[int]]]


def printed(*words: str, stdin: bytes = b"") -> Dict[int, Row]:
    table, _, turns = tool("response_times", *words, "--turns", stdin=stdin).partition("\n\n")
    head, *rows = [line.split() for line in table.splitlines()]
    found = {int(row[0]): Row(dict(zip(head, row)), []) for row in rows}
    for words_of_turn in [line.split() for line in turns.splitlines()[1:]]:
        found[int(words_of_turn[0])].turns.append((int(words_of_turn[2]), None if words_of_turn[6] == "-" else int(words_of_turn[6])))
    return found


def compare(what: str, row: Row, expected: List[Tuple[int, int]], last: int, deadline: Optional[int]) -> None:
    """Each turn that ended has the response of the analysis, and the rest of the row is what follows from these."""
    done = [(due, response) for due, response in expected if due + response - 1 <= last]
    equal(f"the responses of {what}", [turn for turn in row.turns if turn[1] is not None], done)
    values = [response for _, response in done]
    equal(f"the longest response of {what}", row.columns["longest"], str(max(values)) if values else "-")
    equal(f"the mean response of {what}", row.columns["mean"], f"{sum(values) / len(values):.1f}" if values else "-")
    if deadline:
        missed = [due for due, response in expected[:len(row.turns)] if response > deadline and due + deadline - 1 <= last]
        equal(f"the misses of {what}", row.columns["misses"], str(len(missed)))


def check_random_systems() -> None:
    draw, by_formula, misses = random.Random(SEED), 0, 0
    for system in range(RANDOM_SYSTEMS):
        tasks, ticks = random_tasks(draw), draw.randint(800, 3000)
        rows = printed(stdin=trace_of(tasks, ticks).encode())
        jobs = [Job(number, task.priority, due, task.cost) for number, task in enumerate(tasks) for due in range(task.start, ticks + 1, task.period)]
        for number, task in enumerate(tasks):
            expected = responses(jobs, number, task.priority)
            compare(f"thread {number} of system {system}", rows[number], expected, ticks, task.period)
            misses += int(rows[number].columns["misses"])
            is_first = len({other.start for other in tasks}) == 1 and rows[number].turns and rows[number].turns[0][1] is not None
            if is_first and sum(other.cost / other.period for other in tasks if other.priority >= task.priority) < 0.69:
                equal(f"the longest response of thread {number} of system {system}", rows[number].columns["longest"], str(longest_by_formula(tasks, task)))
                by_formula += 1
    if by_formula < 20 or misses < 20:
        fail(f"the random systems are too tame: {by_formula} longest responses by the formula, {misses} misses")
    passed(f"the responses of {RANDOM_SYSTEMS} random systems are those of the analysis, {by_formula} longest ones by the formula; {misses} misses")


# The examples: which turns there were is read off their gates and releases, and what they cost off who was on.

def jobs_of(lines: List[List[str]]) -> Tuple[List[Job], Dict[int, int], Dict[int, int]]:
    """All turns of an example with their costs, and the priorities and the periods of its threads. A handler is a job by itself."""
    on, last = held(lines), int(lines[-1][1])
    priorities = {int(words[8]): int(words[5], 16) for words in lines if words[2:4] == ["gate", "2"] and int(words[8]) >= 0}
    periods = {int(words[4], 16): int(words[6], 16) for words in lines if words[2:4] == ["gate", "6"]}
    dues: Dict[int, List[int]] = {number: [] for number in priorities}
    nexts = {int(words[4], 16): int(words[5], 16) for words in lines if words[2:4] == ["gate", "6"]}
    for words in lines:
        if words[2] == "release":
            number = int(words[3])
            dues[number].append(nexts[number] if number in periods else int(words[1]))
            if number in periods:
                nexts[number] += periods[number]
    jobs = []
    for number, found in dues.items():
        ticks = sorted(on.get(f"thread {number}", set()))
        ends = ends_of(lines, number, on)
        for due, begin, end in zip(found, [min(dues[number], default=0)] + [end + 1 for end in ends], ends + [last]):
            jobs.append(Job(number, priorities[number], due, sum(begin <= tick <= end for tick in ticks)))
    for who, ticks in on.items():
        if who.split()[0] in ("irq", "fifo"):
            jobs += [Job(None, 1000, tick, 1) for tick in sorted(ticks)]
    return jobs, priorities, periods


def ends_of(lines: List[List[str]], number: int, on: Dict[str, set]) -> List[int]:
    """The ticks of the waits, sleeps and returns of a thread, from its first release on."""
    first = next((int(words[1]) for words in lines if words[2:4] == ["release", str(number)]), 0)
    return [int(words[1]) for words in lines if (words[2] == "ret" or words[2] == "gate" and words[3] in ("7", "23"))
            and int(words[1]) in on.get(f"thread {number}", set()) and int(words[1]) >= first]


def check_example(name: str) -> None:
    lines = lines_of(f"examples/{name}/expected")
    jobs, priorities, periods = jobs_of(lines)
    last, rows = int(lines[-1][1]), printed(f"examples/{name}/expected")
    deleted = {int(words[4], 16) for words in lines if words[2:4] == ["gate", "3"]}
    compared = 0
    for number, priority in priorities.items():
        expected = responses(jobs, number, priority)
        ended = len(ends_of(lines, number, held(lines)))
        compare(f"thread {number} of {name}", rows[number], expected[:ended], last, None if number in deleted else periods.get(number))
        equal(f"the releases of thread {number} of {name}", rows[number].columns["releases"],
              str(sum(words[2:4] == ["release", str(number)] for words in lines)))
        compared += min(ended, len(expected))
    passed(f"the responses of {compared} turns of {name} are those of the analysis")


def check_rules() -> None:
    """What stands in the help, on short traces: deadlines, a thread that is woken, one that sleeps in its turn, one that is deleted."""
    rows = printed(REAL_TIME)
    equal("the responses of the trace", rows[0].turns, [(20, 5), (50, 6)])
    equal("the late releases", rows[0].columns["late"], "1")
    equal("the misses by a deadline of 5", printed(REAL_TIME, "--deadline", "0=5")[0].columns["misses"], "1")
    woken = WOKEN.encode()
    rows = printed(stdin=woken)
    equal("the turns of a thread that is woken", (rows[0].columns["wakes"], rows[0].columns["releases"], rows[0].turns), ("1", "0", [(40, 11)]))
    equal("the turns of a thread that sleeps in its turn", (rows[1].columns["releases"], rows[1].turns), ("2", [(30, 25), (70, None)]))
    equal("misses and dues of a thread that is deleted in its turn", (rows[1].columns["misses"], rows[1].columns["unreleased"]), ("1", "1"))
    has(tool("response_times", "--deadline", "0", status=2), "'0' isn't THREAD=TICKS", "response_times")
    has(tool("response_times", stdin=b"G 5 halt\n"), "the trace has no threads", "response_times")
    passed("response_times has deadlines, threads that are woken, that sleep in their turns, and that are deleted")


WOKEN = """R 1 on init 0
R 3 gate 2 00011000 00000014 00012000 00000000 0
R 4 gate 2 00011000 0000000a 00012000 00000000 1
R 5 gate 6 00000001 0000001e 00000028 00000000 0
R 6 ret
R 7 on thread 0
R 9 gate 4 00000000 00000000 00000000 00000000 0
R 10 on guest
R 30 release 1
R 30 on thread 1
R 35 gate 23 00000005 00000000 00000000 00000000 0
R 36 on irq 5
R 39 gate 5 00000000 00000000 00000000 00000000 0
R 40 ret
R 41 release 1
R 41 on thread 0
R 50 gate 4 00000000 00000000 00000000 00000000 0
R 51 on thread 1
R 54 gate 7 00000000 00000000 00000000 00000000 0
R 55 on guest
R 70 release 1
R 70 on thread 1
R 112 on irq 6
R 113 gate 3 00000001 00000000 00000000 00000000 0
R 114 ret
R 115 on guest
R 120 end 1 0
"""


def check_rate_monotonic() -> None:
    """The example's page has T, C and R of each thread. From where all are released together on the longest responses are R, and R is the
    formula's."""
    with open("examples/rate_monotonic/README.md", encoding="utf-8") as file:
        page = file.read()
    rows = [list(map(int, row)) for row in re.findall(r"^\| (\d+) \| (\d+) \| (\d+) \| (\d+) \| (\d+) \|$", page, re.M)]
    start = int(re.search(r"all released together in tick ([\d,]+)", page).group(1).replace(",", ""))
    tasks = [Task(priority, start, period, cost) for _, priority, period, cost, _ in rows]
    found = printed("examples/rate_monotonic/expected", "--from", str(start))
    equal("the threads of rate_monotonic", sorted(found), [row[0] for row in rows])
    for (number, priority, period, _, response), task in zip(rows, tasks):
        equal(f"R of thread {number}, on the page and by the formula", response, longest_by_formula(tasks, task))
        columns = found[number].columns
        equal(f"priority, period and longest response of thread {number} of rate_monotonic",
              [columns["priority"], columns["period"], columns["longest"]], [str(priority), str(period), str(response)])
    passed(f"the longest responses of rate_monotonic's {len(rows)} threads are R of the analysis")


def main() -> None:
    os.chdir(TOP)
    check_rules()
    check_random_systems()
    for name in EXAMPLES:
        if os.path.exists(f"examples/{name}/expected"):
            check_example(name)
    if os.path.exists("examples/rate_monotonic/README.md"):
        check_rate_monotonic()


if __name__ == "__main__":
    main()
