"""What the tests of the tools share: a call of a tool, and the lines of a trace, read here by themselves."""
from __future__ import annotations

import os
import subprocess
import sys
from typing import Dict, Iterator, List, Set, Tuple

TOP = os.path.realpath(os.path.join(os.path.dirname(__file__), "..", ".."))
REAL_TIME = "tools/tests/real_time.trace"


def traces() -> List[str]:
    """The kept traces of the examples, and one of a real-time side with faults and late releases."""
    kept = sorted(os.path.join("examples", folder, name) for folder in os.listdir("examples")
                  if os.path.isdir(os.path.join("examples", folder)) for name in os.listdir(os.path.join("examples", folder))
                  if name.startswith("expected"))
    return [name for name in kept if is_trace(name)] + [REAL_TIME]


def is_trace(name: str) -> bool:
    with open(name, encoding="utf-8") as file:
        return file.read(2) in ("R ", "G ")


def fail(what: str) -> None:
    sys.exit(f"tools: {what}")


def passed(what: str) -> None:
    print(f"tools: {what}")


def tool(name: str, *words: str, status: int = 0, stdin: bytes = b"", python: str = sys.executable) -> str:
    """What a tool writes, to standard output where its status is 0, and else to both."""
    done = subprocess.run([python, f"tools/{name}.py", *words], input=stdin, stdout=subprocess.PIPE, stderr=subprocess.PIPE, check=False)
    if done.returncode != status:
        fail(f"{name} {' '.join(words)} ended with {done.returncode}, not {status}: {done.stderr.decode()}")
    if b"Traceback" in done.stderr:
        fail(f"{name} {' '.join(words)}: {done.stderr.decode()}")
    return (done.stdout if status == 0 else done.stdout + done.stderr).decode()


def has(output: str, words: str, what: str) -> None:
    if words not in output:
        fail(f"{what} doesn't say '{words}' but\n{output}")


def equal(what: str, got: object, wanted: object) -> None:
    if got != wanted:
        fail(f"{what}: {got}, not {wanted}")


def lines_of(trace: str) -> List[List[str]]:
    with open(trace, encoding="utf-8") as file:
        return [line.split() for line in file]


def held(lines: List[List[str]]) -> Dict[str, Set[int]]:
    """The ticks in which each activity is on, by the lines `on` alone."""
    last = int(lines[-1][1])
    found: Dict[str, Set[int]] = {}
    changes = [(int(words[1]), " ".join(words[3:])) for words in lines if words[2] == "on"] or [(1, "guest")]
    for (tick, who), (following, _) in zip(changes, changes[1:] + [(last + 1, "")]):
        found.setdefault(who, set()).update(range(tick, following))
    return found


def stretches(ticks: Set[int]) -> List[Tuple[int, int]]:
    """The first and the last tick of each stretch without a gap."""
    found: List[Tuple[int, int]] = []
    for tick in sorted(ticks):
        if found and found[-1][1] == tick - 1:
            found[-1] = (found[-1][0], tick)
        else:
            found.append((tick, tick))
    return found


def ready_in_each_tick(lines: List[List[str]]) -> Iterator[Tuple[int, Set[int]]]:
    """Which threads are ready in each tick, behind its releases and before its unit: a set that the lines change."""
    ready: Set[int] = set()
    on, at = "", 0
    for tick in range(1, int(lines[-1][1]) + 1):
        of_tick = []
        while at < len(lines) and int(lines[at][1]) == tick:
            of_tick.append(lines[at])
            at += 1
        ready |= {int(words[3]) for words in of_tick if words[2] == "release"}
        on = next((" ".join(words[3:]) for words in of_tick if words[2] == "on"), on)
        yield tick, set(ready)
        for words in of_tick:
            change_ready(ready, on, words)


def change_ready(ready: Set[int], on: str, words: List[str]) -> None:
    caller = {int(on.split()[1])} if on.startswith("thread") else set()
    if words[2] == "gate" and int(words[8]) >= 0:
        function, number = int(words[3]), int(words[4], 16)
        if function == 2:
            ready.add(int(words[8]))
        elif function == 5:
            ready.add(number)
        elif function in (3, 4, 6):
            ready.discard(number)
        elif function in (7, 23):
            ready -= caller
    elif words[2] == "ret":
        ready -= caller
    elif words[2] == "fault" and words[3] == "thread":
        ready.discard(int(words[4]))
