#!/usr/bin/env python3
"""Compares `explain` with the program on every damaged file: both take it, or both refuse it with the same line.
usage: check_explain.py PROGRAM"""
from __future__ import annotations

import os
import pathlib
import subprocess
import sys
import tempfile
from concurrent.futures import ThreadPoolExecutor
from typing import Iterator, List, Tuple

sys.path.insert(0, str(pathlib.Path(__file__).resolve().parents[1]))

from damaged_files import SMALL, SYSTEM, WITH_SCRIPT, Case, all_cases
from explain import Report, explain_flat, explain_system


def write(folder: str, case: Case) -> None:
    os.makedirs(folder)
    for name, content in (("s.toml", case.system), ("k.bin", case.image), ("d.txt", case.script)):
        with open(os.path.join(folder, name), "wb") as file:
            file.write(content)


def printed(program: str, folder: str, words: List[str]) -> Tuple[str, int]:
    """The error line of the program and its status, or nothing and 0 where it takes the files."""
    done = subprocess.run([program, *words], cwd=folder, stdout=subprocess.PIPE, check=False)
    line = done.stdout.split(b"\n")[0]
    return (line.decode(), done.returncode) if line.startswith(b"E ") else ("", 0)


def said(folder: str, words: List[str]) -> Tuple[str, int]:
    """The same of the report of `explain`. Each mistake has words and, where the file is a text, a line."""
    os.chdir(folder)
    report: Report = explain_system(words[1]) if words[0] == "run" else explain_flat(words[1])
    refusal = report.refusal()
    if not refusal:
        return "", 0
    if any(not mistake.why for mistake in report.mistakes) or (refusal.code == "30" and refusal.line == 0):
        sys.exit(f"explain: {folder}: a mistake without its words or its line")
    return refusal.printed(), refusal.status()


def odd_files(folder: str) -> Iterator[Tuple[str, List[str]]]:
    """Runs on files that aren't there, are no files, or are too large; their folder, and the words of the run."""
    run, flat = ["run", "s.toml", "--ticks", "1"], ["flat", "k.bin", "1"]
    for name, system in (("absent", SYSTEM), ("no script", WITH_SCRIPT), ("nul", SYSTEM.replace(b"k.bin", b"k\\u0000.bin")),
                         ("folder", SYSTEM.replace(b"k.bin", b".")), ("huge image", SYSTEM)):
        place = os.path.join(folder, name)
        write(place, Case(name, system, SMALL, b"", None))
        os.remove(os.path.join(place, "d.txt"))
        if name == "absent":
            os.remove(os.path.join(place, "k.bin"))
        if name == "huge image":
            os.truncate(os.path.join(place, "k.bin"), 33_554_433)
        yield place, run
        yield place, flat
        yield place, ["run", "absent.toml", "--ticks", "1"]
    for size in (0, 65_536, 65_537, 33_554_432):
        place = os.path.join(folder, f"flat {size}")
        os.makedirs(place)
        with open(os.path.join(place, "k.bin"), "wb") as file:
            file.truncate(size)
        yield place, flat


def main() -> None:
    if len(sys.argv) != 2:
        sys.exit("usage: check_explain.py PROGRAM")
    program = os.path.abspath(sys.argv[1])
    home = os.getcwd()
    with tempfile.TemporaryDirectory() as folder:
        runs, wanted = [], []
        for number, case in enumerate(all_cases()):
            place = os.path.join(folder, str(number))
            write(place, case)
            runs.append((place, ["run", "s.toml", "--ticks", "1"]))
            wanted.append((case.name, case.wanted))
        for place, words in odd_files(folder):
            runs.append((place, words))
            wanted.append((" ".join([os.path.basename(place), *words]), None))
        with ThreadPoolExecutor(os.cpu_count()) as workers:
            answers = list(workers.map(lambda run: printed(program, *run), runs))
        refused = 0
        for (place, words), answer, (name, line) in zip(runs, answers, wanted):
            told = said(place, words)
            if told != answer:
                sys.exit(f"explain: {name}: it says {told}, and the program {answer}")
            if line is not None and line != answer[0]:
                sys.exit(f"explain: {name}: the program says {answer}, and its test {line!r}")
            refused += answer[0] != ""
        os.chdir(home)
    print(f"tools: explain agrees with the program on {len(runs)} files, of which {refused} are refused")


if __name__ == "__main__":
    main()
