#!/usr/bin/env python3
"""Tells what the gate costs, and where.

  gate_cost.py whole [WORD ..]     runs `rt ci --anew`, or the command WORD .., at the top of the repository, and prints the processor time of each
                                   crate's proof, tests and edits. The command's own output goes to standard error
  gate_cost.py edits CRATE ..      tries each must-fail edit of these crates over what `rt check` kept, one after the other, and prints the
                                   processor time of each, and of the stage behind a refusal in which the prover looks for goals to print
  gate_cost.py functions CRATE ..  checks these crates from nothing, one job at a time, and prints the time of each function's proof,
                                   the longest first

Times are in seconds, and need a machine that does nothing else to be more than ratios. `edits` wants the libraries below the
crates as `rt check` leaves them.
"""
import collections
import importlib.machinery
import importlib.util
import os
import re
import resource
import shutil
import subprocess
import sys
import tempfile
import threading
import time

TOP = os.path.dirname(os.path.dirname(os.path.realpath(__file__)))
TICKS = os.sysconf("SC_CLK_TCK")


def load_rt():
    """Returns the command rt as a module, for the words with which it calls the prover."""
    path = os.path.realpath(shutil.which("rt") or sys.exit("gate_cost: no rt on the path"))
    loader = importlib.machinery.SourceFileLoader("rt_command", path)
    made = importlib.util.module_from_spec(importlib.util.spec_from_loader("rt_command", loader))
    loader.exec_module(made)
    return made


def crate_named(rt, name):
    os.chdir(TOP)
    rt.rtlib.Crate = rt.Crate
    found = [it for it in rt.rtlib.crates_below(TOP) if it.name == name]
    return found[0] if found else sys.exit(f"gate_cost: crates.txt names no crate {name}")


def processor_time(before):
    now = resource.getrusage(resource.RUSAGE_CHILDREN)
    return now.ru_utime + now.ru_stime - before.ru_utime - before.ru_stime


def stages(file):
    """Returns the seconds of each stage that the prover wrote to the file."""
    if not os.path.isfile(file):
        return {}
    with open(file) as it:
        return {word[1]: float(word[2]) for word in (line.split() for line in it) if len(word) == 4}


def try_edit(rt, crate, edit, room):
    """Tries one edit, and returns its times and the line in which it is refused."""
    texts, why = rt.read_edit(edit, crate.folder)
    if why:
        return 0.0, {}, f"BAD EDIT: {why}"
    for part in rt.rtlib.PARTS:
        if os.path.isdir(f"{crate.folder}/{part}"):
            shutil.copytree(f"{crate.folder}/{part}", f"{room}/{part}")
    for path, text in texts.items():
        with open(f"{room}/{path}", "w", encoding="utf-8") as it:
            it.write(text)
    shutil.copytree(f"{crate.folder}/out/incremental", f"{room}/kept")
    flags = ["--jobs", "1", "--stage-times", f"{room}/stages"]
    words = [rt.rtlib.RATTLE, "check", *crate.words(flags, keeps=False), "--incremental", f"{room}/kept"]
    before = resource.getrusage(resource.RUSAGE_CHILDREN)
    ran = subprocess.run(words, cwd=room, stdin=subprocess.DEVNULL, stdout=subprocess.PIPE, stderr=subprocess.STDOUT, errors="replace")
    lines = ran.stdout.rstrip("\n").split("\n")
    said = next((it for it in lines if re.match(r"\S+:\d+:\d+: error", it)), lines[-1])
    verdict = {0: "STILL PROVED", 1: "refused" if lines[-1].startswith("logic=not-proved") else "BAD EDIT"}.get(ran.returncode, f"status {ran.returncode}")
    return processor_time(before), stages(f"{room}/stages"), f"{verdict}: {said[:150]}"


def edits(names):
    rt = load_rt()
    for name in names:
        crate = crate_named(rt, name)
        if not os.path.isdir(f"{crate.folder}/out/incremental"):
            sys.exit(f"gate_cost: nothing is kept of {name}: run rt check in its folder first")
        for edit in rt.edits_of(crate)[0]:
            with tempfile.TemporaryDirectory(prefix="gate-cost-") as room:
                took, told, said = try_edit(rt, crate, edit, room)
            label = f"{name}/{os.path.basename(edit)[:-5]}"
            print(f"{took:6.1f} s, {told.get('offers', 0):5.1f} of them behind the refusal: {label}: {said}", flush=True)


def functions(names):
    rt = load_rt()
    for name in names:
        crate = crate_named(rt, name)
        words = [rt.rtlib.RATTLE, "check", *crate.words(["--jobs", "1", "--progress"], keeps=False)]
        with tempfile.TemporaryDirectory(prefix="gate-cost-") as room:
            how = {"cwd": crate.folder, "stdin": subprocess.DEVNULL, "stdout": subprocess.PIPE, "stderr": subprocess.STDOUT, "errors": "replace"}
            started = last = time.monotonic()
            found = []
            with subprocess.Popen([*words, "--incremental", room], **how) as ran:
                for line in ran.stdout:
                    now = time.monotonic()
                    checked = re.match(r"checked (\S+), \d+ of \d+", line)
                    if checked:
                        found.append((now - last, checked[1]))
                    last = now
        print(f"{name}: {last - started:.1f} s in all")
        for took, of in sorted(found, reverse=True)[:12]:
            print(f"{took:6.1f} s  {of}", flush=True)


def kind_of(words, folder):
    """Returns the crate that a process of the prover checks, and whether for its proof, its tests or an edit."""
    if "--crate-name" not in words:
        return None
    name = words[words.index("--crate-name") + 1]
    if "/rt-edit" in folder:
        return name, "edits"
    return name, "tests" if "--test" in words else "proof"


def processes():
    """Gives, for each process, its number, the time that it and its ended children took, its words and its folder."""
    for number in filter(str.isdigit, os.listdir("/proc")):
        try:
            with open(f"/proc/{number}/stat") as it:
                fields = it.read().rpartition(")")[2].split()
            with open(f"/proc/{number}/cmdline") as it:
                words = it.read().split("\0")
            folder = os.readlink(f"/proc/{number}/cwd")
        except OSError:
            continue
        yield (number, fields[19]), sum(map(int, fields[11:13])) / TICKS, words, folder


def whole(words):
    words = words or ["rt", "ci", "--anew"]
    seen, ended = {}, threading.Event()

    def look():
        while not ended.is_set():
            for number, took, said, folder in processes():
                kind = kind_of(said, folder)
                if kind:
                    seen[number] = kind, took
            ended.wait(0.1)

    before, started = resource.getrusage(resource.RUSAGE_CHILDREN), time.monotonic()
    looking = threading.Thread(target=look)
    looking.start()
    try:
        status = subprocess.run(words, cwd=TOP, stdout=sys.stderr).returncode
    finally:
        ended.set()
        looking.join()
    took, all_of_it = time.monotonic() - started, processor_time(before)
    by_kind, by_crate = collections.Counter(), collections.defaultdict(collections.Counter)
    for (name, kind), seconds in seen.values():
        by_kind[kind] += seconds
        by_crate[name][kind] += seconds
    print(f"{took / 60:.1f} minutes, {all_of_it / 60:.1f} of processor time, status {status}")
    print(", ".join(f"{kind} {by_kind[kind] / 60:.1f}" for kind in ("proof", "tests", "edits")))
    print("| crate | proof, seconds | tests, seconds | edits, seconds | of the whole, % |\n|---|---|---|---|---|")
    for name, its in sorted(by_crate.items(), key=lambda it: -sum(it[1].values())):
        share = 100 * sum(its.values()) / all_of_it
        print(f"| `{name}` | {its['proof']:.0f} | {its['tests']:.0f} | {its['edits']:.0f} | {share:.1f} |")
    return status


def main(words):
    calls = {"whole": whole, "edits": edits, "functions": functions}
    if not words or words[0] not in calls or words[0] != "whole" and len(words) < 2:
        print(__doc__, end="", file=sys.stderr)
        return 2
    return calls[words[0]](words[1:]) or 0


if __name__ == "__main__":
    sys.exit(main(sys.argv[1:]))
