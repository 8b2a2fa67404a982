#!/usr/bin/env python3
"""Tries annotate, steps and script_recipes on the examples' traces and on one of a real-time side, with what these say by themselves, and asks
each tool for its help and its errors.
usage: check_traces.py PROGRAM"""
from __future__ import annotations

import os
import re
import shutil
import struct
import subprocess
import sys
import tempfile
import xml.etree.ElementTree

from common_test import REAL_TIME, TOP, equal, fail, has, passed, tool, traces

TOOLS = ["explain", "steps", "annotate", "schedule_picture", "trace_vcd", "response_times", "script_recipes"]
READERS = ["annotate", "schedule_picture", "trace_vcd", "response_times"]
HARDWARE = "examples/timer/expected"
SVG = "{http://www.w3.org/2000/svg}"


def check_help() -> None:
    for name in TOOLS:
        has(tool(name, "--help"), "examples:\n", f"{name} --help")
    passed("each tool has its --help")


def check_annotations() -> None:
    """Each line of a trace is there, in order, beside what is known of it."""
    for trace in traces():
        output = tool("annotate", trace)
        with open(trace, encoding="utf-8") as file:
            if [line for line in output.splitlines() if not line.startswith("    -> ")] != file.read().splitlines():
                fail(f"annotate changes the lines of {trace}")
    output = tool("annotate", REAL_TIME)
    for wanted in ("    -> init 0: pthread_make_periodic(thread 0, start 20, period 30) = 0",
                   "R 24 gate 7 00000000 00000000 00000000 00000000 0\n    -> thread 0: pthread_wait() = 0\n    -> it waits until 50",
                   "irq 7: pthread_wait() = EINVAL (-22)",
                   "R 27 fault thread 1 divide\n    -> a division by 0, or a quotient that doesn't fit; it is deleted\n"
                   "    -> its last gate was print(place 00012000, count 2) = 0, in 18",
                   "R 52 release 0\n    -> 2 ticks late: its due was 50, and an init, a handler or a thread without interrupts was on"):
        has(output, wanted, "annotate")
    passed(f"annotate keeps the lines of {len(traces())} traces")


def faulting(folder: str, guest: str) -> str:
    """A system file with a module whose init, at 11000h, makes a thread at 11020h; the thread divides by EAX, which is 0, its argument."""
    def gate(function: int, *registers: int) -> bytes:
        # MOV of EBX, ECX, EDX, ESI and EAX, and INT F8h.
        return b"".join(bytes([opcode]) + struct.pack("<I", value) for opcode, value in zip((0xbb, 0xb9, 0xba, 0xbe), registers)) \
            + b"\xb8" + struct.pack("<I", function) + b"\xcd\xf8"
    code = (gate(2, 0x11020, 10, 0x12000, 0) + b"\xc3").ljust(0x20, b"\x90") + b"\xf7\xf0"
    header = struct.pack("<16sHHIIIIIHHHHHH", b"\x7fELF\1\1\1", 2, 3, 1, 0x11000, 52, 0, 0, 52, 32, 1, 0, 0, 0)
    with open(f"{folder}/fault.elf", "wb") as file:
        file.write(header + struct.pack("<8I", 1, 84, 0x11000, 0, len(code), 0x1000, 7, 1) + code)
    with open(f"{folder}/fault.toml", "w", encoding="utf-8") as file:
        file.write(f'version = 1\nimage = "{guest}"\nguest_memory = 65536\nreal_time_memory = 65536\nmodules = ["{folder}/fault.elf"]\n')
    return f"{folder}/fault.toml"


def check_modules(program: str, folder: str) -> None:
    """Names of a module stand beside gates and faults, and a run with a fault, whose status is 4, is read as any other."""
    system = faulting(folder, "examples/first_steps/image.elf")
    run = ("--run", program, "--system", system, "--ticks", "60")
    has(tool("annotate", *run), "R 9 fault thread 0 divide\n    -> a division by 0, or a quotient that doesn't fit; it is deleted\n"
        "    -> it had no gate before, and was on from 9 on", "annotate")
    has(tool("response_times", *run), "\n     0     6        10       -         0      0        -     -       0        0     0           0\n",
        "response_times")
    has(tool("steps", program, system, "5", "10"), "(thread 0 is on)\n         R 9 on thread 0\n         R 9 fault thread 0 divide", "steps")
    has(tool("steps", program, system, "--until-eip", "1009", "--before", "1"), "      11 00001009", "steps --until-eip")
    if shutil.which("nm") and shutil.which("addr2line"):
        output = tool("annotate", "examples/threads/expected", "--system", "examples/threads/system.toml")
        created = re.search(r"    -> init 0 \(init\w*\): pthread_create\(entry (\w{8}) (\w+), priority \d+, stack top \w{8} \w+_stack, "
                            r"argument \w{8}\) = 0\n    -> entry (\w+) examples/threads/threads.c:\d+\n", output)
        if not created or created.group(2) != created.group(3):
            fail(f"annotate doesn't name the first thread of threads, its entry and its stack, but says\n{output[:600]}")
        names = subprocess.run(["nm", "examples/threads/module.symbols"], stdout=subprocess.PIPE, check=True).stdout.decode().splitlines()
        equal("the place of that entry", [line.split()[0] for line in names if line.split()[2] == created.group(2)], [created.group(1)])
        has(output, f"    -> thread 0 ({created.group(2)}): pthread_wait() = 0", "annotate")
        has(output, "awake_text, count 5) = 0", "annotate")
        has(tool("response_times", "examples/threads/expected", "--module", "examples/threads/module.symbols"), f"  {created.group(2)}\n",
            "response_times")
    passed("modules have their names beside gates and faults, and a run with a fault is read")


def check_hardware(program: str) -> None:
    """Lines of the hardware are shown by each tool that reads traces, and asked for by --hardware."""
    output = tool("annotate", HARDWARE)
    has(output, "H 50 set 399\n    -> line 0 rises in tick 250", "annotate")
    has(output, "H 12620 set 65535\n    -> line 0 rises in tick 45388", "annotate")
    has(output, "H 250 edge 0\n    -> the timer", "annotate")
    rows = {row.text for row in xml.etree.ElementTree.fromstring(tool("schedule_picture", HARDWARE)).iter(f"{SVG}text")}
    if not {"edge 0", "ack 0", "set"} <= rows:
        fail(f"the picture of {HARDWARE} has no rows for the hardware")
    system = "examples/timer/system.toml"
    run = ("--run", program, "--system", system, "--ticks", "300")
    has(tool("annotate", *run, "--hardware"), "H 250 ack 0", "annotate --hardware")
    if any(line.startswith("H ") for line in tool("annotate", *run).splitlines()):
        fail("annotate shows the hardware's lines where they aren't asked for")
    has(tool("steps", program, system, "250", "250", "--hardware"), "         H 250 set 399\n         G 250 enter 32", "steps --hardware")
    for name, words in (("annotate", ("--run", program, "--flat", "examples/first.bin", "--ticks", "5", "--hardware")),
                        ("steps", (program, "examples/first.bin", "1", "2", "--flat", "--hardware"))):
        has(tool(name, *words, status=2), "a flat image has no --hardware", name)
    passed("the hardware's lines are read, and shown where they are asked for")


def check_steps(program: str) -> None:
    """By the README of first_steps: the first write is instruction 13, and its byte leaves in tick 46; main is called in tick 1."""
    system = "examples/first_steps/system.toml"
    output = tool("steps", program, system, "12", "14")
    has(output, "      13 00001025", "steps")
    has(tool("steps", program, system, "--until", "com1 48", "--before", "2"), "      46 ", "steps --until")
    has(tool("steps", program, system, "--until", "com1 48", "--before", "2"), "G 46 com1 48", "steps --until")
    has(tool("steps", program, system, "--until-eip", "1009"), "       2 00001009", "steps --until-eip")
    if shutil.which("nm") and shutil.which("addr2line") and shutil.which("objdump"):
        has(output, "main+1ch examples/runtime/ports.h:12", "steps")
        has(output, "out %al,(%dx)", "steps")
        has(tool("steps", program, system, "--until-eip", "main"), "       2 00001009 main", "steps --until-eip")
    passed("steps shows first_steps as its page does")


def check_recipes(program: str, folder: str) -> None:
    """Recipes make scripts that the program takes."""
    made = {"clock": ["clock", "8", "100", "--count", "3"], "text": ["text", "com1", "hi\\n", "--first", "150"],
            "random": ["random", "5", "9", "--seed", "7", "--count", "40", "--first", "100", "--last", "900"]}
    for name, words in made.items():
        with open(f"{folder}/{name}", "w", encoding="utf-8") as file:
            file.write(tool("script_recipes", *words))
    if tool("script_recipes", *made["clock"]) != "100 line 8\n200 line 8\n300 line 8\n":
        fail("the clock's script is another")
    if tool("script_recipes", *made["text"]) != "150 com1 68\n190 com1 69\n230 com1 0a\n":
        fail("the text's script is another")
    if tool("script_recipes", *made["random"]) != tool("script_recipes", *made["random"]):
        fail("the same seed gives two scripts")
    joined = tool("script_recipes", "join", *(f"{folder}/{name}" for name in made))
    if len(joined.splitlines()) != 3 + 3 + 40:
        fail("join loses events")
    with open(f"{folder}/script", "w", encoding="utf-8") as file:
        file.write(joined)
    with open(f"{folder}/system.toml", "w", encoding="utf-8") as file:
        file.write('version = 1\nimage = "examples/first_steps/image.elf"\nguest_memory = 65536\nreal_time_memory = 65536\n'
                   f'script = "{folder}/script"\n')
    if subprocess.run([program, "run", f"{folder}/system.toml", "--ticks", "5"], stdout=subprocess.DEVNULL, check=False).returncode:
        fail("the program refuses the joined script")
    has(tool("explain", f"{folder}/system.toml"), "46 events", "explain")
    passed("the recipes make scripts that the program takes")


def check_errors(program: str) -> None:
    """What can't be read is said in a line, with status 2."""
    for name in READERS:
        has(tool(name, "absent.trace", status=2), "absent.trace: No such file", name)
        has(tool(name, "examples", status=2), "examples: Is a directory", name)
        for broken in (b"G 2 halts", b"R 2 gate 7 00000000", b"R 2 release", b"R 2 release " + b"9" * 5000, b"R 2 on thread", b"", b"G  2 halt", b"G -2 halt",
                       b"H 2 set \xff", b"R 2 fault guest divide zero", b"X 2 halt", b"G 99999999999 halt"):
            said = tool(name, status=2, stdin=b"G 1 halt\n" + broken + b"\nG 3 halt\n")
            has(said, f"{name}.py: line 2: this is no line of a trace: '{broken[:80].decode('ascii', 'ignore')}", name)
            equal(f"the lines that {name} says", len(said.splitlines()), 1)
        has(tool(name, status=2, stdin=b"G 2 halt\nG 1 halt\n"), "line 2: tick 1 stands behind tick 2", name)
        has(tool(name, status=2, stdin=b"E 21 image.elf\n"), "the program refused its words or its files", name)
        has(tool(name, "--run", program, "--system", "absent.toml", "--ticks", "5", status=2), "E read absent.toml", name)
        has(tool(name, "--run", program, "--ticks", "5", status=2), "give --system SYSTEM or --flat IMAGE", name)
    for name in ("schedule_picture", "trace_vcd"):
        has(tool(name, HARDWARE, "-o", "absent/file.svg", status=2), "absent/file.svg: No such file", name)
    system = "examples/first_steps/system.toml"
    for words, said in ((["5"], "give FROM and TO"), (["5", "4"], "5 to 4 are no ticks"), (["--until", "breach", "--ticks", "50"], "no line"),
                        (["--until-eip", "nowhere"], "'nowhere' is no name"), (["--until-eip", "2000", "--ticks", "50"], "isn't performed")):
        has(tool("steps", program, system, *words, status=2), said, "steps")
    has(tool("steps", program, "absent.toml", "1", "2", status=2), "E read absent.toml", "steps")
    has(tool("explain", "absent.toml", status=2), "E read absent.toml", "explain")
    has(tool("script_recipes", "clock", "4", "100", status=2), "4 is no line of a script", "script_recipes")
    has(tool("script_recipes", "join", "absent", status=2), "absent: it can't be read", "script_recipes")
    has(tool("schedule_picture", HARDWARE, "-o", "picture.jpg", status=2), "FILE.svg or FILE.png", "schedule_picture")
    has(tool("schedule_picture", HARDWARE, "--rows", "threads", status=2), "no rows of the kinds threads, but guest, edge", "schedule_picture")
    has(tool("schedule_picture", HARDWARE, "--width", "100", status=2), "100 isn't 600 to 8000", "schedule_picture")
    has(tool("schedule_picture", HARDWARE, "--from", "90001", status=2), "nothing in the ticks 90001 to 90000", "schedule_picture")
    passed("each tool says in words what it can't read")


def main() -> None:
    if len(sys.argv) != 2:
        sys.exit("usage: check_traces.py PROGRAM")
    program = os.path.abspath(sys.argv[1])
    os.chdir(TOP)
    with tempfile.TemporaryDirectory() as folder:
        check_help()
        check_annotations()
        check_modules(program, folder)
        check_hardware(program)
        check_steps(program)
        check_recipes(program, folder)
        check_errors(program)


if __name__ == "__main__":
    main()
