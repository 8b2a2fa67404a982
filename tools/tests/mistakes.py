"""Guests and files with a mistake each, made on purpose, and what the output of a tool has to say of it."""
from __future__ import annotations

import os
import shutil
import subprocess
from typing import Callable, Dict, List, NamedTuple

TOP = os.path.realpath(os.path.join(os.path.dirname(__file__), "..", ".."))
SYSTEM = 'version = 1\nimage = "image.elf"\nguest_memory = 65536\nreal_time_memory = 65536\n'
WITH_SCRIPT = SYSTEM + 'script = "script"\n'
SMALL = "int main(void) {\n    return 0;\n}\n"
LINE_FIVE = "100 line 5\n200 line 5\n"
GCC = ["gcc", "-m32", "-march=i386", "-O1", "-g1", "-std=c99", "-ffreestanding", "-fno-pic", "-fno-stack-protector", "-fcf-protection=none",
       "-fno-asynchronous-unwind-tables", "-I", os.path.join(TOP, "examples", "runtime"), "-c", "guest.c", "-o"]


class Mistake(NamedTuple):
    """A mistake: its files by name, how its image is made in their folder, the words of the tool, and what the tool has to say. In the
    words PROGRAM stands for the program. `beside` is the folder in which the tool runs, from that of the files."""
    name: str
    files: Dict[str, str]
    build: Callable[[str], None]
    words: List[str]
    says: List[str]
    beside: str = "."


def built(folder: str) -> None:
    """An image by the repository's own way."""
    make([os.path.join(TOP, "examples", "build.sh"), folder], folder)


def built_twice(folder: str) -> None:
    """The image, and a copy of it in a folder below."""
    built(folder)
    os.mkdir(os.path.join(folder, "below"))
    shutil.copy(os.path.join(folder, "image.elf"), os.path.join(folder, "below"))


def object_file(folder: str) -> None:
    make(GCC + ["image.elf"], folder)


def linked(*words: str) -> Callable[[str], None]:
    """An image by ld alone, with these words, from the runtime's start and the guest."""
    def build(folder: str) -> None:
        make(GCC + ["guest.o"], folder)
        make(["gcc", "-m32", "-I", os.path.join(TOP, "examples", "runtime"), "-c", os.path.join(TOP, "examples", "runtime", "start.S"),
              "-o", "start.o"], folder)
        make(["ld", "-m", "elf_i386", "--no-warn-rwx-segments", *words, "start.o", "guest.o", "-o", "image.elf"], folder)
    return build


def make(words: List[str], folder: str) -> None:
    done = subprocess.run(words, cwd=folder, stdout=subprocess.PIPE, stderr=subprocess.STDOUT, check=False)
    if done.returncode:
        raise SystemExit(f"tools: {' '.join(words)}: {done.stdout.decode()}")


def guest(body: str, before: str = "") -> str:
    return f'#include "guest.h"\n{before}int main(void) {{\n{body}    return 0;\n}}\n'


def annotated(ticks: int) -> List[str]:
    return ["annotate.py", "--run", "PROGRAM", "--system", "system.toml", "--ticks", str(ticks)]


EXPLAINED = ["explain.py", "system.toml"]
MISTAKES = [
    Mistake("a size that is no multiple of 4,096", {"system.toml": SYSTEM.replace("65536\nreal", "70000\nreal"), "guest.c": SMALL}, built,
            EXPLAINED, ["E 11 system.toml", "system.toml:3: `guest_memory` is 70,000", "69,632 and 73,728 are"]),
    Mistake("a name of a field that is misspelled", {"system.toml": SYSTEM.replace("real_time", "realtime"), "guest.c": SMALL}, built,
            EXPLAINED, ["E 11 system.toml", "system.toml:4: there is no field `realtime_memory`; `real_time_memory` is one"]),
    Mistake("names that are opened from another folder", {"system.toml": SYSTEM, "guest.c": SMALL}, built,
            ["explain.py", "FOLDER/system.toml"], ["E read image.elf", "there is FOLDER/image.elf: run the program in FOLDER"], ".."),
    Mistake("an image that is opened from another folder", {"system.toml": SYSTEM, "guest.c": SMALL}, built_twice,
            ["explain.py", "FOLDER/system.toml"], ["opened from the folder FOLDER/below; FOLDER/image.elf", "is another"], "below"),
    Mistake("a tab in a script", {"system.toml": WITH_SCRIPT, "script": "# rises\n100 line 5\n200\tline 5\n", "guest.c": SMALL}, built,
            EXPLAINED, ["E 30 script 3", "script:3: a tab; the parts stand apart by spaces"]),
    Mistake("a script that isn't sorted", {"system.toml": WITH_SCRIPT, "script": "200 line 5\n100 line 5\n", "guest.c": SMALL}, built,
            EXPLAINED, ["E 30 script 2", "script:2: tick 100 stands behind tick 200"]),
    Mistake("an image at ld's usual place", {"system.toml": SYSTEM, "guest.c": SMALL}, linked(),
            EXPLAINED, ["E 21 image.elf", "8048000h is where ld puts a program of Linux"]),
    Mistake("a position-independent image", {"system.toml": SYSTEM, "guest.c": SMALL}, linked("-pie", "--no-dynamic-linker"),
            EXPLAINED, ["E 20.4 image.elf", "position-independent, gcc's default"]),
    Mistake("an object file", {"system.toml": SYSTEM, "guest.c": SMALL}, object_file,
            EXPLAINED, ["E 20.4 image.elf", "an object file, which isn't linked yet"]),
    Mistake("a line without a handler",
            {"system.toml": WITH_SCRIPT, "script": LINE_FIVE,
             "guest.c": guest("    load_handlers();\n    set_mask(0);\n    for (;;) {\n        sti_and_hlt();\n    }\n")}, built,
            annotated(300), ["shutdown 37", "line 5", "set_handler(VECTOR_OF_LINE(5), ..)"]),
    Mistake("a division by 0",
            {"system.toml": SYSTEM, "guest.c": guest("    ten = ten / zero;\n", "static volatile int ten = 10, zero;\n")}, built,
            annotated(300), ["shutdown 0", "the divide error", "main+", "guest.c:4"]),
    Mistake("the instruction cli", {"system.toml": SYSTEM, "guest.c": guest('    __asm__ volatile("cli");\n')}, built,
            annotated(300), ["breach cli", "guest.c:3", "the gate INT F0h: cli()"]),
    Mistake("an end of interrupt that nobody awaits", {"system.toml": SYSTEM, "guest.c": guest("    outb(0x20, 0x20);\n")}, built,
            annotated(300), ["breach port 0020", "ports.h:", "the interrupt controllers", "no end of interrupt is written"]),
    Mistake("an index past the end",
            {"system.toml": SYSTEM, "guest.c": guest("    for (volatile int i = 0;; i++) {\n        many[i] = i;\n    }\n",
                                                     "static volatile int many[15000];\n")}, built,
            annotated(200_000), ["breach store 00010000", "main+", "guest.c:5", "shortly behind it"]),
    Mistake("a call of a null pointer",
            {"system.toml": SYSTEM, "guest.c": guest("    handle();\n", "static void (*volatile handle)(void);\n")}, built,
            ["steps.py", "PROGRAM", "system.toml", "--until-eip", "0", "--before", "3"], ["call *%eax", "main", "guest.c:4"]),
    Mistake("floating point",
            {"system.toml": SYSTEM, "guest.c": guest("    half = half * 3;\n", "static volatile double half = 0.5;\n")},
            linked("-T", os.path.join(TOP, "examples", "runtime", "image.ld")),
            annotated(300), ["shutdown 6", "guest.c:4", "of the coprocessor", "there is no floating point"]),
    Mistake("a halt with the flag clear",
            {"system.toml": WITH_SCRIPT, "script": LINE_FIVE,
             "guest.c": guest("    set_mask(0);\n    for (;;) {\n        hlt();\n    }\n")}, built,
            annotated(300), ["end halted", "halted with its flag clear, so no line wakes it"]),
    Mistake("a mask that is forgotten",
            {"system.toml": WITH_SCRIPT, "script": LINE_FIVE, "guest.c": guest("    for (;;) {\n        sti_and_hlt();\n    }\n")}, built,
            annotated(300), ["end halted", "no line was entered: look at its mask"]),
]
