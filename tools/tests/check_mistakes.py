#!/usr/bin/env python3
"""Makes each mistake, runs its tool, and asserts that the tool's output alone says what is wrong and where.
usage: check_mistakes.py PROGRAM"""
from __future__ import annotations

import os
import subprocess
import sys
import tempfile

from mistakes import MISTAKES, TOP, Mistake


def said(program: str, folder: str, mistake: Mistake) -> str:
    words = [word.replace("PROGRAM", program).replace("FOLDER", folder) for word in mistake.words]
    done = subprocess.run([sys.executable, os.path.join(TOP, "tools", words[0]), *words[1:]], cwd=os.path.join(folder, mistake.beside),
                          stdout=subprocess.PIPE, stderr=subprocess.STDOUT, check=False)
    return done.stdout.decode()


def check(program: str, folder: str, mistake: Mistake) -> None:
    for name, text in mistake.files.items():
        with open(os.path.join(folder, name), "w", encoding="utf-8") as file:
            file.write(text)
    mistake.build(folder)
    output = said(program, folder, mistake)
    for words in mistake.says:
        if words.replace("FOLDER", folder) not in output:
            sys.exit(f"tools: {mistake.name}: {mistake.words[0]} doesn't say '{words}' but\n{output}")
    print(f"tools: {mistake.words[0]} finds {mistake.name}")


def main() -> None:
    if len(sys.argv) != 2:
        sys.exit("usage: check_mistakes.py PROGRAM")
    program = os.path.abspath(sys.argv[1])
    with tempfile.TemporaryDirectory() as work:
        for number, mistake in enumerate(MISTAKES):
            folder = os.path.join(os.path.realpath(work), str(number))
            os.makedirs(folder)
            check(program, folder, mistake)


if __name__ == "__main__":
    main()
