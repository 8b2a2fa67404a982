#!/usr/bin/env python3
"""Tries each command that the pages of the examples and labs show, in a copy of the repository without what builds made: it has to end in
status 0, or in the one that its page names. What a lab's page lets check is what is given, so that has to be refused.

usage: try_commands.py PROGRAM"""
import os
import pathlib
import re
import shutil
import subprocess
import sys
import tempfile

TOP = pathlib.Path(__file__).resolve().parent.parent


def commands(page):
    """The indented lines that begin with a dollar sign, each with those behind it that it isn't whole without."""
    found = []
    for line in page.read_text(encoding="utf-8").splitlines():
        if line.startswith("    $ "):
            found.append(line[6:])
        elif found and not is_whole(found[-1]):
            found[-1] += "\n" + line.strip()
    return found


def is_whole(command):
    return not command.endswith(("|", "\\")) and len(re.findall(r"\bdo\b", command)) == len(re.findall(r"\bdone\b", command))


def wanted(command, page):
    if "lab.sh check" in command:
        return {1}
    named = {int(number) for number in re.findall(r"in status (\d)", page.read_text(encoding="utf-8"))}
    return {0} | (named if " run " in command else set())


def main():
    if len(sys.argv) != 2:
        sys.exit("usage: try_commands.py PROGRAM")
    program = os.path.realpath(sys.argv[1])
    pages = sorted((TOP / "examples").glob("*/README.md")) + sorted((TOP / "examples/labs").glob("*/README.md"))
    tried = 0
    with tempfile.TemporaryDirectory() as work:
        copy = pathlib.Path(work) / "copy"
        for name in ("examples", "tools", "docs"):
            shutil.copytree(TOP / name, copy / name, ignore=shutil.ignore_patterns("out", "__pycache__"))
        (copy / "crates/rtlinux_cli/out").mkdir(parents=True)
        (copy / "crates/rtlinux_cli/out/rtlinux_cli").symlink_to(program)
        for page in pages:
            shutil.rmtree(copy / "mine", ignore_errors=True)
            for command in commands(page):
                done = subprocess.run(["bash", "-c", command.replace("| less", "| cat")], cwd=copy, stdout=subprocess.PIPE, stderr=subprocess.STDOUT, check=False)
                if done.returncode not in wanted(command, page):
                    sys.exit(f"try_commands: a command of {page.relative_to(TOP)} ended in status {done.returncode}: {command}\n{done.stdout.decode()[-500:]}")
                tried += 1
    print(f"examples: {tried} commands of {len(pages)} pages end as the pages say")


if __name__ == "__main__":
    main()
