"""How a tool begins and ends: its arguments, its errors, and an output that nobody reads any more."""
from __future__ import annotations

import argparse
import os
import sys
from typing import Callable, NoReturn


def fail(message: str) -> NoReturn:
    """Ends the tool with status 2 and a line on standard error."""
    print(f"{os.path.basename(sys.argv[0])}: {message}", file=sys.stderr)
    sys.exit(2)


def parser(description: str, epilog: str = "") -> argparse.ArgumentParser:
    """A parser whose help shows the description as it is written."""
    return argparse.ArgumentParser(description=description, epilog=epilog,
                                   formatter_class=argparse.RawDescriptionHelpFormatter)


def positive(text: str) -> int:
    """The type of an argument that is a number from 1 on."""
    number = int(text)
    if number < 1:
        raise argparse.ArgumentTypeError(f"{text} isn't 1 or more")
    return number


def write(name: str, text: str) -> None:
    """Writes a file; one that can't be written ends the tool."""
    try:
        with open(name, "w", encoding="utf-8", newline="\n") as file:
            file.write(text)
    except OSError as error:
        fail(f"{name}: {error.strerror}")


def run(main: Callable[[], int]) -> NoReturn:
    """Calls a tool's main, whose answer is the status. A reader that has closed the pipe is no error."""
    sys.stdout.reconfigure(errors="backslashreplace")
    try:
        status = main()
        sys.stdout.flush()
    except BrokenPipeError:
        os.dup2(os.open(os.devnull, os.O_WRONLY), sys.stdout.fileno())
        status = 0
    except KeyboardInterrupt:
        status = 130
    sys.exit(status)
