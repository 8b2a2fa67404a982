"""Why the program refuses a file: the words of its error line, and in plain words what is wrong and where."""
from __future__ import annotations

import os
from typing import NamedTuple, Optional

FILE_LIMIT = 33_554_432


class Mistake(NamedTuple):
    """One mistake in a file. `code` is what stands between `E` and the name in the program's line; `line` is the line of a text, or
    0; `tail` is what stands behind the name."""
    code: str
    name: str
    why: str
    line: int = 0
    tail: str = ""

    def printed(self) -> str:
        """The line that the program prints for it."""
        return f"E {self.code} {self.name}{self.tail}"

    def said(self) -> str:
        place = f"{self.name}:{self.line}" if self.line else self.name
        return f"{place}: {self.why}"

    def status(self) -> int:
        return 2 if self.code == "read" else 1


class Refused(Exception):
    """A file that can't be used at all, so that nothing behind it is looked at."""

    def __init__(self, mistake: Mistake):
        super().__init__(mistake.why)
        self.mistake = mistake


def content_of(name: str, beside: Optional[str] = None) -> bytes:
    """The bytes of a file. Where it isn't there, but stands beside the file that names it, that is said."""
    try:
        with open(name, "rb") as file:
            content = file.read(FILE_LIMIT + 1)
    except (OSError, ValueError) as error:
        raise Refused(Mistake("read", name, unreadable(name, beside, error))) from None
    if len(content) > FILE_LIMIT:
        raise Refused(Mistake("12", name, f"it has more than {FILE_LIMIT:,} bytes"))
    return content


def another(name: str, beside: str) -> Optional[str]:
    """Another file of this name, beside the file that names it: not the one that is opened."""
    near = os.path.join(os.path.dirname(os.path.abspath(beside)), name)
    return near if os.path.isfile(near) and not os.path.samefile(near, name) else None


def unreadable(name: str, beside: Optional[str], error: Exception) -> str:
    """Why a file can't be read, and where a file of that name is."""
    reason = error.strerror if isinstance(error, OSError) and error.strerror else str(error)
    why = f"it can't be read from the folder {os.getcwd()}: {reason}"
    if not isinstance(error, FileNotFoundError):
        return why
    if name.strip() != name:
        return why + ". The name has a blank at its beginning or end"
    folder = os.path.dirname(os.path.abspath(beside)) if beside else ""
    while folder:
        near = os.path.join(folder, name)
        if os.path.isfile(near):
            return why + (f". Names are opened from the folder in which the program runs, and there is {near}: run the program in "
                          f"{folder}, or write the name as {os.path.relpath(near)}")
        folder = "" if folder == os.path.dirname(folder) else os.path.dirname(folder)
    return why
