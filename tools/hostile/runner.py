"""Runs of a program in a folder of a few files, many a second: what it wrote to standard output and what it ended with."""
from __future__ import annotations

import os
import signal
import sys
from typing import Dict, List, NamedTuple, NoReturn, Optional

SECONDS = 60
# With --wrong a check has a wrong rule, and has to fail: so that it is seen that it can.
WRONG = "--wrong" in sys.argv
if WRONG:
    sys.argv.remove("--wrong")


class Ended(NamedTuple):
    """A status from 0 on, or less than 0 for a signal's number, and the bytes of standard output."""
    status: int
    output: bytes


def fail(text: str) -> NoReturn:
    sys.exit(f"hostile: {text}")


class Folder:
    """The current folder, and the files in it, which are written anew where they changed."""

    def __init__(self, program: str):
        self.program = program
        self.places: Dict[bytes, int] = {}
        self.contents: Dict[bytes, bytes] = {}
        self.errors = os.open("errors", os.O_RDWR | os.O_CREAT | os.O_APPEND, 0o600)

    def hold(self, files: Dict[bytes, bytes]) -> None:
        for name in [name for name in self.places if name not in files]:
            os.unlink(name)
            os.close(self.places.pop(name))
            del self.contents[name]
        for name, content in files.items():
            if name not in self.places:
                self.places[name] = os.open(name, os.O_WRONLY | os.O_CREAT, 0o600)
            if self.contents.get(name) != content:
                os.pwrite(self.places[name], content, 0)
                os.ftruncate(self.places[name], len(content))
                self.contents[name] = content

    def run(self, words: List[bytes], environment: Optional[Dict[str, str]] = None) -> Ended:
        """Runs the program, which has a minute and writes nothing to standard error."""
        ours, theirs = os.pipe()
        actions = [(os.POSIX_SPAWN_DUP2, theirs, 1), (os.POSIX_SPAWN_DUP2, self.errors, 2), (os.POSIX_SPAWN_CLOSE, ours)]
        child = os.posix_spawn(self.program, [self.program, *words], environment or {}, file_actions=actions)
        os.close(theirs)
        signal.signal(signal.SIGALRM, lambda *_: os.kill(child, signal.SIGKILL))
        signal.alarm(SECONDS)
        parts = []
        while True:
            part = os.read(ours, 65_536)
            if not part:
                break
            parts.append(part)
        os.close(ours)
        _, code = os.waitpid(child, 0)
        signal.alarm(0)
        if os.fstat(self.errors).st_size:
            fail(f"{words} wrote to standard error: {os.pread(self.errors, 500, 0)!r}")
        return Ended(-os.WTERMSIG(code) if os.WIFSIGNALED(code) else os.WEXITSTATUS(code), b"".join(parts))
