#!/usr/bin/env python3
"""What a real machine does to a program: an output that is full, closed, left by its reader or past a file's limit, names that are folders, pipes,
devices or locked, and little memory. Each run has to end with the status and the line of docs/FORMATS.md, or by the signal that it names, and
none may hang.

usage: real_machine.py PROGRAM"""
from __future__ import annotations

import os
import resource
import shutil
import signal
import socket
import stat
import subprocess
import sys
import tempfile
import threading
from typing import Callable, Dict, List, Optional, Tuple

import damage
import systems
from runner import WRONG, Ended, fail

SECONDS = 60
NOBODY = 65_534
NAMES = (damage.SYSTEM, damage.IMAGE, damage.MODULE, damage.SECOND, damage.SCRIPT)
SMALL = systems.run_words(damage.TICKS)
PROBLEM = Ended(2 + WRONG, b"")


def write_files(files: Dict[bytes, bytes]) -> None:
    for name, content in files.items():
        with open(name, "wb") as file:
            file.write(content)


def ended(program: str, words: List[bytes], output, before: Optional[Callable[[], None]] = None, keep_signals: bool = False) -> int:
    """The status of a run with this standard output, which writes nothing to standard error."""
    with tempfile.TemporaryFile() as errors:
        child = subprocess.Popen([program, *words], stdin=subprocess.DEVNULL, stdout=output, stderr=errors, preexec_fn=before, env={},
                                 restore_signals=not keep_signals)
        try:
            status = child.wait(SECONDS)
        except subprocess.TimeoutExpired:
            child.kill()
            child.wait()
            fail(f"{words} hangs")
        errors.seek(0)
        said = errors.read()
    if said:
        fail(f"{words} wrote to standard error: {said!r}")
    return status


def whole(program: str, words: List[bytes], before: Optional[Callable[[], None]] = None) -> Ended:
    """A run whose output goes to a file."""
    with tempfile.TemporaryFile() as output:
        status = ended(program, words, output, before)
        output.seek(0)
        return Ended(status, output.read())


def wanted(what: str, found: Ended, *answers: Ended) -> None:
    if found not in answers:
        short = Ended(found.status, found.output[:200])
        fail(f"{what}: {short}, and not {' or '.join(str(answer) for answer in answers)[:400]}")


def begins(what: str, found: Ended, status: int, full: bytes) -> None:
    """A first part of the output, and not all of it."""
    if found.status != status or not full.startswith(found.output) or len(found.output) >= len(full):
        fail(f"{what}: status {found.status} and {len(found.output)} bytes, and not status {status} and a first part of {len(full)}")


# Outputs.

def outputs(program: str, long: systems.Run) -> None:
    full = long.expected.output
    refusals = [SMALL, [b"flat", b"k.bin", b"5"], [b"flat", b"none", b"5"], [b"fly"], []]
    if os.path.exists("/dev/full"):
        for words in refusals:
            with open("/dev/full", "wb") as output:
                wanted(f"{words} into a full device", Ended(ended(program, words, output), b""), PROBLEM)
    else:
        print("hostile: skipped, no /dev/full: a full output")
    for words in refusals:
        for closed in ((1,), (0, 1), (0, 1, 2)):
            found = ended(program, words, subprocess.DEVNULL, lambda: [os.close(one) for one in closed] and None)
            wanted(f"{words} with {closed} closed", Ended(found, b""), PROBLEM)
        with open(os.devnull, "rb") as output:
            wanted(f"{words} into an output that is open for reading alone", Ended(ended(program, words, output), b""), PROBLEM)
        for keep in (False, True):
            ours, theirs = os.pipe()
            os.close(ours)
            wanted(f"{words} into a pipe without a reader", Ended(ended(program, words, theirs, None, keep), b""), PROBLEM)
            os.close(theirs)
    begins("a pipe whose reader leaves", left_pipe(program, long.words, 100), 2, full)
    begins("a pipe whose reader leaves in the midst of a line", left_pipe(program, long.words, 100_001), 2, full)
    begins("a socket whose reader leaves", left_socket(program, long.words), 2, full)
    begins("a full pipe that doesn't wait", stuck_pipe(program, long.words), 2, full)
    for number in (signal.SIGTERM, signal.SIGINT, signal.SIGKILL):
        found = ended_by(program, long.words, number)
        begins(f"a run that {number.name} ends", found, -number, full)
        if not found.output.endswith(b"\n"):
            fail(f"a run that {number.name} ends leaves a part of a line: {found.output[-40:]!r}")


def left_pipe(program: str, words: List[bytes], count: int) -> Ended:
    ours, theirs = os.pipe()
    got: List[bytes] = []

    def read() -> None:
        while sum(map(len, got)) < count:
            got.append(os.read(ours, min(4096, count - sum(map(len, got)))))
        os.close(ours)

    reader = threading.Thread(target=read)
    reader.start()
    status = ended(program, words, theirs)
    os.close(theirs)
    reader.join()
    return Ended(status, b"".join(got))


def left_socket(program: str, words: List[bytes]) -> Ended:
    ours, theirs = socket.socketpair()
    got = []

    def read() -> None:
        got.append(ours.recv(100))
        ours.close()

    reader = threading.Thread(target=read)
    reader.start()
    status = ended(program, words, theirs.fileno())
    theirs.close()
    reader.join()
    return Ended(status, b"".join(got))


def stuck_pipe(program: str, words: List[bytes]) -> Ended:
    ours, theirs = os.pipe()
    os.set_blocking(theirs, False)
    status = ended(program, words, theirs)
    os.close(theirs)
    with open(ours, "rb") as pipe:
        return Ended(status, pipe.read())


def ended_by(program: str, words: List[bytes], number: signal.Signals) -> Ended:
    """A run that waits for a pipe to be read, and is ended by a signal then."""
    child = subprocess.Popen([program, *words], stdin=subprocess.DEVNULL, stdout=subprocess.PIPE, env={})
    some = os.read(child.stdout.fileno(), 1000)
    child.send_signal(number)
    rest = child.stdout.read()
    child.stdout.close()
    return Ended(child.wait(), some + rest)


def past_limit(program: str, long: systems.Run) -> None:
    """An output file past the host's limit: the signal SIGXFSZ ends the program, and where that is ignored the status is 2."""
    for limit in (0, 1, 13, 5000):
        for ignored in (False, True):
            def before(limit: int = limit, ignored: bool = ignored) -> None:
                signal.signal(signal.SIGXFSZ, signal.SIG_IGN if ignored else signal.SIG_DFL)
                resource.setrlimit(resource.RLIMIT_CORE, (0, 0))
                resource.setrlimit(resource.RLIMIT_FSIZE, (limit, limit))
            with open("output", "wb+") as output:
                status = ended(program, long.words, output, before, True)
                output.seek(0)
                found = Ended(status, output.read())
            wanted(f"an output past {limit} bytes, signal {'ignored' if ignored else 'as usual'}", found,
                   Ended(2 if ignored else -signal.SIGXFSZ, long.expected.output[:limit]))
    os.unlink("output")


# Names.

def spoiled(program: str, how: str, spoil: Callable[[bytes], None], files: Dict[bytes, bytes], before: Optional[Callable[[], None]] = None) -> None:
    """Each file of a run in turn is what can't be read."""
    for name in NAMES:
        if os.path.lexists(name):
            os.unlink(name)
        spoil(name)
        wanted(f"{name.decode()} is {how}", whole(program, SMALL, before), Ended(2, b"E read " + name + b"\n"))
        if os.path.isdir(name) and not os.path.islink(name):
            os.rmdir(name)
        else:
            os.unlink(name)
        write_files({name: files[name]})


def bind(name: bytes) -> None:
    with socket.socket(socket.AF_UNIX) as end:
        end.bind(name)


def lock(name: bytes) -> None:
    write_files({name: damage.WITH_ALL[name]})
    os.chmod(name, 0)


def names(program: str) -> None:
    files = damage.WITH_ALL
    write_files(files)
    spoiled(program, "a folder", os.mkdir, files)
    spoiled(program, "a socket", bind, files)
    spoiled(program, "a link to itself", lambda name: os.symlink(name, name), files)
    spoiled(program, "a link to nothing", lambda name: os.symlink(b"nothing", name), files)
    if os.path.exists("/proc/self/mem"):
        spoiled(program, "a file whose bytes can't be read", lambda name: os.symlink("/proc/self/mem", name), files)
    as_nobody = (lambda: (os.setgid(NOBODY), os.setuid(NOBODY)) and None) if os.getuid() == 0 else None
    for name in NAMES:
        os.chmod(name, 0o644)
    os.chmod(".", 0o755)
    spoiled_locked(program, files, as_nobody)
    for name in NAMES:
        changed = {**files, damage.SYSTEM: files[damage.SYSTEM].replace(name, name + b"/x")}
        if changed != files:
            write_files(changed)
            wanted(f"{name.decode()}/x, where that is a file", whole(program, SMALL), Ended(2, b"E read " + name + b"/x\n"))
    write_files(files)


def spoiled_locked(program: str, files: Dict[bytes, bytes], as_nobody: Optional[Callable[[], None]]) -> None:
    for name in NAMES:
        os.chmod(name, 0)
        wanted(f"{name.decode()} is a file without permission", whole(program, SMALL, as_nobody), Ended(2, b"E read " + name + b"\n"))
        os.chmod(name, 0o644)
    wanted("the same files with permission", whole(program, SMALL, as_nobody), plain(files))


def plain(files: Dict[bytes, bytes]) -> Ended:
    return Ended(*systems.of_oracle("", files, damage.TICKS).expected[:2])


def pipes(program: str) -> None:
    """Named pipes in place of files: their bytes are read until the writer closes, however they come. One without an end is larger than a file
    may be."""
    files = damage.WITH_ALL
    for name in NAMES:
        for content in (files[name], b""):
            write_files(files)
            os.unlink(name)
            os.mkfifo(name)
            found = with_writer(program, name, content)
            wanted(f"{name.decode()} is a named pipe with {len(content)} bytes", found, plain({**files, name: content}))
            os.unlink(name)
    write_files(files)
    if os.path.exists("/dev/zero"):
        for name in NAMES:
            os.unlink(name)
            os.symlink("/dev/zero", name)
            wanted(f"{name.decode()} is a device without an end", whole(program, SMALL), Ended(1, b"E 12 " + name + b"\n"))
            os.unlink(name)
            write_files({name: files[name]})


def with_writer(program: str, name: bytes, content: bytes) -> Ended:
    """A run, and a writer that gives the pipe its bytes in two pieces."""
    def write() -> None:
        with open(name, "wb", buffering=0) as pipe:
            half = len(content) // 2
            for piece in (content[:half], content[half:]):
                if piece:
                    pipe.write(piece)

    writer = threading.Thread(target=write)
    writer.start()
    found = whole(program, SMALL)
    writer.join()
    return found


# Limits of the host.

def limits(program: str) -> Tuple[int, int]:
    """Memory that the host refuses: by steps from what a refusal of words takes up to what the run takes."""
    text = damage.system().replace(b"memory = 65536", b"memory = 4194304")
    files = {damage.SYSTEM: text, damage.IMAGE: damage.SMALL}
    write_files(files)
    good, refused, done = plain(files), 0, 0
    for size in range(2 << 20, 64 << 20, 1 << 19):
        def before(size: int = size) -> None:
            resource.setrlimit(resource.RLIMIT_AS, (size, size))
        if not begins_in(program, before):
            continue
        found = whole(program, SMALL, before)
        wanted(f"{size >> 10} KiB of memory", found, Ended(9, b""), good)
        refused += found.status == 9
        done += found.status == 0
        if done == 3:
            break
    if refused == 0 or done == 0:
        fail(f"{refused} sizes of memory were too little and {done} enough")
    return refused, size >> 10


def begins_in(program: str, before: Callable[[], None]) -> bool:
    """Whether the program comes to be within a limit of memory at all."""
    done = subprocess.run([program, "fly"], stdin=subprocess.DEVNULL, stdout=subprocess.PIPE, stderr=subprocess.PIPE, preexec_fn=before, check=False)
    return done.returncode == 5 and done.stdout == b"E usage\n"


def main() -> None:
    if len(sys.argv) != 2:
        fail("usage: real_machine.py PROGRAM")
    signal.signal(signal.SIGINT, signal.default_int_handler)        # a shell ignores it for what it starts behind itself, and so would the program
    with tempfile.TemporaryDirectory() as folder:
        os.chmod(folder, 0o755)
        program = os.path.join(folder, "program")
        shutil.copyfile(sys.argv[1], program)
        os.chmod(program, 0o755)
        os.mkdir(os.path.join(folder, "files"))
        os.chdir(os.path.join(folder, "files"))
        long = systems.many_lines(10_000)
        write_files({**long.files, b"k.bin": damage.SMALL})
        wanted("a run of many lines", whole(program, long.words), Ended(*long.expected[:2]))
        outputs(program, long)
        past_limit(program, long)
        print("hostile: an output that is full, closed, left by its reader or past a file's limit is answered as docs/FORMATS.md says")
        names(program)
        pipes(program)
        print("hostile: names that are folders, sockets, links, pipes, devices or locked are answered as docs/FORMATS.md says")
        refused, most = limits(program)
        print(f"hostile: {refused} sizes of memory below {most} KiB are too little, and then nothing is written, with status 9")


if __name__ == "__main__":
    main()
