"""Systems that the checks run: one with a FIFO and its handler, one of the size of a real one, one with as many modules as there may be and a long
script, one that prints much, and one of each cause of a refusal."""
from __future__ import annotations

import os
import subprocess
import tempfile
from typing import Dict, Iterator, List, NamedTuple, Optional

import damage
from oracle import Expected, Oracle
from runner import Ended, Folder, fail

REALISTIC_TICKS = 100_000


class Run(NamedTuple):
    """Files, words, and what has to come of them; of what isn't known here, only the lines that have to be among the output's, in their order."""
    name: str
    files: Dict[bytes, bytes]
    words: List[bytes]
    expected: Optional[Expected] = None
    lines: Optional[List[bytes]] = None

    def names(self) -> List[bytes]:
        """The files that are opened, in the order of docs/FORMATS.md."""
        order = [damage.SYSTEM, damage.IMAGE, b"kernel.elf", damage.MODULE, damage.SECOND, b"one.elf", b"two.elf", damage.SCRIPT, b"script"]
        return [name for name in order if name in self.files]


def run_words(ticks: int, hardware: bool = False) -> List[bytes]:
    return [b"run", damage.SYSTEM, b"--ticks", b"%d" % ticks] + [b"--hardware"] * hardware


def of_oracle(name: str, files: Dict[bytes, bytes], ticks: int, hardware: bool = False) -> Run:
    return Run(name, files, run_words(ticks, hardware), Oracle(files).run(damage.SYSTEM, ticks, hardware))


def flat(name: str, image: bytes, ticks: int) -> Run:
    files = {damage.IMAGE: image}
    return Run(name, files, [b"flat", damage.IMAGE, b"%d" % ticks], Oracle(files).flat(damage.IMAGE, ticks))


# A module whose init makes FIFO 1 of four bytes with a handler, and a guest that puts four bytes, one more and gets eight. The lines are worked
# out from the rules: the second put finds no room (-28), and each call with a result above 0 marks the handler.
FIFO_MODULE = bytes.fromhex("b80b000000bb01000000b904000000cdf8b810000000b91e100100cdf8c3c3")
FIFO_GUEST = bytes.fromhex("b804000000bb01000000b900020000ba04000000cdf6b804000000ba01000000cdf6b805000000ba08000000cdf6")
FIFO_TICKS = 24
FIFO_LINES = b"""R 1 on init 0
R 4 gate 11 00000001 00000004 00000000 00000000 0
R 7 gate 16 00000001 0001101e 00000000 00000000 0
R 9 ret
R 10 on guest
R 14 reply 4 -
G 14 put 1 61626364
R 15 on fifo 1
R 16 ret
R 17 on guest
R 19 reply -28 -
G 19 put 1 61
R 22 reply 4 61626364
G 22 get 1 8
R 23 on fifo 1
R 24 ret
R 24 end 0 0
G 24 end runs 0000002e 00000002 00000004 00000200 00000008 00000001 00010000 00000000 00000000 00000000
""".splitlines(True)


def fifo(ticks: int = FIFO_TICKS, hardware: bool = False) -> Run:
    text = damage.system() + b'modules = ["m.elf"]\n'
    guest = damage.elf(0, [(damage.LOAD, 0, FIFO_GUEST, 0), (damage.LOAD, 0x200, b"abcd", 0)])
    files = {damage.SYSTEM: text, damage.IMAGE: guest, damage.MODULE: damage.elf(0x11000, [(damage.LOAD, 0x11000, FIFO_MODULE, 0)])}
    return Run("a FIFO and its handler", files, run_words(ticks, hardware), None, FIFO_LINES if ticks == FIFO_TICKS else None)


def many_modules() -> Run:
    """16 modules whose inits return, and a script of 20,000 lines."""
    script = b"".join(b"%d line %d\n" % (1 + at // 8, (1, 5, 6, 7, 8, 9, 10, 15)[at % 8]) for at in range(20_000))
    files = {damage.IMAGE: damage.LARGER, damage.SCRIPT: script}
    names = []
    for number in range(16):
        place = 0x11000 + 0x800 * number
        names.append(b"m%d.elf" % number)
        files[names[-1]] = damage.elf(place, [(damage.LOAD, place, damage.RETURN, 100)])
    files[damage.SYSTEM] = damage.system(False, True) + b"modules = [" + b", ".join(b'"' + name + b'"' for name in names) + b"]\n"
    return of_oracle("16 modules and 20,000 lines of a script", files, 100)


def many_lines(ticks: int = 20_000) -> Run:
    """A run whose lines are more than a pipe holds: an interrupt line rises in each tick."""
    script = b"".join(b"%d line %d\n" % (tick, 5 + tick % 11) for tick in range(1, ticks + 1))
    return of_oracle("a line of the hardware in each tick", {**damage.WITH_SCRIPT, damage.SCRIPT: script}, ticks, True)


def realistic(ticks: int = REALISTIC_TICKS, hardware: bool = False) -> Run:
    """The system of tools/realistic, which checks its lines itself."""
    with tempfile.TemporaryDirectory() as folder:
        build = os.path.join(os.path.dirname(os.path.abspath(__file__)), os.pardir, "realistic", "build.py")
        subprocess.run([build, folder], check=True)
        files = {}
        for name in os.listdir(folder):
            with open(os.path.join(folder, name), "rb") as file:
                files[name.encode()] = file.read()
    if b"system.toml" not in files:
        fail("tools/realistic/build.py made no system.toml")
    files[damage.SYSTEM] = files.pop(b"system.toml")
    return Run("the realistic system", files, run_words(ticks, hardware), None, [b"R 1 on init 0\n"])


def refused() -> Iterator[Run]:
    """One of each cause of a refusal, and two breaches."""
    yield Run("no words", {}, [], Expected(5, b"E usage\n"))
    yield Run("words of no command", {}, [b"fly", b"k.bin"], Expected(5, b"E usage\n"))
    yield Run("words behind `run` that are none", {}, [b"run", b"s.toml", b"--ticks", b"5x"], Expected(5, b"E usage\n"))
    yield Run("no ticks", damage.PLAIN, run_words(0), Expected(1, b"E 40 0\n"))
    yield Run("too many ticks", damage.PLAIN, run_words(1_000_000_001), Expected(1, b"E 40 1000000001\n"))
    yield Run("no flat image", {}, [b"flat", b"k.bin", b"5"], Expected(2, b"E read k.bin\n"))
    yield flat("a large flat image", bytes(65_537), 5)
    end = b"G 2 breach fetch 00010000\nG 2 end stopped 0000ffff 00000002" + b" 00000000" * 4 + b" 00010000" + b" 00000000" * 3 + b"\n"
    yield Run("a guest that jumps to the last byte", {damage.IMAGE: b"\xe9\xfa\xff\0\0"}, [b"flat", damage.IMAGE, b"2"], Expected(3, end))
    wanted = {"E 10", "E 11", "E 21", "E 22", "E 30", "E read", *(f"E 20.{rule}" for rule in range(1, 10))}
    for case in [*(case for case, _ in damage.table()), *damage.bounds()]:
        expected = Oracle(case.files).run(damage.SYSTEM, damage.TICKS, case.hardware)
        code = expected.output.decode("utf-8", "replace").rsplit(" ", 1)[0] if expected.output.startswith(b"E ") else ""
        code = " ".join(code.split(" ")[:2])
        if code in wanted and not case.flat:
            wanted.remove(code)
            yield Run(f"{case.name} ({code})", case.files, run_words(damage.TICKS, case.hardware), expected)
    if wanted:
        fail(f"no case of the causes {wanted}")
    yield of_oracle("a large image", {**damage.PLAIN, damage.IMAGE: bytes(33_554_433)}, 5)


MAKE = [b"make", b"1", b"--ticks", b"1"]
USAGE = Ended(5, b"E usage\n")


def makes() -> List[Run]:
    """Runs of `make`. What it counts of one tick is known: three real-time lines and the guest's two end lines."""
    longer = [b"make", b"7", b"--ticks", b"5000"]
    return [Run("make", {}, MAKE, None, [b"M 1 1\n", b"M lines 3 2\n"]), Run("make, longer", {}, longer, None, [b"M 7 5000\n"])]


def makes_of(place: Folder, what: str) -> List[Run]:
    """The runs of `make`, or none and a line, where the program has no such command."""
    if place.run(MAKE) == USAGE:
        print(f"hostile: skipped, the program has no `make`: {what}")
        return []
    return makes()


def checked(run: Run, ended: Ended) -> None:
    """Fails where a run that nothing was refused isn't as it has to be."""
    if run.expected is not None and not run.expected.holds(*ended):
        fail(f"{run.name}: {ended}, and not {run.expected}")
    if run.lines is not None:
        left = iter(ended.output.splitlines(True))
        if ended.status != 0 or not all(line in left for line in run.lines):
            fail(f"{run.name}: {ended} hasn't the lines {run.lines}")
