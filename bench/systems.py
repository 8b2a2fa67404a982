#!/usr/bin/env python3
"""Writes the systems that run.sh measures, and tells of a short run of each whether it does what is measured. The code is assembled here, so
that no compiler is needed; nothing that is wanted of a run comes from the program.

threads: 64 threads of 64 priorities, each periodic, eight due at a time; a turn is the gate by which the thread waits again. What is
    left of the processor, a quarter, is the guest's.
fifos: the guest puts 256 bytes into one FIFO and gets 256 from another, over and over; the first one's handler moves them from it to the second.

usage: systems.py write FOLDER
       systems.py check NAME TICKS < TRACE
"""
import pathlib
import sys
from typing import Callable, Dict, List, Tuple

sys.path.insert(0, str(pathlib.Path(__file__).resolve().parents[1] / "tools" / "realistic"))
from build import GUEST_CALL, REAL_TIME, Code, elf  # pylint: disable=wrong-import-position

SIDE = 65_536
GUEST, MODULE = 0x1000, SIDE + 0x1000
# The gates of modules, and the guest's calls.
CREATE, MAKE_PERIODIC, WAIT, FIFO_CREATE, FIFO_PUT, FIFO_GET, FIFO_HANDLER = 2, 6, 7, 11, 13, 14, 16
GUEST_PUT, GUEST_GET = 4, 5

# Thread n is due at START + GROUP_DISTANCE * (n // GROUP) and each PERIOD ticks on. A turn takes three ticks, so a group is done
# before the next is due. The numbers of priorities aren't in the order of those of threads.
THREADS, GROUP, GROUP_DISTANCE, START = 64, 8, 32, 1_000
PERIOD = THREADS // GROUP * GROUP_DISTANCE
STACKS, STACK_SIZE = 0x2000, 0x10

TO_MODULE, TO_GUEST, FIFO_SIZE, COUNT = 1, 2, 1_024, 256
TAKEN, SENT = 0x400, 0x800
# Each call is five units, the guest's jump one, and a return two.
ROUND = 4 * 5 + 1 + 2


def priority(number: int) -> int:
    return 1 + 37 * number % THREADS


def first_due(number: int) -> int:
    return START + GROUP_DISTANCE * (number // GROUP)


def threads() -> Tuple[bytes, bytes]:
    guest = Code(GUEST)
    guest.back(0xEB, guest.here())
    code = Code(MODULE)
    turn = code.here()
    code.call(REAL_TIME, WAIT)
    code.back(0xEB, turn)
    init = code.here()
    for number in range(THREADS):
        code.call(REAL_TIME, CREATE, ebx=turn, ecx=priority(number), edx=MODULE + STACKS + STACK_SIZE * (number + 1), esi=0)
        code.add(0x89, 0xC3)                        # mov ebx, eax
        code.call(REAL_TIME, MAKE_PERIODIC, ecx=first_due(number), edx=PERIOD)
    code.ret()
    return (elf(GUEST, bytes(guest.code), len(guest.code), GUEST),
            elf(MODULE, bytes(code.code), STACKS + STACK_SIZE * THREADS, init))


def fifos() -> Tuple[bytes, bytes]:
    guest = Code(GUEST)
    guest.call(GUEST_CALL, GUEST_PUT, ebx=TO_MODULE, ecx=GUEST + SENT, edx=COUNT)
    guest.call(GUEST_CALL, GUEST_GET, ebx=TO_GUEST, ecx=GUEST + TAKEN, edx=COUNT)
    guest.back(0xEB, GUEST)
    image = bytes(guest.code).ljust(SENT, b"\0") + sent()
    code = Code(MODULE)
    code.call(REAL_TIME, FIFO_GET, ebx=TO_MODULE, ecx=MODULE + TAKEN, edx=COUNT)
    code.call(REAL_TIME, FIFO_PUT, ebx=TO_GUEST, ecx=MODULE + TAKEN, edx=COUNT)
    code.ret()
    init = code.here()
    for number in (TO_MODULE, TO_GUEST):
        code.call(REAL_TIME, FIFO_CREATE, ebx=number, ecx=FIFO_SIZE)
    code.call(REAL_TIME, FIFO_HANDLER, ebx=TO_MODULE, ecx=MODULE)
    code.ret()
    return elf(GUEST, image, len(image), GUEST), elf(MODULE, bytes(code.code), TAKEN + COUNT, init)


def sent() -> bytes:
    return bytes(at * 7 % 256 for at in range(COUNT))


SYSTEMS = {"threads": threads, "fifos": fifos}


def write(folder: pathlib.Path) -> None:
    """Names in a system file are opened from the folder that the program runs in, so they are absolute here."""
    for name, made in SYSTEMS.items():
        guest, module = made()
        (folder / f"{name}.guest.elf").write_bytes(guest)
        (folder / f"{name}.module.elf").write_bytes(module)
        (folder / f"{name}.toml").write_text(f'''version = 1
image = "{folder}/{name}.guest.elf"
guest_memory = {SIDE}
real_time_memory = {SIDE}
modules = ["{folder}/{name}.module.elf"]
''')


def check_threads(lines: List[List[str]], ticks: int) -> None:
    """Every due is a release in its tick, and every turn ends in the wait; in a group the greatest priority goes first."""
    dues = sorted((due, number) for number in range(THREADS) for due in range(first_due(number), ticks + 1, PERIOD))
    equal("the releases", [(int(tick), int(words[1])) for _, tick, *words in lines if words[0] == "release"], dues)
    turns = sorted((due, -priority(number), number) for due, number in dues)
    whole = [number for due, _, number in turns if due + GROUP_DISTANCE <= ticks]
    on = [int(words[2]) for _, tick, *words in lines if words[:2] == ["on", "thread"]]
    equal("the turns", on[:len(whole)], whole)
    waits = [words[-1] for _, tick, *words in lines if words[:2] == ["gate", str(WAIT)]]
    equal("the waits", (len(waits) >= len(whole), set(waits)), (True, {"0"}))


def check_fifos(lines: List[List[str]], ticks: int) -> None:
    """Every round moves its bytes there and back."""
    replies = [words[1:] for _, _, *words in lines if words[0] == "reply"]
    rounds = (ticks - 100) // ROUND
    if rounds < 1 or len(replies) < 2 * rounds:
        sys.exit(f"systems: {len(replies)} replies, not two in each of {rounds} rounds")
    wanted = [[str(COUNT), "-"], [str(COUNT), sent().hex()]]
    equal("the replies", replies, [wanted[at % 2] for at in range(len(replies))])
    moves = [words[-1] for _, _, *words in lines if words[0] == "gate" and words[1] in (str(FIFO_PUT), str(FIFO_GET))]
    equal("what the handler moves", set(moves), {str(COUNT)})


def equal(what: str, got: object, wanted: object) -> None:
    if got != wanted:
        sys.exit(f"systems: {what}: {str(got)[:1_000]}, not {str(wanted)[:1_000]}")


CHECKS: Dict[str, Callable[[List[List[str]], int], None]] = {"threads": check_threads, "fifos": check_fifos}


def main(words: List[str]) -> int:
    if len(words) == 2 and words[0] == "write":
        write(pathlib.Path(words[1]).resolve())
        return 0
    if len(words) == 3 and words[0] == "check" and words[1] in CHECKS:
        CHECKS[words[1]]([line.split() for line in sys.stdin], int(words[2]))
        return 0
    print(__doc__, end="", file=sys.stderr)
    return 2


if __name__ == "__main__":
    sys.exit(main(sys.argv[1:]))
