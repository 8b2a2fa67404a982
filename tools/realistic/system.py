"""A system of the size of a real one: its numbers, on which both `build.py` and `check.py` stand."""
from typing import List, NamedTuple, Optional

TICKS = 100_000
GUEST_MEMORY = 4 << 20
REAL_TIME_MEMORY = 1 << 20

# The kernel: 40 KiB at 100000h, with its table of descriptors and its words in the last 4 KiB.
KERNEL = 0x100000
KERNEL_SIZE = 40 << 10
DESCRIPTORS = KERNEL + 0x9000
DESCRIPTOR_COUNT = 64
WORDS = DESCRIPTORS + 8 * DESCRIPTOR_COUNT
DUES, LINES, ROUNDS, SUM, BUFFER = (WORDS + 4 * at for at in range(5))
TABLE, TABLE_WORDS = KERNEL + 0x1000, 0x2000 // 4
TIMER_PERIOD = 1_000

# The lines: the timer's, COM1's, one of the guest's, and one that a module holds.
TIMER, SERIAL, GUEST_LINE, MODULE_LINE = 0, 4, 6, 9

# The FIFOs: counts of the first thread go to the guest, counts of the timer's dues come from it.
COUNTS, COUNTS_SIZE, COUNTS_GET = 1, 512, 64
SET_POINTS, SET_POINTS_SIZE = 2, 64
WORD = 4


class Thread(NamedTuple):
    """A periodic thread, which works for so many ticks and then may put its count of turns into a FIFO."""
    priority: int
    start: int
    period: int
    work: int
    fifo: Optional[int] = None

    def dues(self) -> range:
        return range(self.start, TICKS + 1, self.period)


class Module(NamedTuple):
    place: int
    threads: List[Thread]


# The numbers of threads are those of their order. All five together take less than the distance of two bytes of COM1.
MODULES = [
    Module(GUEST_MEMORY + 0x1000, [Thread(50, 1_100, 250, 20, COUNTS), Thread(40, 1_100, 400, 20), Thread(30, 1_100, 1_000, 30)]),
    Module(GUEST_MEMORY + 0x8000, [Thread(45, 1_100, 625, 25), Thread(20, 1_100, 2_000, 60)]),
]
THREADS = [thread for module in MODULES for thread in module.threads]
WORDS_OF_MODULE, STACKS_OF_MODULE, STACK_SIZE = 0x2000, 0x3000, 0x400

# The script: 500 lines. Each second one is a byte for COM1; between them line 6 and line 9 rise by turns.
SCRIPT_LINES, SCRIPT_STEP = 500, 190


def script() -> List[str]:
    lines = []
    for at in range(1, SCRIPT_LINES + 1):
        tick = SCRIPT_STEP * at
        if at % 2 == 1:
            lines.append(f"{tick} com1 {at * 37 % 256:02x}")
        else:
            lines.append(f"{tick} line {GUEST_LINE if at % 4 == 0 else MODULE_LINE}")
    return lines
