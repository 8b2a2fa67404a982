"""Random systems whose threads have few priorities, with due dates that come while nothing is released: as a module's bytes, and as the
real-time lines that the rules of docs/SCHEDULE.md ask for in a version of the rule that picks among equal priorities. The model knows stretches of
units and gates, no instruction and no memory."""
import random
from typing import Dict, List, NamedTuple, Optional, Tuple

SIDE = 65_536
MODULE, STACKS = 0x11000, 0x18000
TICKS = 600
PRIORITIES = (10, 10, 10, 20)
CREATE, SUSPEND, WAKE, MAKE_PERIODIC, WAIT, SETPRIO, SLEEP = 2, 4, 5, 6, 7, 9, 23
EAGAIN, EINVAL = -11, -22
LIVE = 64
# INC EDI, which no gate reads; CLI and STI; RET.
UNIT, CLOSE, OPEN, RETURN = b"\x47", b"\xfa", b"\xfb", b"\xc3"

Line = Tuple[int, str]


class Step(NamedTuple):
    """Units that stand before nothing, or a gate with all its registers, five units before it; or the flag that goes down or up."""
    name: str
    units: int = 1
    gate: Tuple[int, ...] = ()


class Program(NamedTuple):
    """What an activity does: its steps over and over, or once up to its return."""
    steps: List[Step]
    loops: bool


class System(NamedTuple):
    init: Program
    programs: List[Program]
    places: List[int]


def gate(function: int, *arguments: int) -> Step:
    return Step("gate", 6, (function, *arguments, *[0] * (4 - len(arguments))))


def code_of(program: Program) -> bytes:
    code = b""
    for step in program.steps:
        if step.name == "gate":
            code += b"".join(bytes([0xB8 + register]) + word.to_bytes(4, "little") for register, word in zip((0, 3, 1, 2, 6), step.gate)) + b"\xcd\xf8"
        else:
            code += {"work": UNIT * step.units, "close": CLOSE, "open": OPEN}[step.name]
    return code + (b"\xe9" + (-len(code) - 5).to_bytes(4, "little", signed=True) if program.loops else RETURN)


def image_of(place: int, code: bytes) -> bytes:
    """An ELF image of one part: this code at this address, where it starts."""
    words = [0x34, 0, 0, 0x200034, 1, 0, 1, 0x54, place, place, len(code), len(code), 7, 1]
    return (bytes.fromhex("7f454c460101010000000000000000000200030001000000") + place.to_bytes(4, "little")
            + b"".join(word.to_bytes(4, "little") for word in words) + code)


def module_of(system: System) -> bytes:
    return image_of(MODULE, b"".join(map(code_of, [system.init, *system.programs])))


def random_step(chance: random.Random, threads: int, periodic: bool, short: Tuple[int, int]) -> List[Step]:
    kind = chance.choice(["work", "work", "rest", "rest", "rest", "wake", "wake", "rate", "closed", "create"])
    if kind == "rest":
        return [gate(WAIT) if periodic else gate(SLEEP, chance.randrange(1, 40))]
    if kind == "wake":
        return [gate(WAKE, chance.randrange(threads))]
    if kind == "rate":
        return [gate(SETPRIO, chance.randrange(threads), chance.choice(PRIORITIES))]
    if kind == "closed":
        return [Step("close"), Step("work", chance.randrange(5, 40)), *([gate(WAKE, chance.randrange(threads))] if chance.random() < 0.5 else []), Step("open")]
    if kind == "create":
        return [gate(CREATE, short[0], chance.choice(PRIORITIES), short[1], 0)]
    return [Step("work", chance.randrange(3, 40))]


def random_system(seed: int) -> System:
    """Threads with programs of their own, of which the last returns and may be made again; some are periodic, due from within the init on."""
    chance = random.Random(seed)
    threads = chance.randrange(2, 5)
    periodic = [chance.random() < 0.6 for _ in range(threads)]
    # The addresses stand in the programs, so these are made twice: their sizes don't hang on them.
    places = [0] * (threads + 2)
    state = chance.getstate()
    while True:
        chance.setstate(state)
        short = (places[threads + 1], STACKS + 0x100 * (threads + 1))
        programs = [Program([step for _ in range(chance.randrange(2, 6)) for step in random_step(chance, threads, periodic[number], short)]
                            + [gate(WAIT) if periodic[number] else gate(SLEEP, chance.randrange(5, 60))], True) for number in range(threads)]
        programs.append(Program([Step("work", chance.randrange(1, 30))], False))
        begins = [gate(CREATE, places[1 + number], chance.choice(PRIORITIES), STACKS + 0x100 * (number + 1), 0) for number in range(threads)]
        dues = [gate(MAKE_PERIODIC, number, chance.randrange(10, 80), chance.randrange(30, 90)) for number in range(threads) if periodic[number]]
        steps = begins + dues
        if chance.random() < 0.5:
            steps = [step for pair in zip(begins, dues + [Step("work", 2)] * threads) for step in pair] + dues[threads:]
        init = Program([*steps, Step("work", chance.randrange(1, 30))], False)
        found, at = [], MODULE
        for program in [init, *programs]:
            found.append(at)
            at += len(code_of(program))
        if found == places:
            return System(init, programs, places)
        places = found


class Activity:
    """Where an activity is in its program."""

    def __init__(self, program: Program):
        self.program, self.at, self.left, self.closed = program, 0, program.steps[0].units, False

    def unit(self) -> Optional[Step]:
        """Performs a unit, and answers the step that it ends, or the return."""
        self.left -= 1
        if self.left > 0:
            return None
        over = self.at == len(self.program.steps)
        step = Step("jump" if self.program.loops else "return") if over else self.program.steps[self.at]
        self.at = 0 if over else self.at + 1
        # The way back is one unit, and a return is two: RET, and the gate that it leads to.
        self.left = self.program.steps[self.at].units if self.at < len(self.program.steps) else 1 if self.program.loops else 2
        return step


class Thread:
    def __init__(self, program: Program, priority: int):
        self.activity, self.priority = Activity(program), priority
        self.due: Optional[int] = None
        self.period = self.next = 0
        self.since = 0


class Model:
    """The real-time lines of a run of a system but its last one, the digest of the side."""

    def __init__(self, system: System, version: int):
        self.version, self.lines = version, []  # type: int, List[Line]
        self.programs = dict(zip(system.places[1:], system.programs))
        self.init: Optional[Activity] = Activity(system.init)
        self.threads: Dict[int, Thread] = {}
        self.ready: List[int] = []
        self.on = ""
        for tick in range(1, TICKS + 1):
            self.tick(tick)
        self.lines.append((TICKS, f"end {len(self.threads)} {len(self.ready)}"))

    def goes_first(self) -> int:
        """The first that came, or that is ready since the earliest tick; `min` answers the first of equals."""
        if self.version == 1:
            return min(self.ready, key=lambda number: -self.threads[number].priority)
        return min(self.ready, key=lambda number: (-self.threads[number].priority, self.threads[number].since))

    def tick(self, tick: int) -> None:
        if not self.is_closed():
            for due, number in sorted((thread.due, number) for number, thread in self.threads.items() if thread.due is not None and thread.due <= tick):
                self.joins(number, due)
                self.lines.append((tick, f"release {number}"))
        picked = "init 0" if self.init else f"thread {self.goes_first()}" if self.ready else "guest"
        if picked != self.on:
            self.lines.append((tick, f"on {picked}"))
        self.on = picked
        if picked == "guest":
            return
        number = None if self.init else int(picked.split()[1])
        activity = self.init or self.threads[number].activity
        step = activity.unit()
        if step and step.name == "gate":
            self.lines.append((tick, " ".join(["gate", str(step.gate[0]), *(f"{word:08x}" for word in step.gate[1:]), str(self.gate(tick, number, step.gate))])))
        elif step and step.name == "return":
            self.lines.append((tick, "ret"))
            self.ends(number)
        elif step and step.name in ("close", "open"):
            activity.closed = step.name == "close"
        if not (self.init if number is None else number in self.ready):
            self.on = ""

    def is_closed(self) -> bool:
        if not self.on or self.on == "guest":
            return False
        return self.on == "init 0" or self.threads[int(self.on.split()[1])].activity.closed

    def joins(self, number: int, since: int) -> None:
        self.threads[number].due = None
        self.threads[number].since = since
        self.ready.append(number)

    def leaves(self, number: int, due: Optional[int]) -> None:
        self.threads[number].due = due
        if number in self.ready:
            self.ready.remove(number)

    def ends(self, number: Optional[int]) -> None:
        if number is None:
            self.init = None
        else:
            self.leaves(number, None)
            del self.threads[number]

    def gate(self, tick: int, caller: Optional[int], words: Tuple[int, ...]) -> int:
        function, b, c, d, _ = words
        if function == CREATE:
            return self.create(tick, b, c)
        thread = self.threads.get(caller if function in (WAIT, SLEEP) else b)
        if thread is None or function == WAIT and thread.period == 0:
            return EINVAL
        if function == WAKE and b not in self.ready:
            self.joins(b, tick)
        elif function == MAKE_PERIODIC:
            thread.next, thread.period = c, d
            self.leaves(b, c)
        elif function == WAIT:
            thread.next += thread.period
            self.leaves(caller, thread.next)
        elif function == SETPRIO:
            thread.priority = c
        elif function == SLEEP:
            self.leaves(caller, tick + b)
        return 0

    def create(self, tick: int, place: int, priority: int) -> int:
        free = next((number for number in range(LIVE) if number not in self.threads), None)
        if free is None:
            return EAGAIN
        self.threads[free] = Thread(self.programs[place], priority)
        self.joins(free, tick)
        return free
