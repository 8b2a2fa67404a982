#!/usr/bin/env python3
# Writes the rows of src/modules.rt, and the digest in src/threads.rt, from the rules of the schedule, of the gates and of the interrupt
# controllers, apart from the program: threads are a dictionary, the ready ones a list, and the one-shot is a tick. It knows the
# instructions of these modules alone. Beside them stands a guest that jumps to itself, of which just the end lines are written.
#
# Usage: python3 module_rows.py (any Python 3.8 or later; the rows were written on 2 December 2026 with 3.11). The option --lines shows
# each row line by line.
import hashlib
import sys

G = R = 65536
END = G + R
DEVICE_ORDER = [0, 1, 8, 9, 10, 11, 12, 13, 14, 15, 3, 4, 5, 6, 7]
HANDLER_ORDER = [1, 8, 9, 10, 11, 12, 13, 14, 15, 3, 5, 6, 7]


class Fault(Exception):
    pass


def word(n):
    return (n & 0xFFFFFFFF).to_bytes(4, "little")


class Run:
    def __init__(self, modules, events=()):
        self.side = bytearray(R)
        self.side[0:2] = b"\xcd\xf9"
        self.inits = []
        for place, code in modules:
            self.side[place - G:place - G + len(code)] = code
            self.inits.append(place)
        self.events = list(events)
        self.threads = {}
        self.ready = []
        self.held = {}
        self.asked = set()
        self.soft = set()
        self.fifos = {}
        self.on = None
        self.context = None
        self.latched = set()
        self.shot = None
        self.init = 0
        self.com2 = [None, None]  # what waits, and the byte that is sent with the ticks it has left
        self.lines = []

    # ---- lines
    def say(self, text):
        self.r.append(f"R {self.t} {text}")

    def hard(self, text):
        self.h.append(f"H {self.t} {text}")

    # ---- memory
    def check(self, place, size):
        for at in range(place, place + size):
            if not G <= at % 2**32 < END:
                raise Fault("memory")

    def load(self, place, size):
        self.check(place, size)
        return int.from_bytes(self.side[place - G:place - G + size], "little")

    def store(self, place, size, value):
        self.check(place, size)
        self.side[place - G:place - G + size] = (value & (256**size - 1)).to_bytes(size, "little")

    # ---- dues
    def nearest(self):
        dues = [t["due"] for t in self.threads.values() if t["due"] is not None]
        return min(dues) if dues else None

    def set_shot(self, out):
        near = self.nearest()
        if near is None:
            return
        k = max(1, min(32768, near - self.t))
        out(f"set {2 * k - 1}")
        self.shot = self.t + k

    # ---- a tick
    def tick(self, t):
        self.t = t
        self.r, self.h = [], []
        # devices
        rises = set()
        if self.shot == t:
            rises.add(0)
            self.shot = None
        if self.com2[1]:
            byte, left = self.com2[1]
            left -= 1
            self.com2[1] = (byte, left)
            if left == 0:
                self.say(f"com2 {byte:02x}")
                self.com2[1] = None
        if self.com2[1] is None and self.com2[0] is not None:
            self.com2 = [None, (self.com2[0], 32)]
        for at, line in self.events:
            if at == t:
                rises.add(line)
        for line in sorted(rises):
            self.hard(f"edge {line}")
            self.latched.add(line)
        # drain
        drains = self.on in (None, "guest") or (self.on.startswith("thread") and self.context["if"])
        if drains:
            timer = False
            for line in DEVICE_ORDER:
                if line in self.latched:
                    self.latched.discard(line)
                    self.hard(f"ack {line}")
                    if line == 0:
                        timer = True
                    elif line in self.held:
                        self.asked.add(line)
            due = sorted((x["due"], i) for i, x in self.threads.items() if x["due"] is not None and x["due"] <= t)
            for _, i in due:
                self.threads[i]["due"] = None
                self.ready.append(i)
                self.say(f"release {i}")
            if timer:
                self.set_shot(self.hard)
        # pick
        running = self.on is not None and self.on.split()[0] in ("init", "irq")
        start = None
        if running:
            who = self.on
        elif self.init < len(self.inits):
            who = f"init {self.init}"
            start = (self.init, self.inits[self.init])
            self.init += 1
        elif drains and any(x in self.asked for x in HANDLER_ORDER):
            line = next(x for x in HANDLER_ORDER if x in self.asked)
            self.asked.discard(line)
            who = f"irq {line}"
            start = (line, self.held[line])
        elif self.ready:
            top = max(self.threads[i]["priority"] for i in self.ready)
            who = f"thread {next(i for i in self.ready if self.threads[i]['priority'] == top)}"
        else:
            who = "guest"
        if who != self.on:
            self.say(f"on {who}")
        self.on = who
        if start:
            regs = [0] * 8
            regs[0], regs[4] = start[0], END - 4
            self.store(END - 4, 4, G)
            self.context = {"regs": regs, "eip": start[1], "if": False, "zf": False}
        elif who.startswith("thread"):
            self.context = self.threads[int(who.split()[1])]["context"]
        # unit
        if who != "guest":
            before = self.nearest()
            acks = []
            self.ended = False
            try:
                self.unit(acks)
            except Fault as fault:
                self.say(f"fault {who} {fault}")
                kind, number = who.split()
                if kind == "thread":
                    self.delete(int(number))
                elif kind == "irq" and int(number) in self.held:
                    self.free(int(number), acks)
                self.ended = True
            for line in acks:
                self.hard(f"ack {line}")
            after = self.nearest()
            if before != after:
                self.set_shot(self.hard)
            kind = who.split()[0]
            if kind == "thread":
                if int(who.split()[1]) not in self.ready:
                    self.on = None
            elif self.ended:
                self.on = None
        self.lines += [(line, False) for line in self.r] + [(line, True) for line in self.h]

    def delete(self, i):
        del self.threads[i]
        if i in self.ready:
            self.ready.remove(i)

    def free(self, line, acks):
        if line in self.latched:
            self.latched.discard(line)
            acks.append(line)
        self.asked.discard(line)
        del self.held[line]

    # ---- one unit
    def unit(self, acks):
        c = self.context
        regs, eip = c["regs"], c["eip"]
        at = eip

        def byte():
            nonlocal at
            value = self.load(at, 1)
            at += 1
            return value

        def long():
            return byte() | byte() << 8 | byte() << 16 | byte() << 24

        op = byte()
        if 0xB8 <= op < 0xC0:
            regs[op - 0xB8] = long()
        elif op == 0xB0:
            regs[0] = regs[0] & ~0xFF | byte()
        elif op == 0x66:
            assert byte() == 0xBA
            regs[2] = regs[2] & ~0xFFFF | byte() | byte() << 8
        elif op == 0xEE:
            port = regs[2] & 0xFFFF
            if port in (0x20, 0x21, 0xA0, 0xA1, 0x40, 0x41, 0x42, 0x43) or 0x3F8 <= port < 0x400:
                raise Fault("port")
            assert port == 0x2F8
            self.com2[0] = regs[0] & 0xFF
        elif op == 0xE4:
            assert byte() == 0x20
            raise Fault("port")
        elif 0x40 <= op < 0x48:
            regs[op & 7] = (regs[op & 7] + 1) % 2**32
            c["zf"] = regs[op & 7] == 0
        elif 0x48 <= op < 0x50:
            regs[op & 7] = (regs[op & 7] - 1) % 2**32
            c["zf"] = regs[op & 7] == 0
        elif op in (0x31, 0x89):
            modrm = byte()
            assert modrm >= 0xC0
            source, target = regs[modrm >> 3 & 7], modrm & 7
            regs[target] = source if op == 0x89 else regs[target] ^ source
            if op == 0x31:
                c["zf"] = regs[target] == 0
        elif op == 0xF7:
            assert byte() == 0xF0
            assert regs[0] == 0
            raise Fault("divide")
        elif op == 0x0F:
            assert byte() == 0x0B
            raise Fault("opcode")
        elif op == 0xA1:
            regs[0] = self.load(long(), 4)
        elif op == 0xA3:
            self.store(long(), 4, regs[0])
        elif op == 0xF4:
            raise Fault("privileged")
        elif op == 0xFA:
            c["if"] = False
        elif op == 0xFB:
            c["if"] = True
        elif op in (0xEB, 0x75):
            move = byte()
            if op == 0xEB or not c["zf"]:
                at += move - 256 if move > 127 else move
        elif op == 0xC3:
            at = self.load(regs[4], 4)
            regs[4] += 4
        elif op == 0xCC:
            raise Fault("int")
        elif op == 0xCD:
            vector = byte()
            if vector == 0xF9:
                self.say("ret")
                if self.on.startswith("thread"):
                    self.delete(int(self.on.split()[1]))
                self.ended = True
                return
            if vector != 0xF8:
                raise Fault("int")
            a, b, cx, d, si = regs[0], regs[3], regs[1], regs[2], regs[6]
            said = None
            result = self.gate(a, b, cx, d, si, acks)
            if a == 24 and result == 0:
                said = self.side[b - G:b - G + cx].hex() or "-"
            self.say(f"gate {a} {b:08x} {cx:08x} {d:08x} {si:08x} {result}")
            if said is not None:
                self.say(f"say {said}")
            regs[0] = result % 2**32
        else:
            raise AssertionError(f"{op:02x}")
        c["eip"] = at % 2**32

    # ---- the gates
    def gate(self, a, b, c, d, si, acks):
        caller = int(self.on.split()[1]) if self.on.startswith("thread") else None
        live = b in self.threads
        if a in (13, 14, 24):
            place = b if a == 24 else c
            count = c if a == 24 else d
            if count > 256:
                return -22
            self.check(place, count)
        if a == 1:
            return self.t
        if a == 2:
            if c > 255 or not all(G <= (d - 4 + i) % 2**32 < END for i in range(4)):
                return -22
            free = [i for i in range(64) if i not in self.threads]
            if not free:
                return -11
            self.store(d - 4, 4, G)
            regs = [si, 0, 0, 0, d - 4, 0, 0, 0]
            self.threads[free[0]] = {"priority": c, "due": None, "period": 0, "next": 0, "state": "ready",
                                     "context": {"regs": regs, "eip": b, "if": True, "zf": False}}
            self.ready.append(free[0])
            return free[0]
        if a in (3, 4, 5, 6, 9, 10) and not live:
            return -22
        if a == 3:
            self.delete(b)
            return 0
        if a == 4:
            self.threads[b]["due"] = None
            if b in self.ready:
                self.ready.remove(b)
            return 0
        if a == 5:
            self.threads[b]["due"] = None
            if b not in self.ready:
                self.ready.append(b)
            return 0
        if a == 6:
            if not 1 <= d <= 10**9 or c > 2 * 10**9:
                return -22
            self.threads[b].update(period=d, next=c, due=c)
            if b in self.ready:
                self.ready.remove(b)
            return 0
        if a == 7:
            if caller is None or not self.threads[caller]["period"]:
                return -22
            me = self.threads[caller]
            me["next"] += me["period"]
            me["due"] = me["next"]
            self.ready.remove(caller)
            return 0
        if a == 8:
            return -22 if caller is None else caller
        if a == 9:
            if c > 255:
                return -22
            self.threads[b]["priority"] = c
            return 0
        if a == 10:
            return self.threads[b]["priority"]
        if a == 11:
            if b > 63 or not 1 <= c <= 16384:
                return -22
            if b in self.fifos:
                return -16
            self.fifos[b] = (c, bytearray())
            return 0
        if a in (12, 13, 14, 15, 16, 17):
            if b not in self.fifos:
                return -19
            size, held = self.fifos[b]
            if a == 12:
                del self.fifos[b]
            if a == 13:
                if len(held) + d > size:
                    return -28
                held += self.side[c - G:c - G + d]
                return d
            if a == 14:
                got = held[:d]
                del held[:d]
                self.side[c - G:c - G + len(got)] = got
                return len(got)
            if a == 15:
                held.clear()
            if a == 17:
                return len(held)
            return 0
        if a == 18:
            if b not in HANDLER_ORDER:
                return -22
            if b in self.held:
                return -16
            if b in self.latched:
                self.latched.discard(b)
                acks.append(b)
            self.held[b] = c
            return 0
        if a == 19:
            if b not in self.held:
                return -22
            self.free(b, acks)
            return 0
        if a == 20:
            free = [i for i in range(16, 32) if i not in self.soft]
            if not free:
                return -16
            self.soft.add(free[0])
            return free[0]
        if a == 21:
            if b not in self.soft:
                return -22
            self.soft.discard(b)
            return 0
        if a == 22:
            return 0 if b <= 15 or b in self.soft else -22
        if a == 23:
            if caller is None or not 1 <= b <= 10**9:
                return -22
            self.threads[caller]["due"] = self.t + b
            self.ready.remove(caller)
            return 0
        if a == 24:
            return 0
        return -22

    def whole(self, ticks, hardware=False):
        for t in range(1, ticks + 1):
            self.tick(t)
        lines = [line for line, is_hard in self.lines if hardware or not is_hard]
        lines.append(f"R {ticks} end {len(self.threads)} {len(self.ready)}")
        lines.append(f"R {ticks} memory {hashlib.sha256(self.side).hexdigest()}")
        lines.append(f"G {ticks} end runs 00000000 00000002 " + "00000000 " * 4 + "00010000 00000000 00000000 00000000")
        lines.append(f"G {ticks} memory {hashlib.sha256(bytes.fromhex('ebfe') + bytes(G - 2)).hexdigest()}")
        return lines


EAX, ECX, EDX, EBX, ESP, EBP, ESI, EDI = range(8)


def mov(r, v): return bytes([0xB8 + r]) + word(v)


def gate(a, b=None, c=None, d=None, si=None):
    out = mov(EAX, a)
    for r, v in ((EBX, b), (ECX, c), (EDX, d), (ESI, si)):
        if v is not None:
            out += mov(r, v)
    return out + b"\xcd\xf8"
RET = b"\xc3"
INC = b"\x40"
x = bytes.fromhex

def laid(at, *parts):
    """parts: functions of the list of addresses, or bytes."""
    places = [0] * len(parts)
    for _ in range(2):
        here, made = at, []
        for i, p in enumerate(parts):
            places[i] = here
            code = p(places) if callable(p) else p
            made.append(code)
            here += len(code)
    return b"".join(made)

M = 0x11000
rows = []
def row(name, ticks, modules, status="done", script="", hardware=False):
    ev = []
    for l in script.split(";"):
        if l:
            a, _, c = l.split()
            ev.append((int(a), int(c)))
    run = Run([(p, c) for _, p, c in modules], ev)
    lines = run.whole(ticks, hardware)
    field = " ".join(f"{n}={p:x}={c.hex()}" for n, p, c in modules)
    words = f"{ticks} --hardware" if hardware else f"{ticks}"
    rows.append((name, script or "-", field, words, status, lines))

def one(code): return [("m.elf", M, code)]

# inits
row("inits in the order of the system file, each with its number in EAX", 7, [("m.elf", 0x12000, x("cdf8c3")), ("n.elf", M, x("cdf8cdf9"))])
row("an init that divides by zero", 2, one(x("f7f0")), "fault")
row("the next init behind one that faults", 5, [("m.elf", M, x("40f4")), ("n.elf", 0x12000, RET)], "fault")
row("sixteen modules", 34, [(f"m{i}", M + 16 * i, RET) for i in range(16)])

# threads
b18 = b""
blocks = [(0x0a, 0x30, 0, 0x3c), (0x0a, 0x40, 1, 0x3c), (0x14, 0x50, 2, 0x3d)]
for pp, ss, ii, tt in blocks:
    b18 += gate(2, M + 0x85, pp, 0x10000 | (ss << 8)) + gate(6, ii, tt, 1000)
row("equal priorities, and a more urgent one that is released", 69, one(b18 + RET + INC + RET), hardware=True)
row("a period further away than a one-shot reaches", 32790, one(x("b802000000bb2f100100b90a000000ba00300100be07000000cdf8b80600000031dbb914000000ba01800000cdf8c3cdf8ebfe")), hardware=True)
row("a thread that sleeps", 25, one(laid(M, lambda p: gate(2, p[1], 10, 0x13000) + RET, gate(23, 5) + gate(1) + RET)), hardware=True)
row("one that suspends itself, and another that wakes it and is deleted", 30, one(laid(M,
    lambda p: gate(2, p[1], 20, 0x13000) + gate(2, p[2], 10, 0x14000) + RET,
    gate(4, 0) + gate(8) + gate(3, 1) + RET,
    gate(5, 0) + RET)))
row("priorities that are set and told", 32, one(laid(M,
    lambda p: gate(2, p[1], 10, 0x13000) + gate(2, p[2], 5, 0x14000) + RET,
    gate(9, 1, 15) + RET,
    gate(10, 0) + gate(9, 1, 256) + RET)))
# an overrun: a period of 6 ticks and a body that takes 8
row("a thread that takes longer than its period", 48, one(laid(M,
    lambda p: gate(2, p[1], 10, 0x13000) + gate(6, 0, 16, 6) + RET,
    INC * 5 + mov(EAX, 7) + x("cdf8") + x("eb" + "%02x" % (256 - 14)))), hardware=True)
row("releases that wait for a clear flag", 36, one(laid(M,
    lambda p: gate(2, p[1], 20, 0x13000) + gate(2, p[2], 10, 0x14000) + gate(6, 0, 20, 100) + RET,
    RET,
    b"\xfa" + INC * 8 + b"\xfb" + INC * 2 + RET)), hardware=True)
row("the deletion of one that waits, and of the last", 30, one(laid(M,
    lambda p: gate(2, p[1], 10, 0x13000) + gate(6, 0, 18, 100) + gate(2, p[1], 10, 0x14000) + gate(6, 1, 20, 100) + gate(3, 0) + gate(3, 1) + RET,
    RET)), hardware=True)
row("each fault of a thread", 48, one(laid(M,
    lambda p: b"".join(gate(2, p[i], 10, 0x13000) for i in range(1, 8)) + RET,
    x("f7f0"), x("0f0b"), x("cc"), x("a100000000"), x("a3feff0100"), x("e420"), x("f4"))), "fault")
row("gates that are refused", 66, one(laid(M,
    lambda p: gate(7) + gate(8) + gate(23, 5) + gate(3, 0) + gate(2, p[1], 256, 0x13000) + gate(2, p[1], 10, 0x10003) + gate(2, p[1], 10, 0x20001)
    + gate(2, p[1], 255, 0x20000) + gate(6, 0, 5, 0) + gate(6, 0, 2000000001, 5) + gate(9, 0, 256) + gate(0) + gate(25) + RET, RET)))

# lines, FIFOs, prints, COM2
row("a line that changes its owner", 10, one(gate(18, 9, M + 0x12) + RET + RET), script="2 line 9;8 line 9;", hardware=True)
row("handlers in the order of their lines, each with its line in EAX", 36, one(laid(M,
    lambda p: gate(18, 5, p[1]) + gate(18, 9, p[1]) + gate(18, 1, p[1]) + RET, x("cdf8c3"))),
    script="20 line 9;20 line 5;20 line 1;", hardware=True)
row("a handler that faults loses its line", 20, one(laid(M, lambda p: gate(18, 9, p[1]) + RET, x("40f4"))), "fault",
    script="10 line 9;15 line 9;", hardware=True)
row("a handler that gives its line back", 24, one(laid(M, lambda p: gate(18, 9, p[1]) + gate(18, 9, p[1]) + gate(18, 4, p[1]) + RET, gate(19, 9) + gate(19, 9) + RET)),
    script="16 line 9;18 line 9;22 line 9;", hardware=True)
row("a FIFO between activities", 46, one(laid(M,
    lambda p: gate(11, 3, 4) + gate(11, 3, 4) + gate(13, 3, M, 3) + gate(13, 3, M, 2) + gate(17, 3) + gate(14, 3, 0x13000, 2)
    + gate(15, 3) + gate(17, 3) + gate(12, 3) + gate(17, 3) + RET)))
row("soft lines", 20, one(gate(20) + gate(22, 16) + gate(21, 16) + gate(22, 16) + gate(22, 5) + gate(21, 5) + RET))
row("a print, and a byte over COM2", 52, one(x("b04166baf802ee") + gate(24, M, 4) + gate(24, M, 0) + gate(24, M, 257) + RET))



def crowd():
    """The module of src/planned.rt with the 64 threads of src/threads.rt."""
    code = x("eb1089c789f94975fdb807000000cdf8ebf2")
    for n in range(64):
        code += gate(2, M + 2, n * 37 % 32, 0x14000 + 16 * n, 1 + n % 5)
        code += gate(6, n, 800 + n * 11 % 64, 1100 + n * 29 % 400)
    return code + gate(2, M + 2, 0, 0x14000 + 16 * 64) + RET


for name, script, field, words, status, lines in rows:
    if "--lines" in sys.argv:
        print("==", name, "|", words, "|", status)
        print("\n".join(lines))
    else:
        print(" | ".join([name, script, field, words, status, "".join(line + ";" for line in lines)]))
print(next(line for line in Run([(M, crowd())]).whole(5000) if " memory " in line))
