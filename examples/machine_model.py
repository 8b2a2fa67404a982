"""A second machine, for the checks of the examples: it runs a system's image, modules and script and says what has to be printed, all lines
and digests. It is written from docs/GUEST.md, docs/MACHINE.md, docs/SCHEDULE.md and docs/FORMATS.md, and shares nothing with the
program. It has the instructions that gcc gives and a few more; at any other it stops and says so, so it never passes what it doesn't know.

usage: machine_model.py SYSTEM TICKS    prints what `run SYSTEM --ticks TICKS` has to print
"""
import hashlib
import re
import struct
import sys

CF, PF, AF, ZF, SF, IF, DF, OF = 1, 4, 0x10, 0x40, 0x80, 0x200, 0x400, 0x800
EAX, ECX, EDX, EBX, ESP, EBP, ESI, EDI = range(8)
EAGAIN, EBUSY, ENODEV, EINVAL, ENOSPC = -11, -16, -19, -22, -28
LONGEST, LATEST_START = 1_000_000_000, 2_000_000_000
COM1, COM2 = 0x3f8, 0x2f8
EXECUTIVES_PORTS = {0x20, 0x21, 0xa0, 0xa1, 0x40, 0x41, 0x42, 0x43}
FOR_MODULES = {1, 3, *range(5, 16)}
HANDLER_ORDER = [1, *range(8, 16), 3, 5, 6, 7]


class Unknown(Exception):
    """An instruction that this model doesn't have."""


class Stop(Exception):
    """The unit isn't performed: its kind, and what its line says."""

    def __init__(self, kind, detail=""):
        super().__init__(kind)
        self.kind, self.detail = kind, detail


class Gate(Exception):
    """INT n, behind the instruction."""

    def __init__(self, number):
        super().__init__(number)
        self.number = number


class Trap(Exception):
    """The divide error (0) or the invalid opcode (6)."""

    def __init__(self, vector):
        super().__init__(vector)
        self.vector = vector


class Registers:
    def __init__(self, eip=0, esp=0, eax=0, eflags=2):
        self.r = [eax, 0, 0, 0, esp, 0, 0, 0]
        self.eip, self.eflags = eip, eflags


def signed(value, bits=32):
    return value - (1 << bits) if value >> (bits - 1) & 1 else value


class Processor:
    """One unit of an i386 over [low, high) of the memory. `port_in` and `port_out` may raise Stop."""

    def __init__(self, memory, low, high, ports):
        self.memory, self.low, self.high, self.ports = memory, low, high, ports

    # Memory and operands.

    def check(self, place, count, kind):
        if not (self.low <= place and place + count <= self.high):
            raise Stop(kind, place)

    def load(self, place, bits):
        self.check(place, bits // 8, "load")
        return int.from_bytes(self.memory[place:place + bits // 8], "little")

    def store(self, place, value, bits):
        self.check(place, bits // 8, "store")
        self.stores.append((place, (value & ((1 << bits) - 1)).to_bytes(bits // 8, "little")))

    def byte(self):
        if not self.low <= self.at < self.high:
            raise Stop("fetch", self.at)
        self.at += 1
        return self.memory[self.at - 1]

    def immediate(self, bits):
        return sum(self.byte() << 8 * i for i in range(bits // 8))

    def near(self, bits):
        return signed(self.immediate(bits), bits)

    def get(self, number, bits):
        if bits == 8:
            return self.r[number & 3] >> (8 if number & 4 else 0) & 0xff
        return self.r[number] & ((1 << bits) - 1)

    def set(self, number, value, bits):
        if bits == 32:
            self.r[number] = value & 0xffffffff
        elif bits == 16:
            self.r[number] = self.r[number] & 0xffff0000 | value & 0xffff
        else:
            shift = 8 if number & 4 else 0
            self.r[number & 3] = self.r[number & 3] & ~(0xff << shift) & 0xffffffff | (value & 0xff) << shift

    def modrm(self):
        """The reg field, and the operand: a register's number, or None and an address."""
        first = self.byte()
        mod, reg, rm = first >> 6, first >> 3 & 7, first & 7
        if mod == 3:
            return reg, (rm, None)
        place = 0
        if rm == 4:
            sib = self.byte()
            scale, index, rm = sib >> 6, sib >> 3 & 7, sib & 7
            if index != 4:
                place = self.r[index] << scale
        if rm == 5 and mod == 0:
            place += self.immediate(32)
        else:
            place += self.r[rm]
        if mod == 1:
            place += self.near(8)
        elif mod == 2:
            place += self.immediate(32)
        return reg, (None, place & 0xffffffff)

    def read(self, operand, bits):
        return self.get(operand[0], bits) if operand[1] is None else self.load(operand[1], bits)

    def write(self, operand, value, bits):
        if operand[1] is None:
            self.set(operand[0], value, bits)
        else:
            self.store(operand[1], value, bits)

    def push(self, value, bits=32):
        place = (self.r[ESP] - bits // 8) & 0xffffffff
        self.store(place, value, bits)
        self.r[ESP] = place

    def pop(self, bits=32):
        value = self.load(self.r[ESP], bits)
        self.r[ESP] = (self.r[ESP] + bits // 8) & 0xffffffff
        return value

    # Flags and arithmetic.

    def flag(self, mask, on):
        self.eflags = self.eflags | mask if on else self.eflags & ~mask

    def result_flags(self, value, bits):
        self.flag(PF, bin(value & 0xff).count("1") % 2 == 0)
        self.flag(ZF, value == 0)
        self.flag(SF, value >> (bits - 1) & 1)

    def add(self, a, b, carry, bits, keeps_carry=False):
        total = a + b + carry
        value = total & ((1 << bits) - 1)
        if not keeps_carry:
            self.flag(CF, total >> bits)
        whole = signed(a, bits) + signed(b, bits) + carry
        self.flag(OF, whole != signed(value, bits))
        self.flag(AF, (a & 15) + (b & 15) + carry > 15)
        self.result_flags(value, bits)
        return value

    def subtract(self, a, b, borrow, bits, keeps_carry=False):
        total = a - b - borrow
        value = total & ((1 << bits) - 1)
        if not keeps_carry:
            self.flag(CF, total < 0)
        whole = signed(a, bits) - signed(b, bits) - borrow
        self.flag(OF, whole != signed(value, bits))
        self.flag(AF, (a & 15) - (b & 15) - borrow < 0)
        self.result_flags(value, bits)
        return value

    def logic(self, value, bits):
        self.flag(CF | OF, False)
        self.result_flags(value, bits)
        return value

    def arithmetic(self, kind, a, b, bits):
        """ADD OR ADC SBB AND SUB XOR CMP; None where nothing is stored."""
        carry = self.eflags & CF
        if kind in (0, 2):
            return self.add(a, b, carry if kind == 2 else 0, bits)
        if kind in (3, 5, 7):
            value = self.subtract(a, b, carry if kind == 3 else 0, bits)
            return None if kind == 7 else value
        return self.logic(a | b if kind == 1 else a & b if kind == 4 else a ^ b, bits)

    def shift(self, kind, value, count, bits):
        count &= 31
        if count == 0:
            return value
        top, first = 1 << (bits - 1), value
        for _ in range(count):
            if kind == 0:
                out = value & top != 0
                value = value << 1 & (2 * top - 1) | out
            elif kind == 1:
                out = value & 1
                value = value >> 1 | (top if out else 0)
            elif kind == 4:
                out = value & top != 0
                value = value << 1 & (2 * top - 1)
            elif kind in (5, 7):
                out = value & 1
                value = value >> 1 | (value & top if kind == 7 else 0)
            else:
                raise Unknown("a rotation through the carry")
            self.flag(CF, out)
        if count == 1:
            overflow = {0: bool(value & top) != bool(out), 1: bool(value & top) != bool(value & top >> 1), 4: bool(value & top) != bool(out),
                        5: bool(first & top), 7: False}[kind]
            self.flag(OF, overflow)
        if kind >= 4:
            self.result_flags(value, bits)
        return value

    def condition(self, code):
        f = self.eflags
        less = bool(f & SF) != bool(f & OF)
        holds = [f & OF, f & CF, f & ZF, f & (CF | ZF), f & SF, f & PF, less, f & ZF or less][code >> 1]
        return bool(holds) != bool(code & 1)

    def multiply(self, kind, value, bits):
        """MUL, IMUL, DIV, IDIV of the accumulator."""
        full = (1 << bits) - 1
        if kind in (4, 5):
            a = self.get(EAX, bits)
            product = a * value if kind == 4 else signed(a, bits) * signed(value, bits)
            low, high = product & full, product >> bits & full
            self.set_pair(low, high, bits)
            wide = high != 0 if kind == 4 else product != signed(low, bits)
            self.flag(CF | OF, wide)
            return
        a = self.get(EAX, 16) if bits == 8 else self.get(EDX, bits) << bits | self.get(EAX, bits)
        if value == 0:
            raise Trap(0)
        if kind == 6:
            quotient, rest = divmod(a, value)
            fits = quotient <= full
        else:
            a, value = signed(a, 2 * bits), signed(value, bits)
            quotient = abs(a) // abs(value) * (1 if (a < 0) == (value < 0) else -1)
            rest = a - quotient * value
            fits = -(full + 1) // 2 <= quotient <= full // 2
        if not fits:
            raise Trap(0)
        self.set_pair(quotient & full, rest & full, bits)

    def set_pair(self, low, high, bits):
        if bits == 8:
            self.set(EAX, high << 8 | low, 16)
        else:
            self.set(EAX, low, bits)
            self.set(EDX, high, bits)

    # One unit.

    def unit(self, registers, own_flag):
        """Performs a unit, or raises what came instead, and then nothing has changed but, behind a Gate, EIP. `own_flag` says whether CLI and its
        kin are the activity's."""
        self.r, self.eflags = registers.r[:], registers.eflags
        self.at, self.stores, self.own_flag = registers.eip, [], own_flag
        self.start = registers.eip
        try:
            self.instruction()
        except Gate:
            registers.eip = self.at
            raise
        for place, some in self.stores:
            self.memory[place:place + len(some)] = some
        registers.r, registers.eflags, registers.eip = self.r, self.eflags, self.at & 0xffffffff

    def instruction(self):
        wide, repeat = 32, None
        while True:
            code = self.byte()
            if code == 0x66:
                wide = 16
            elif code in (0xf2, 0xf3):
                repeat = code
            elif code in (0x26, 0x2e, 0x36, 0x3e, 0x64, 0x65, 0xf0):
                pass
            else:
                break
        bits = wide if code & 1 else 8
        if code == 0x0f:
            self.two_bytes(self.byte(), wide)
        elif code < 0x40 and code & 7 < 6:
            self.first_row(code, bits)
        elif 0x40 <= code < 0x50:
            change = self.add if code < 0x48 else self.subtract
            self.set(code & 7, change(self.get(code & 7, wide), 1, 0, wide, True), wide)
        elif code < 0x58 and code >= 0x50:
            self.push(self.get(code & 7, wide), wide)
        elif 0x58 <= code < 0x60:
            self.set(code & 7, self.pop(wide), wide)
        elif code == 0x60:
            before = self.r[:]
            for number in range(8):
                self.push(before[number])
        elif code == 0x61:
            for number in (EDI, ESI, EBP, None, EBX, EDX, ECX, EAX):
                if number is None:
                    self.r[ESP] = (self.r[ESP] + 4) & 0xffffffff
                else:
                    self.r[number] = self.pop()
        elif code in (0x68, 0x6a):
            self.push(self.immediate(wide) if code == 0x68 else self.near(8), wide)
        elif code in (0x69, 0x6b):
            reg, operand = self.modrm()
            number = self.near(wide) if code == 0x69 else self.near(8)
            self.set(reg, self.short_product(self.read(operand, wide), number, wide), wide)
        elif 0x70 <= code < 0x80:
            distance = self.near(8)
            if self.condition(code & 15):
                self.at = self.at + distance & 0xffffffff
        elif code in (0x80, 0x81, 0x83):
            kind, operand = self.modrm()
            number = self.immediate(bits) if code != 0x83 else self.near(8) & ((1 << wide) - 1)
            value = self.arithmetic(kind, self.read(operand, bits), number, bits)
            if value is not None:
                self.write(operand, value, bits)
        elif code in (0x84, 0x85):
            reg, operand = self.modrm()
            self.logic(self.read(operand, bits) & self.get(reg, bits), bits)
        elif code in (0x86, 0x87):
            reg, operand = self.modrm()
            value = self.read(operand, bits)
            self.write(operand, self.get(reg, bits), bits)
            self.set(reg, value, bits)
        elif code in (0x88, 0x89):
            reg, operand = self.modrm()
            self.write(operand, self.get(reg, bits), bits)
        elif code in (0x8a, 0x8b):
            reg, operand = self.modrm()
            self.set(reg, self.read(operand, bits), bits)
        elif code == 0x8d:
            reg, operand = self.modrm()
            if operand[1] is None:
                raise Trap(6)
            self.set(reg, operand[1], wide)
        elif code == 0x8f:
            raise Unknown("POP of an operand in memory")
        elif 0x90 <= code < 0x98:
            value = self.get(EAX, wide)
            self.set(EAX, self.get(code & 7, wide), wide)
            self.set(code & 7, value, wide)
        elif code == 0x98:
            self.set(EAX, signed(self.get(EAX, wide // 2), wide // 2), wide)
        elif code == 0x99:
            self.set(EDX, -1 if signed(self.get(EAX, wide), wide) < 0 else 0, wide)
        elif code in (0x9c, 0x9d, 0xfa, 0xfb, 0xcf, 0xf4):
            self.flag_instruction(code)
        elif code in (0xa0, 0xa1):
            self.set(EAX, self.load(self.immediate(32), bits), bits)
        elif code in (0xa2, 0xa3):
            self.store(self.immediate(32), self.get(EAX, bits), bits)
        elif code in (0xa4, 0xa5, 0xaa, 0xab):
            self.string(code, bits, repeat)
        elif code in (0xa8, 0xa9):
            self.logic(self.get(EAX, bits) & self.immediate(bits), bits)
        elif 0xb0 <= code < 0xc0:
            bits = 8 if code < 0xb8 else wide
            self.set(code & 7, self.immediate(bits), bits)
        elif code in (0xc0, 0xc1, 0xd0, 0xd1, 0xd2, 0xd3):
            kind, operand = self.modrm()
            count = self.immediate(8) if code < 0xd0 else 1 if code < 0xd2 else self.r[ECX]
            self.write(operand, self.shift(kind, self.read(operand, bits), count, bits), bits)
        elif code in (0xc2, 0xc3):
            count = self.immediate(16) if code == 0xc2 else 0
            self.at = self.pop()
            self.r[ESP] = (self.r[ESP] + count) & 0xffffffff
        elif code in (0xc6, 0xc7):
            _, operand = self.modrm()
            self.write(operand, self.immediate(bits), bits)
        elif code == 0xc9:
            self.r[ESP] = self.r[EBP]
            self.r[EBP] = self.pop()
        elif code == 0xcc:
            raise Gate(3)
        elif code == 0xcd:
            raise Gate(self.byte())
        elif code in (0xe2, 0xe3):
            distance = self.near(8)
            if code == 0xe2:
                self.r[ECX] = (self.r[ECX] - 1) & 0xffffffff
            if (self.r[ECX] != 0) == (code == 0xe2):
                self.at = self.at + distance & 0xffffffff
        elif code in (0xe4, 0xe6, 0xec, 0xee):
            port = self.immediate(8) if code < 0xec else self.r[EDX] & 0xffff
            if code & 2:
                self.ports.port_out(port, self.get(EAX, 8))
            else:
                self.set(EAX, self.ports.port_in(port), 8)
        elif code == 0xe8:
            distance = self.near(32)
            self.push(self.at)
            self.at = self.at + distance & 0xffffffff
        elif code in (0xe9, 0xeb):
            distance = self.near(32 if code == 0xe9 else 8)
            self.at = self.at + distance & 0xffffffff
        elif code in (0xf6, 0xf7):
            self.group_three(bits)
        elif code in (0xf5, 0xf8, 0xf9):
            self.flag(CF, not self.eflags & CF if code == 0xf5 else code == 0xf9)
        elif code in (0xfc, 0xfd):
            self.flag(DF, code == 0xfd)
        elif code in (0xfe, 0xff):
            self.group_five(bits)
        elif code in (0xd8, 0xd9, 0xda, 0xdb, 0xdc, 0xdd, 0xde, 0xdf, 0x62, 0x63):
            raise Trap(6)
        else:
            raise Unknown(f"{code:02x}h at {self.start:x}h")

    def first_row(self, code, bits):
        kind, form = code >> 3, code & 7
        if form >= 4:
            value = self.arithmetic(kind, self.get(EAX, bits), self.immediate(bits), bits)
            if value is not None:
                self.set(EAX, value, bits)
            return
        reg, operand = self.modrm()
        a, b = self.read(operand, bits), self.get(reg, bits)
        value = self.arithmetic(kind, a, b, bits) if form < 2 else self.arithmetic(kind, b, a, bits)
        if value is not None:
            self.write(operand if form < 2 else (reg, None), value, bits)

    def short_product(self, value, number, bits):
        product = signed(value, bits) * signed(number & ((1 << bits) - 1), bits)
        low = product & ((1 << bits) - 1)
        self.flag(CF | OF, product != signed(low, bits))
        return low

    def two_bytes(self, code, wide):
        if 0x80 <= code < 0x90:
            distance = self.near(32)
            if self.condition(code & 15):
                self.at = self.at + distance & 0xffffffff
        elif 0x90 <= code < 0xa0:
            _, operand = self.modrm()
            self.write(operand, int(self.condition(code & 15)), 8)
        elif code == 0xaf:
            reg, operand = self.modrm()
            self.set(reg, self.short_product(self.get(reg, wide), self.read(operand, wide), wide), wide)
        elif code in (0xb6, 0xb7, 0xbe, 0xbf):
            reg, operand = self.modrm()
            bits = 16 if code & 1 else 8
            value = self.read(operand, bits)
            self.set(reg, signed(value, bits) if code >= 0xbe else value, wide)
        elif code == 0x0b:
            raise Trap(6)
        elif code == 0xba:
            kind, operand = self.modrm()
            bit = 1 << (self.byte() % wide)
            value = self.read(operand, wide)
            if kind < 4:
                raise Trap(6)
            self.flag(CF, value & bit)
            if kind > 4:
                self.write(operand, {5: value | bit, 6: value & ~bit, 7: value ^ bit}[kind], wide)
        elif code in (0xa3, 0xab):
            reg, operand = self.modrm()
            if operand[1] is not None:
                raise Unknown("a test of a bit in memory")
            bit = 1 << (self.get(reg, wide) % wide)
            value = self.read(operand, wide)
            self.flag(CF, value & bit)
            if code == 0xab:
                self.write(operand, value | bit, wide)
        else:
            raise Unknown(f"0f {code:02x} at {self.start:x}h")

    def flag_instruction(self, code):
        if not self.own_flag:
            name = {0x9c: "pushf", 0x9d: "popf", 0xfa: "cli", 0xfb: "sti", 0xcf: "iret", 0xf4: "hlt"}[code]
            raise Stop(name)
        if code in (0xcf, 0xf4):
            raise Stop("privileged")
        if code == 0x9c:
            self.push(self.eflags)
        elif code == 0x9d:
            self.eflags = self.pop() & (CF | PF | AF | ZF | SF | IF | DF | OF) | 2
        else:
            self.flag(IF, code == 0xfb)

    def string(self, code, bits, repeat):
        if repeat is not None and self.r[ECX] == 0:
            return
        step = bits // 8 * (-1 if self.eflags & DF else 1)
        if code in (0xa4, 0xa5):
            self.store(self.r[EDI], self.load(self.r[ESI], bits), bits)
            self.r[ESI] = (self.r[ESI] + step) & 0xffffffff
        else:
            self.store(self.r[EDI], self.get(EAX, bits), bits)
        self.r[EDI] = (self.r[EDI] + step) & 0xffffffff
        if repeat is not None:
            self.r[ECX] -= 1
            if self.r[ECX]:
                self.at = self.start

    def group_three(self, bits):
        kind, operand = self.modrm()
        if kind == 0:
            number = self.immediate(bits)
            self.logic(self.read(operand, bits) & number, bits)
            return
        value = self.read(operand, bits)
        if kind == 2:
            self.write(operand, ~value & ((1 << bits) - 1), bits)
        elif kind == 3:
            self.write(operand, self.subtract(0, value, 0, bits), bits)
        elif kind >= 4:
            self.multiply(kind, value, bits)
        else:
            raise Trap(6)

    def group_five(self, bits):
        kind, operand = self.modrm()
        if kind in (0, 1):
            change = self.add if kind == 0 else self.subtract
            self.write(operand, change(self.read(operand, bits), 1, 0, bits, True), bits)
        elif bits == 8 or kind in (3, 5, 7):
            raise Trap(6)
        else:
            value = self.read(operand, bits)
            if kind == 6:
                self.push(value, bits)
                return
            if kind == 2:
                self.push(self.at)
            self.at = value


class SerialPort:
    """A 16550, by docs/MACHINE.md."""

    def __init__(self):
        self.ier = self.lcr = self.mcr = self.scratch = self.divisor = 0
        self.fifos = self.overrun = self.timeout = self.empty_pending = False
        self.trigger, self.timer = 1, 0
        self.received, self.sending = [], []
        self.shifting, self.shift_left = None, 0
        self.level = False

    def tick(self):
        """A byte that leaves, or nothing."""
        left = None
        if self.shifting is not None:
            self.shift_left -= 1
            if self.shift_left == 0:
                left, self.shifting = self.shifting, None
        if self.shifting is None and self.sending:
            self.shifting, self.shift_left = self.sending.pop(0), 32
            if not self.sending:
                self.empty_pending = True
        if self.fifos and self.received and self.timer > 0:
            self.timer -= 1
            if self.timer == 0:
                self.timeout = True
        return left

    def receive(self, byte):
        if len(self.received) >= (16 if self.fifos else 1):
            self.overrun = True
            if not self.fifos:
                self.received = [byte]
        else:
            self.received.append(byte)
        self.timer = 128

    def cause(self):
        if self.ier & 4 and self.overrun:
            return 6
        if self.ier & 1 and len(self.received) >= (self.trigger if self.fifos else 1):
            return 4
        if self.ier & 1 and self.timeout:
            return 12
        if self.ier & 2 and self.empty_pending:
            return 2
        return 1

    def rises(self):
        before, self.level = self.level, self.cause() != 1 and self.mcr & 8 != 0
        return self.level and not before

    def read(self, offset):
        latch = self.lcr & 0x80
        if offset == 0:
            if latch:
                return self.divisor & 0xff
            byte = self.received.pop(0) if self.received else 0
            self.timeout, self.timer = False, 128
            return byte
        if offset == 1:
            return self.divisor >> 8 if latch else self.ier
        if offset == 2:
            cause = self.cause()
            if cause == 2:
                self.empty_pending = False
            return cause | (0xc0 if self.fifos else 0)
        if offset == 5:
            value = bool(self.received) | self.overrun << 1 | (not self.sending) << 5 | (not self.sending and self.shifting is None) << 6
            self.overrun = False
            return value
        return [None, None, None, self.lcr, self.mcr, None, 0, self.scratch][offset]

    def write(self, offset, value):
        latch = self.lcr & 0x80
        if offset == 0 and latch:
            self.divisor = self.divisor & 0xff00 | value
        elif offset == 0:
            if not self.fifos:
                self.sending = [value]
            elif len(self.sending) < 16:
                self.sending.append(value)
            self.empty_pending = False
        elif offset == 1 and latch:
            self.divisor = self.divisor & 0xff | value << 8
        elif offset == 1:
            if value & 2 and not self.ier & 2 and not self.sending:
                self.empty_pending = True
            self.ier = value & 15
        elif offset == 2:
            on = bool(value & 1)
            empty_both = on != self.fifos
            self.fifos = on
            if empty_both or on and value & 2:
                self.received, self.timeout = [], False
            if empty_both or on and value & 4:
                self.sending = []
            if on:
                self.trigger = (1, 4, 8, 14)[value >> 6]
        elif offset == 3:
            self.lcr = value
        elif offset == 4:
            self.mcr = value & 15
        elif offset == 7:
            self.scratch = value


class Ports:
    """The ports of one side: its own serial port, and who is told of its line."""

    def __init__(self, serial, base, refused, rise):
        self.serial, self.base, self.refused, self.rise = serial, base, refused, rise

    def is_own(self, port):
        if port in EXECUTIVES_PORTS or self.refused <= port < self.refused + 8:
            raise Stop("port", port)
        return self.base <= port < self.base + 8

    def port_in(self, port):
        if not self.is_own(port):
            return 0xff
        value = self.serial.read(port - self.base)
        if self.serial.rises():
            self.rise()
        return value

    def port_out(self, port, value):
        if self.is_own(port):
            self.serial.write(port - self.base, value)
            if self.serial.rises():
                self.rise()


class Thread:
    def __init__(self, registers, priority, since):
        self.registers, self.priority, self.since = registers, priority, since
        self.due, self.period, self.next = None, 0, 0


class Fifo:
    def __init__(self, size):
        self.size, self.bytes, self.handler, self.mark = size, b"", 0, False


class Machine:
    """A system: sizes, the image's entry, the inits' entries, and a script as tick, kind and number."""

    def __init__(self, memory, guest_memory, entry, inits, script, version=1):
        self.memory, self.g, self.end, self.version = memory, guest_memory, len(memory), version
        memory[self.g:self.g + 2] = b"\xcd\xf9"
        self.script = {}
        for tick, kind, number in script:
            self.script.setdefault(tick, []).append((kind, number))
        self.com1, self.com2 = SerialPort(), SerialPort()
        self.guest_side = Processor(memory, 0, self.g, Ports(self.com1, COM1, COM2, lambda: self.rise(4)))
        self.real_time_side = Processor(memory, self.g, self.end, Ports(self.com2, COM2, COM1, lambda: self.rise(3)))
        self.guest = Registers(eip=entry, esp=self.g)
        self.mode, self.flag, self.shadow, self.mask, self.asked = "runs", False, False, 0xffffffff, set()
        self.table, self.entries, self.timer_period, self.timer_due = 0, 0, 0, None
        self.inits = list(enumerate(inits))
        self.threads, self.ready, self.fifos = {}, [], {}
        self.held, self.called, self.soft = {}, set(), set()
        self.short = None                       # the registers of the init or handler that runs
        self.on, self.now, self.lines = None, 0, []

    def say(self, letter, *words):
        self.here.append((letter, " ".join(str(word) for word in words)))

    def rise(self, line):
        if line in self.held:
            self.called.add(line)
        elif line != 3:
            self.asked.add(line)

    def run(self, ticks):
        """All lines, as text."""
        texts = []
        for _ in range(ticks):
            self.here = []
            self.tick()
            for letter in "RG":
                texts += [f"{letter} {self.now} {words}" for l, words in self.here if l == letter]
        sides = [hashlib.sha256(self.memory[low:high]).hexdigest() for low, high in ((0, self.g), (self.g, self.end))]
        texts.append(f"R {ticks} end {len(self.threads)} {len(self.ready)}")
        texts.append(f"R {ticks} memory {sides[1]}")
        words = [self.guest.eip, self.with_flag(), *self.guest.r]
        texts.append(f"G {ticks} end {self.mode} " + " ".join(f"{word:08x}" for word in words))
        texts.append(f"G {ticks} memory {sides[0]}")
        return "".join(text + "\n" for text in texts)

    def with_flag(self):
        return self.guest.eflags & ~IF | (IF if self.flag else 0)

    # A tick.

    def tick(self):
        self.now += 1
        self.devices()
        drains = self.on is None or self.on == "guest" or self.on.startswith("thread") and bool(
            self.threads[self.number(self.on)].registers.eflags & IF)
        if drains:
            self.release()
        picked = self.pick(drains)
        if picked != self.on:
            self.say("R", "on", picked)
        self.on = picked
        if picked == "guest":
            self.guest_unit()
        else:
            self.activity_unit(picked)

    @staticmethod
    def number(who):
        return int(who.split()[1])

    def devices(self):
        for name, letter, port in (("com1", "G", self.com1), ("com2", "R", self.com2)):
            left = port.tick()
            if left is not None:
                self.say(letter, name, f"{left:02x}")
        risen = set()
        for kind, number in self.script.get(self.now, ()):
            if kind == "line":
                risen.add(number)
            else:
                (self.com1 if kind == "com1" else self.com2).receive(number)
        if self.com1.rises():
            risen.add(4)
        if self.com2.rises():
            risen.add(3)
        for line in risen:
            self.rise(line)
        if self.timer_due is not None and self.timer_due <= self.now:
            self.asked.add(0)
            self.timer_due += ((self.now - self.timer_due) // self.timer_period + 1) * self.timer_period

    def release(self):
        came = sorted((thread.due, number) for number, thread in self.threads.items() if thread.due is not None and thread.due <= self.now)
        for due, number in came:
            self.threads[number].due, self.threads[number].since = None, due
            self.ready.append(number)
            self.say("R", "release", number)

    def pick(self, drains):
        if self.on is not None and self.on.split()[0] in ("init", "irq", "fifo"):
            return self.on
        if self.inits:
            number, entry = self.inits.pop(0)
            return self.begin("init", number, entry)
        if drains:
            for line in HANDLER_ORDER:
                if line in self.called:
                    self.called.discard(line)
                    return self.begin("irq", line, self.held[line])
            for number in sorted(self.fifos):
                if self.fifos[number].mark:
                    self.fifos[number].mark = False
                    return self.begin("fifo", number, self.fifos[number].handler)
        if self.ready:
            return f"thread {self.first()}"
        return "guest"

    def first(self):
        best = max(self.threads[number].priority for number in self.ready)
        equals = [number for number in self.ready if self.threads[number].priority == best]
        return equals[0] if self.version == 1 else min(equals, key=lambda number: self.threads[number].since)

    def begin(self, kind, number, entry):
        self.memory[self.end - 4:self.end] = struct.pack("<I", self.g)
        self.short = Registers(entry, self.end - 4, number)
        return f"{kind} {number}"

    # The guest.

    def guest_unit(self):
        if self.mode == "stopped":
            return
        entered = [line for line in sorted(self.asked) if not self.mask >> line & 1]
        try:
            if self.flag and not self.shadow and entered:
                if self.enter("enter", 32 + entered[0], self.guest.eip):
                    self.asked.discard(entered[0])
                    self.mode = "runs"
                return
            if self.mode == "halted":
                return
            shadow, self.shadow = self.shadow, False
            try:
                self.guest_side.unit(self.guest, False)
            except Trap as trap:
                if not self.enter("int", trap.vector, self.guest.eip):
                    self.shadow = shadow
            except Gate as gate:
                self.soft_gate(gate.number, shadow)
        except Stop as stop:
            self.say("G", "breach", stop.kind, *self.breach_detail(stop))
            self.mode = "stopped"

    @staticmethod
    def breach_detail(stop):
        if stop.kind == "int":
            return [str(stop.detail)]
        if stop.kind == "port":
            return [f"{stop.detail:04x}"]
        return [f"{stop.detail:08x}"] if stop.kind in ("fetch", "load", "store") else []

    def enter(self, name, vector, back):
        """An entry, with its line; or a shutdown."""
        place = self.table + 8 * vector
        present = vector < self.entries
        attribute = self.memory[place + 5] if present else 0
        if not present or not attribute & 0x80 or attribute & 0x1f not in (0x0e, 0x0f):
            self.say("G", "shutdown", vector)
            self.mode = "stopped"
            return False
        esp = self.guest.r[ESP]
        frame = []
        for word in (self.with_flag(), 8, back):
            esp = (esp - 4) & 0xffffffff
            self.guest_side.check(esp, 4, "store")
            frame.append((esp, word))
        offset, high = struct.unpack_from("<H", self.memory, place)[0], struct.unpack_from("<H", self.memory, place + 6)[0]
        for at, word in frame:
            self.memory[at:at + 4] = struct.pack("<I", word)
        self.guest.r[ESP], self.guest.eip = esp, high << 16 | offset
        if attribute & 0x1f == 0x0e:
            self.flag = False
        self.say("G", name, vector)
        return True

    def soft_gate(self, number, shadow):
        guest, side = self.guest, self.guest_side
        start = side.start
        try:
            if number == 0xf0:
                self.flag = False
            elif number == 0xf1:
                self.shadow = not self.flag
                self.flag = True
            elif number == 0xf2:
                words = [side.load(guest.r[ESP] + 4 * at, 32) for at in range(3)]
                guest.r[ESP] = (guest.r[ESP] + 12) & 0xffffffff
                guest.eip = words[0]
                self.take_flags(words[2])
            elif number == 0xf3:
                side.check(guest.r[ESP] - 4, 4, "store")
                guest.r[ESP] -= 4
                self.memory[guest.r[ESP]:guest.r[ESP] + 4] = struct.pack("<I", self.with_flag())
            elif number == 0xf4:
                word = side.load(guest.r[ESP], 32)
                guest.r[ESP] += 4
                self.take_flags(word)
            elif number == 0xf5:
                self.mode = "halted"
                self.say("G", "halt")
            elif number == 0xf6:
                self.call()
            elif number > 0xf6:
                raise Stop("int", number)
            elif not self.enter("int", number, guest.eip):
                guest.eip, self.shadow = start, shadow
        except Stop:
            guest.eip = start
            raise

    def take_flags(self, word):
        self.guest.eflags = word & (CF | PF | AF | ZF | SF | DF | OF) | 2
        self.flag = bool(word & IF)

    def call(self):
        r = self.guest.r
        function, b, c, d = r[EAX], r[EBX], r[ECX], r[EDX]
        result = EINVAL
        if function == 1 and c <= 256 and b + 8 * c <= self.g:
            self.table, self.entries, result = b, c, 0
        elif function == 2:
            self.mask, result = b, 0
        elif function == 3 and b <= LONGEST:
            self.timer_period, self.timer_due, result = b, self.now + b if b else None, 0
        elif function in (4, 5) and d <= 256:
            result = self.guest_fifo(function == 4, b, c, d)
        elif function == 6:
            result = self.now
        r[EAX] = result & 0xffffffff

    def guest_fifo(self, puts, number, place, count):
        self.range_check(self.guest_side, place, count, "load" if puts else "store")
        fifo = self.fifos.get(number)
        some = b""
        if puts:
            some = bytes(self.memory[place:place + count])
            self.say("G", "put", number, some.hex() or "-")
            result, some = self.fifo_put(fifo, some), b""
        else:
            self.say("G", "get", number, count)
            result, some = self.fifo_get(fifo, count)
            self.memory[place:place + len(some)] = some
        self.say("R", "reply", result, some.hex() or "-")
        if result > 0 and fifo.handler:
            fifo.mark = True
        return result

    @staticmethod
    def range_check(side, place, count, kind):
        for at in (place, place + count - 1) if count else ():
            if not side.low <= at < side.high:
                raise Stop(kind, place if not side.low <= place < side.high else side.high)

    @staticmethod
    def fifo_put(fifo, some):
        if fifo is None:
            return ENODEV
        if len(fifo.bytes) + len(some) > fifo.size:
            return ENOSPC
        fifo.bytes += some
        return len(some)

    @staticmethod
    def fifo_get(fifo, count):
        if fifo is None:
            return ENODEV, b""
        some, fifo.bytes = fifo.bytes[:count], fifo.bytes[count:]
        return len(some), some

    # The real-time side.

    def activity_unit(self, who):
        thread = self.number(who) if who.startswith("thread") else None
        registers = self.short if thread is None else self.threads[thread].registers
        start, ended = registers.eip, False
        try:
            self.real_time_side.unit(registers, True)
        except Trap as trap:
            ended = self.fault(who, "divide" if trap.vector == 0 else "opcode")
        except Stop as stop:
            ended = self.fault(who, stop.kind if stop.kind in ("port", "privileged") else "memory")
        except Gate as gate:
            if gate.number == 0xf9:
                self.say("R", "ret")
                ended = True
                if thread is not None:
                    self.remove(thread)
            elif gate.number == 0xf8:
                try:
                    self.gate(thread, registers)
                except Stop:
                    registers.eip = start
                    ended = self.fault(who, "memory")
            else:
                registers.eip = start
                ended = self.fault(who, "int")
        goes_on = not ended and (thread is None or thread in self.ready)
        self.on = who if goes_on else None

    def fault(self, who, kind):
        self.say("R", "fault", who, kind)
        number = self.number(who)
        if who.startswith("thread"):
            self.remove(number)
        elif who.startswith("irq") and number in self.held:
            self.free(number)
        elif who.startswith("fifo") and number in self.fifos:
            self.fifos[number].handler, self.fifos[number].mark = 0, False
        return True

    def free(self, line):
        del self.held[line]
        self.called.discard(line)

    def remove(self, number):
        del self.threads[number]
        if number in self.ready:
            self.ready.remove(number)

    def gate(self, caller, registers):
        r = registers.r
        function, b, c, d = r[EAX], r[EBX], r[ECX], r[EDX]
        self.said = None
        result = self.gate_result(function, caller, b, c, d, r[ESI])
        self.say("R", "gate", function, *(f"{word:08x}" for word in (b, c, d, r[ESI])), result)
        if self.said is not None:
            self.say("R", "say", self.said.hex() or "-")
        r[EAX] = result & 0xffffffff

    def gate_result(self, function, caller, b, c, d, s):
        side, threads = self.real_time_side, self.threads
        if function in (13, 14, 24):
            place, count = (b, c) if function == 24 else (c, d)
            if count > 256:
                return EINVAL
            self.range_check(side, place, count, "memory")
        if function in (3, 4, 5, 6, 9, 10) and b not in threads or function in (7, 8, 23) and caller is None:
            return EINVAL
        if function == 1:
            return self.now
        if function == 2:
            return self.create(b, c, d, s)
        if function == 3:
            self.remove(b)
            return 0
        if function == 4:
            self.wait(b, None)
            return 0
        if function == 5:
            if b not in self.ready:
                threads[b].due, threads[b].since = None, self.now
                self.ready.append(b)
            return 0
        if function == 6:
            if not 1 <= d <= LONGEST or c > LATEST_START:
                return EINVAL
            threads[b].period, threads[b].next = d, c
            self.wait(b, c)
            return 0
        if function == 7:
            if threads[caller].period == 0:
                return EINVAL
            threads[caller].next += threads[caller].period
            self.wait(caller, threads[caller].next)
            return 0
        if function == 8:
            return caller
        if function == 9:
            if c > 255:
                return EINVAL
            threads[b].priority = c
            return 0
        if function == 10:
            return threads[b].priority
        if function == 23:
            if not 1 <= b <= LONGEST:
                return EINVAL
            self.wait(caller, self.now + b)
            return 0
        if function == 24:
            self.said = bytes(self.memory[b:b + c])
            return 0
        return self.fifo_gate(function, b, c, d) if 11 <= function <= 17 else self.line_gate(function, b, c)

    def create(self, entry, priority, top, argument):
        if priority > 255 or not (self.g <= top - 4 and top <= self.end):
            return EINVAL
        number = next((number for number in range(64) if number not in self.threads), None)
        if number is None:
            return EAGAIN
        self.memory[top - 4:top] = struct.pack("<I", self.g)
        registers = Registers(entry, top - 4, 0, 2 | IF)
        registers.r[EAX] = argument
        self.threads[number] = Thread(registers, priority, self.now)
        self.ready.append(number)
        return number

    def wait(self, number, due):
        self.threads[number].due = due
        if number in self.ready:
            self.ready.remove(number)

    def fifo_gate(self, function, b, c, d):
        fifo = self.fifos.get(b)
        if function == 11:
            if b > 63 or not 1 <= c <= 16384:
                return EINVAL
            if fifo is not None:
                return EBUSY
            self.fifos[b] = Fifo(c)
            return 0
        if fifo is None:
            return ENODEV
        if function == 12:
            del self.fifos[b]
        elif function == 13:
            return self.fifo_put(fifo, bytes(self.memory[c:c + d]))
        elif function == 14:
            result, some = self.fifo_get(fifo, d)
            self.memory[c:c + len(some)] = some
            return result
        elif function == 15:
            fifo.bytes = b""
        elif function == 16:
            fifo.handler = c
            if c == 0:
                fifo.mark = False
        else:
            return len(fifo.bytes)
        return 0

    def line_gate(self, function, b, c):
        if function == 18:
            if b not in FOR_MODULES:
                return EINVAL
            if b in self.held:
                return EBUSY
            self.held[b] = c
            return 0
        if function == 19:
            if b not in self.held:
                return EINVAL
            self.free(b)
            return 0
        if function == 20:
            line = next((line for line in range(16, 32) if line not in self.soft), None)
            if line is None:
                return EBUSY
            self.soft.add(line)
            return line
        if function == 21:
            if b not in self.soft:
                return EINVAL
            self.soft.discard(b)
            return 0
        if function == 22 and (b <= 15 or b in self.soft):
            self.asked.add(b)
            return 0
        return EINVAL


# Files.

def segments(file):
    """The entry of an ELF image, and its segments as place, bytes and length."""
    entry, headers = struct.unpack_from("<II", file, 24)
    count, = struct.unpack_from("<H", file, 44)
    parts = []
    for at in range(headers, headers + 32 * count, 32):
        kind, offset, place, _, in_file, length = struct.unpack_from("<6I", file, at)
        if kind == 1 and length:
            parts.append((place, file[offset:offset + in_file], length))
    return entry, parts


def read_script(text):
    events = []
    for line in text.splitlines():
        if line and not line.startswith("#"):
            tick, kind, number = line.split()
            events.append((int(tick), kind, int(number) if kind == "line" else int(number, 16)))
    return events


def read_system(path):
    """The fields of a system file that has a line for each."""
    fields = {}
    for line in open(path, encoding="utf-8"):
        if "=" in line and not line.startswith("#"):
            name, value = (part.strip() for part in line.split("=", 1))
            fields[name] = re.findall('"([^"]*)"', value) if value.startswith("[") else value.strip('"') if '"' in value else int(value)
    return fields


def machine_of(system):
    fields = read_system(system)
    g, r = fields["guest_memory"], fields["real_time_memory"]
    memory = bytearray(g + r)
    entries = []
    for name in (fields["image"], *fields.get("modules", ())):
        with open(name, "rb") as file:
            entry, parts = segments(file.read())
        entries.append(entry)
        for place, some, _ in parts:
            memory[place:place + len(some)] = some
    script = []
    if "script" in fields:
        with open(fields["script"], encoding="utf-8") as file:
            script = read_script(file.read())
    return Machine(memory, g, entries[0], entries[1:], script, fields["version"])


if __name__ == "__main__":
    if len(sys.argv) != 3:
        sys.exit("usage: machine_model.py SYSTEM TICKS")
    sys.stdout.write(machine_of(sys.argv[1]).run(int(sys.argv[2])))
