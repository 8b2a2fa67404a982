#!/usr/bin/env python3
"""Takes the forms of byte strings from GNU objdump, and prints them as the table src/spellings/forms.rt.

Run it in this crate's folder: tests/objdump_forms.py > src/spellings/forms.rt. With the word check it prints nothing, and
ends with 1 where the table differs from what objdump says today.

Each string is disassembled on its own, in Intel syntax. What a form has beyond objdump's text is its own convention:
CL as a count and DX as a port are registers 1 and 2, a shift by 1 has the number 1, Jcc and SETcc have the condition as
second operand, MOVZX and MOVSX the source's width as third, a displacement counts from the end of the instruction, the
opcodes 6A, 6B and 83 extend their byte to 32 bits where objdump prints 16 of them, the opcodes 90 to 97 have eAX first,
and a form without operands has the width 16 under the prefix 66.
"""
import datetime
import re
import subprocess
import sys
import tempfile

STRINGS = """
# the eight operations: rm b,r; rm v,r; r,rm b; r,rm v; AL,imm8; eAX,imm v
00c8 01d8 020424 2403 0d78563412 09ca 0a4d08 0b8f00010000 1011 11d0 12f3 1314f5e0ff0000 1480 1511223344 18e1 190424
1a4efe 1b5c2404 1cff 1d80000000 20c4 217504 22640a7f 2305efbeadde 247f 25ffff0000 28ed 29d6 2a38 2b3c9d00000000 2c01
2d04030201 30db 31ff 32742510 333424 34aa 3555aa55aa 386f01 39f7 3a8412f0f0f0f0 3bb4b500000080 3c0d 3d00000000
6601d8 66031e 66053412 66294424fe 66392d00100000 663dff7f
# INC, DEC, PUSH and POP of a register, and of all
40 43 664f 48 4c 50 57 6653 5c 58 5d 665e 60 61
# PUSH of an immediate, IMUL of three operands
6878563412 66683412 6a7f 6a80 666afe 69c178563412 66694a043412 6bd0f6 666bf805 6b1c8d000000000a
# Jcc short
7000 7110 72fe 737f 7480 7505 7612 7734 78f0 7901 7a02 7b03 7c04 7d85 7e86 7fff
# immediate, group 1
80c005 804d10ff 80d27f 809f00020000ee 80e4f0 802c2401 80f1aa 803a00
81c000010000 6681c03412 810c8544332211ddccbbaa 81d700000080 819c24000100007f000000 81e6ff0f0000 8168fc00010000 81f3ffffffff 6681faff7f
83c0fe 6683c0fe 834df801 83d1ff 83580403 83e4f0 83ec18 8335887766557f 833cb37f 6683bf0000000080
# TEST, XCHG, MOV, LEA, POP
84c9 85c0 668505785634f2 8411 86c4 8631 87d9 87442404 66871f
88e0 88041e 8945fc 8904cd00000000 668913 8a07 8a6c8d05 8b450c 8b2c24 668b8dfcffffff
8d4508 8d0490 8d34f5f0ffffff 668d5f7f 8d25ffffffff 8f00 8fc1 668f4510 8f8424f8000000
# XCHG with eAX and NOP, CBW to LAHF
90 91 6693 97 6690 98 6698 99 6699 9c 9d 9e 9f
# MOV at an offset, string instructions, TEST with eAX
a078563412 a1efbeadde a244332211 a3000000ff 66a110000000 a4 a5 66a5 a6 a7 66a7 a87f a9f0f0f0f0 66a93412
aa ab 66ab ac ad 66ad ae af 66af f3a4 f3a5 f366a5 f3a6 f2a7 f3aa 66f3ab f3ac f2ae f3af f2f3a4 f3f2ae
# MOV of an immediate
b07f b3ff b401 b710 b878563412 66bbcdab bcfcff0000 bf00000080
# shift, group 2
c0c003 c0490105 c0d307 c01c9801 c0e004 c0e81f c0f802 c1c010 66c1c804 c15508ff c1d901 c1e002 c1e91f 66c1ff08
d0c0 d009 d0d1 d018 d0e2 d0ec d0fe d1c6 d14c2408 d1d0 66d1db d1e0 d12d00040000 d1f8 d2c0 d208 d2d3 d21e d2e1 d26d00 d2fa
d3c0 d3cb 66d3d1 d3d9 d3e0 d3a40b00010000 d3ff
# RET, MOV, LEAVE, interrupts, XLAT
c20800 c2feff c3 c60041 c6c3aa c7c0efbeadde c7042478563412 66c745fe3412 c7848510000000ffffffff c9 cc cd80 cd21 ce cf d7
# loops and JECXZ, IN and OUT, CALL and JMP
e0f0 e110 e2fe e305 e460 e580 66e5f0 e6a0 e743 66e720 e878563412 e8fbffffff e900000080 ebfe eb7f ec ed 66ed ee ef 66ef
# HLT, flags, unary group 3
f4 f5 f8 66f8 f9 fa fb fc fd f6c3ff f6058000000055 f61424 f6d8 f6e1 f66d10 f6f3 f63c8e f7c100000080 66f7c63412 f7d0 f75d08
66f7d9 f7e1 f72c24 f7f6 f73b f7bd00ffffff
# INC and DEC, group 4; indirect, group 5
fec0 fe0c24 ffc7 66ff00 ff4dfc ffc9 ffd0 ff1485f0000000 ff5308 ffe2 ff24b578563412 ff7508 66ff36 ff742410
# Jcc near, SETcc
0f8000010000 0f82f0ffffff 0f8378563412 0f8500000000 0f87ffffff7f 0f8afefffff1 0f8d11000000 0f8f04030201
0f90c0 0f91c3 0f924501 0f93c4 0f94042f 0f95c7 0f96c2 0f970500100000 0f98d9 0f9a00 0f9cfc 0f9e45ff 0f9fc0
# bits, double shifts, IMUL, extensions, scans
0fa3c8 660fa30b 0fab4508 0fb3d1 0fbb1c24 0fbae01f 0fba2d0004000007 660fbaf30f 0fba7c240480
0fa4d805 660fa4cb0c 0fa4550810 0fa5f8 0fa51f 0facd01f 0fac4dfc03 0fadc1 660fade8
0fafc1 660faf5d02 0faf0485f0f0f0f0 0fb6c1 660fb6d8 0fb64f08 0fb7ca 0fb70424 0fbec4 660fbe3e 0fbfd6 0fbf9cc110203040
0fbcc3 660fbc11 0fbd4510 0fbdff
# addressing: displacements alone, SIB with and without base and index, index 100 at each scale
8b05ffffffff 8b04250000000f 8b04e510000080 8b042c 8b4425f8 8b04658000000f 8b8424fcffffff 8b046c 8b0460 8b44a001 8b84e010000000 8b4500
8b6d00 8bad00000000 8b44ed00 8b041b 8b445b01 8b849b00020000 8b04db 8b0c3d00000000 8b0c7d01000000 8b0cbdffffffff 8b5c3e80 8b5c7e7f
# prefixes without effect, and those that are repeated
268b07
2e8b07 368b4500 3e8901 648b0d00000000 658a4301 f00108 f301c8
f301d0 f2f0ff00 2e6626f081003412
6666b83412 666666f3ab f3f3f3a6 f2f2f2f2ae 262e363e646566f3f0a5 2e2e2e2e2e2e2e2e81c078563412
"""

GENERAL = {}
for width, names in (
    ("W8", "al cl dl bl ah ch dh bh"),
    ("W16", "ax cx dx bx sp bp si di"),
    ("W32", "eax ecx edx ebx esp ebp esi edi"),
):
    for number, name in enumerate(names.split()):
        GENERAL[name] = (number, width)

CONDITIONS = {}
for code, names in enumerate(
    "o|no|b c nae|ae nb nc|e z|ne nz|be na|a nbe|s|ns|p pe|np po|l nge|ge nl|le ng|g nle".split("|")
):
    for name in names.split():
        CONDITIONS[name] = code

STRING_OPERATIONS = ("movs", "cmps", "stos", "lods", "scas")
SIZES = {"BYTE": "W8", "WORD": "W16", "DWORD": "W32"}
SIGNED_BYTE_OPCODES = (0x6A, 0x6B, 0x83)
EXCHANGE_OPCODES = range(0x90, 0x98)
PREFIX_BYTES = (0x66, 0xF2, 0xF3, 0x26, 0x2E, 0x36, 0x3E, 0x64, 0x65, 0xF0)
PREFIX_WORDS = {"data16", "lock", "repz", "repnz", "rep", "cs", "ss", "ds", "es", "fs", "gs", "bnd", "xacquire", "xrelease", "addr16"}
SAME = {
    "cwde": "cbw", "cdq": "cwd", "nop": "xchg", "pushw": "push", "popw": "pop", "pushad": "pusha", "popad": "popa",
    "pushfd": "pushf", "popfd": "popf", "iretd": "iret", "retw": "ret", "xlatb": "xlat", "loopz": "loope", "loopnz": "loopne",
    "leavew": "leave", "icebp": "int1", "sal": "shl", "movabs": "mov",
}


def disassembled(text):
    """The length and objdump's text of the first instruction of a string."""
    with tempfile.NamedTemporaryFile(suffix=".bin") as file:
        file.write(bytes.fromhex(text))
        file.flush()
        out = subprocess.run(
            ["objdump", "-D", "-w", "-b", "binary", "-m", "i386", "-M", "intel", file.name],
            check=True, capture_output=True, text=True,
        ).stdout
    line = next(line for line in out.splitlines() if re.match(r"\s+0:\t", line))
    _, shown, words = line.split("\t", 2)
    return len(shown.split()), re.sub(r"\s*#.*", "", words).strip()


def number(text):
    value = int(text, 16) if "0x" in text else int(text)
    return value % 2**32


def memory(text):
    """An address such as ds:0x10 or [eax+ecx*4-0x8]."""
    base, index, displacement = "None", "None", 0
    text = re.sub(r"\b(cs|ds|es|fs|gs|ss):", "", text)
    inner = text.strip("[]")
    for sign, part in re.findall(r"([+-]?)([^+-]+)", inner):
        if "*" in part:
            register, scale = part.split("*")
            if register != "eiz":
                index = "Some((%d, %d))" % (GENERAL[register][0], {"1": 0, "2": 1, "4": 2, "8": 3}[scale])
        elif part in GENERAL:
            base = "Some(%d)" % GENERAL[part][0]
        else:
            displacement = number(part) if sign != "-" else -number(part) % 2**32
    return "Memory(Address { base: %s, index: %s, displacement: %d })" % (base, index, displacement)


def operand(text):
    """An operand, its width where it has one, and what it is."""
    if text in GENERAL:
        return "Register(%d)" % GENERAL[text][0], GENERAL[text][1], "register"
    size = re.match(r"(BYTE|WORD|DWORD) PTR ", text)
    if size or "[" in text or ":" in text:
        return memory(re.sub(r"^\w+ PTR ", "", text)), SIZES[size.group(1)] if size else None, "memory"
    return "Immediate(%d)" % number(text), None, "number"


def form_of(text):
    """The form of a string, each part as Rattle prints it for debugging, and its length."""
    code = bytes.fromhex(text)
    length, words = disassembled(text)
    assert length == len(code), (text, length, words)
    parts = words.split(None)
    repeat = "Once"
    while parts[0] in PREFIX_WORDS:
        repeat = {"rep": "WhileEqual", "repz": "WhileEqual", "repnz": "WhileUnequal"}.get(parts[0], repeat)
        parts = parts[1:]
    name = SAME.get(parts[0], parts[0])
    texts = " ".join(parts[1:]).split(",") if len(parts) > 1 else []
    prefixes = code[: next(i for i, b in enumerate(code) if b not in PREFIX_BYTES)]
    opcode = code[len(prefixes)]
    narrow = 0x66 in prefixes
    unsized = "W16" if narrow else "W32"

    if name in STRING_OPERATIONS:
        widths = [operand(t)[1] for t in texts]
        return name, next(w for w in widths if w), [], repeat, length
    if name == "xlat":
        return name, unsized, [], "Once", length
    if parts[0] == "nop":
        texts = ["eax", "eax"]

    condition = None
    if name.startswith("set"):
        name, condition = "setcc", CONDITIONS[name[3:]]
    elif name.startswith("j") and name[1:] in CONDITIONS:
        name, condition = "jcc", CONDITIONS[name[1:]]

    found = [operand(t) for t in texts]
    widths = [w for _, w, _ in found if w]
    width = widths[0] if widths else unsized
    operands = [o for o, _, _ in found]
    if name in ("jcc", "jmp", "call", "loop", "loope", "loopne", "jecxz") and found[0][2] == "number":
        operands = ["Immediate(%d)" % ((number(texts[0]) - length) % 2**32)]
    elif opcode in EXCHANGE_OPCODES:
        operands.reverse()
    elif opcode in SIGNED_BYTE_OPCODES and code[-1] >= 0x80:
        operands[-1] = "Immediate(%d)" % (number(texts[-1]) | 0xFFFFFF00)
    if condition is not None:
        operands.append("Immediate(%d)" % condition)
    if name == "ret" and not operands:
        operands = ["Immediate(0)"]
    if name in ("movzx", "movsx"):
        operands.append("Immediate(%d)" % {"W8": 8, "W16": 16}[widths[1]])
    if name in ("rol", "ror", "rcl", "rcr", "shl", "shr", "sar") and len(operands) == 1:
        operands.append("Immediate(1)")
    if name == "in":
        width = found[0][1]
    if name == "out":
        width = found[1][1]
    return name, width, operands, "Once", length


def table():
    """The lines of the table."""
    version = subprocess.run(["objdump", "--version"], check=True, capture_output=True, text=True).stdout.splitlines()[0]
    lines = [
        "// Spellings and their forms, by tests/objdump_forms.py on %s with %s." % (datetime.date.today(), version),
        "",
        "/// A line each: the bytes of a spelling, how many there are, its operation, its width, its three operands and its repeat.",
        'pub(super) const FORMS: &str = "\\',
    ]
    for line in STRINGS.strip().splitlines():
        for text in [] if line.startswith("#") else line.split():
            name, width, operands, repeat, length = form_of(text)
            operands = (operands + ["Absent"] * 3)[:3]
            lines.append(" ".join([text, str(length), name.capitalize(), width, *operands, repeat]))
    return lines + ['";']


def main():
    made = table()
    if sys.argv[1:] != ["check"]:
        print("\n".join(made))
        return
    with open("src/spellings/forms.rt", encoding="utf-8") as file:
        kept = file.read().splitlines()
    # the first line has the date and the version
    sys.exit(0 if kept[1:] == made[1:] else 1)


if __name__ == "__main__":
    main()
