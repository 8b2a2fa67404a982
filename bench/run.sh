#!/usr/bin/env bash
# Times the built program on six images and on the systems of bench/systems.py and prints, for each, ticks per second of processor time,
# the rate as a ratio to that of the loop, and peak memory; beside it the same loop in QEMU, one instruction at a time, and in Bochs, where
# these and an assembler are installed. With OTHER, the path of a second program, that takes the same turns, and each rate is given as a
# ratio to its too: so a build before a change and one behind it are compared. All take turns in twenty rounds, or in as many as ROUNDS says,
# and the best of each counts, so that a machine that is slow for a while is so for all of them. All ratios are of one run of this script. It
# builds nothing of the product.
# usage: [OTHER=PROGRAM] [ROUNDS=20] bench/run.sh [PROGRAM]
set -euo pipefail
[ $# -le 1 ] || { echo "usage: bench/run.sh [PROGRAM]" >&2; exit 2; }
program=${1:+$(realpath -m "$1")}
other=${OTHER:+$(realpath -m "$OTHER")}
rounds=${ROUNDS:-20}
[[ $rounds =~ ^[1-9][0-9]{0,3}$ ]] || { echo "bench: ROUNDS is a number from 1 to 9999, not $rounds" >&2; exit 2; }
cd "$(dirname "$0")/.."
program=${program:-$PWD/crates/rtlinux_cli/out/rtlinux_cli}
for built in "$program" ${other:+"$other"}; do
    [ -f "$built" ] && [ -x "$built" ] || { echo "bench: no program at $built: build it first" >&2; exit 1; }
done
export PYTHONDONTWRITEBYTECODE=1
command -v python3 > /dev/null || { echo "bench: no python3, which measures" >&2; exit 1; }
work=$(mktemp -d)
trap 'rm -rf "$work"' EXIT

ticks=3000000
system_ticks=1000000
few=100000
many=10100000

# What is measured, one line each: its name, the ticks of a run or its turns of the loop, then the words of its command.
measure() {
    (IFS=$'\t' && printf '%s\n' "$*") >> "$work/commands"
}

# A run of each program, of so many ticks, which are the last word: measures NAME TICKS WORDS.
programs() {
    local name=$1 count=$2 built
    shift 2
    for built in "$program" ${other:+"$other"}; do
        measure "$name" "$count" "$built" "$@" "$count"
    done
}

# The same on a system of bench/systems.py, whose run does what is measured.
on_system() {
    "$program" run "$work/$2.toml" --ticks 20000 > "$work/trace" || { echo "bench: $2 ended with $?, not 0" >&2; exit 1; }
    bench/systems.py check "$2" 20000 < "$work/trace"
    programs "$1" "$system_ticks" run "$work/$2.toml" --ticks
}

printf '\xcd\xf5' > "$work/halted.bin"                                # the soft hlt
printf '\xb0\x41\x66\xba\xf8\x03\xee\xeb\xfd' > "$work/sends.bin"    # out to 3F8h and a jump back to it
timer='\xb8\3\0\0\0\xbb\xe8\3\0\0\xcd\xf6'                           # function 3 of INT F6h, a period of 1,000 ticks
printf "$timer"'\xeb\xfe' > "$work/masked.bin"                        # a jump to itself, with all lines masked
# A table of 33 descriptors at 100h, of which that of line 0 is present; no line masked; the timer; sti and a jump to itself. At 2Ah
# stands the handler, INC EDX and the gate in place of iret.
printf '\xb8\1\0\0\0\xbb\0\1\0\0\xb9\x21\0\0\0\xcd\xf6\xb8\2\0\0\0\x31\xdb\xcd\xf6'"$timer"'\xcd\xf1\xeb\xfe\x42\xcd\xf2' \
    > "$work/entered.bin"
truncate -s 512 "$work/entered.bin"
printf '\x2a\0\x08\0\0\x8e\0\0' >> "$work/entered.bin"
programs "a loop of two instructions" "$ticks" flat examples/loop.bin
programs "a computation in C, then a jump to itself" "$ticks" flat examples/compute/compute.bin
programs "a halted guest: devices and lines alone" "$ticks" flat "$work/halted.bin"
programs "writes to COM1, one line in 32 ticks" "$ticks" flat "$work/sends.bin"
programs "a timer of 1,000 ticks, its line masked" "$ticks" flat "$work/masked.bin"
programs "a timer of 1,000 ticks, with a handler" "$ticks" flat "$work/entered.bin"
bench/systems.py write "$work"
on_system "64 threads of 64 priorities wait, are released" threads
on_system "FIFOs: 256 bytes there and back in 23 ticks" fifos
made=0
"$program" make 7 --ticks 1 > /dev/null || made=$?
if [ "$made" = 5 ]; then
    echo "make 7: skipped, this program has no such command"
else
    programs "make 7" "$system_ticks" make 7 --ticks
fi

# A ROM that runs the loop so often.
rom() {
    as --32 --defsym COUNT="$1" bench/loop.s -o "$work/loop.o"
    ld -m elf_i386 -Ttext=0 --oformat binary "$work/loop.o" -o "$work/$1.rom" 2>/dev/null
}

# An emulator's rate is the difference of a run with many turns of the loop and one with few, so that its start doesn't count. In its
# words @ROM@ stands for the ROM.
emulator() {
    local name=$1
    shift
    measure "$name" "$few" "${@/@ROM@/$work/$few.rom}"
    measure "$name" "$many" "${@/@ROM@/$work/$many.rom}"
}

if command -v as > /dev/null && command -v ld > /dev/null; then
    rom "$few"
    rom "$many"
    if command -v qemu-system-i386 > /dev/null; then
        single=(-accel "tcg,one-insn-per-tb=on")
        if qemu-system-i386 --help | grep -- -singlestep > /dev/null; then
            single=(-singlestep)
        fi
        emulator "QEMU, one instruction at a time" qemu-system-i386 -display none -serial none -monitor none -nodefaults \
            -device isa-debug-exit,iobase=0xf4 -bios @ROM@ -icount shift=0,sleep=off "${single[@]}"
    else
        echo "QEMU: skipped, not installed"
    fi
    if command -v bochs > /dev/null; then
        # A build without the display that shows nothing gets that of a terminal.
        settings="$work/bochs.settings"
        printf '%s\n' "display_library: nogui" "megs: 32" "log: $work/bochs.log" > "$settings"
        bochs=(env TERM=xterm bochs -q -f "$settings" "romimage: file=@ROM@, address=0xffff0000")
        timeout 60 "${bochs[@]/@ROM@/$work/$few.rom}" <<< c > "$work/bochs.out" 2>&1 || true
        if grep "not available" "$work/bochs.out" > /dev/null; then
            sed -i 's/nogui/term/' "$settings"
        fi
        emulator "Bochs" "${bochs[@]}"
    else
        echo "Bochs: skipped, not installed"
    fi
else
    echo "QEMU and Bochs: skipped, no assembler or linker for their ROM"
fi

echo c > "$work/debugger"
python3 - "$work/commands" "$work/debugger" "$rounds" "$program" ${other:+"$other"} <<'PY'
import re, resource, subprocess, sys, time

commands, debugger, rounds, *programs = sys.argv[1:]
with open(commands) as lines:
    cells = [line.rstrip("\n").split("\t") for line in lines]
# The name, the ticks or turns, the words.
measured = [(name, int(count), tuple(words)) for name, count, *words in cells]
seconds, peak, endless = {}, {}, set()

def spent():
    usage = resource.getrusage(resource.RUSAGE_CHILDREN)
    return usage.ru_utime + usage.ru_stime

# The processor time of one run, which ends within a minute, the most memory that it was seen to have, and its status.
def run(words):
    start, clock, high = spent(), time.monotonic(), 0
    # A Bochs that was built with its debugger waits for the command c.
    with open(debugger) as command_in:
        process = subprocess.Popen(words, stdin=command_in, stdout=subprocess.DEVNULL, stderr=subprocess.DEVNULL)
    while process.poll() is None:
        with open(f"/proc/{process.pid}/status") as status:
            if (found := re.search(r"VmHWM:\s*(\d+)", status.read())):
                high = int(found.group(1))
        if time.monotonic() - clock > 60:
            process.kill()
            process.wait()
            return None, high, 0
        time.sleep(0.001)
    return spent() - start, high, process.returncode

for _ in range(int(rounds)):
    for case in measured:
        if case in endless:
            continue
        taken, high, status = run(case[2])
        # All ticks ran where the status is 0, and with 3 and 4 too, which tell of a breach and a fault.
        if case[2][0] == programs[0] and taken is not None and status not in (0, 3, 4):
            sys.exit(f"bench: {case[0]}: the program ended with {status}")
        if taken is None and case == measured[0]:
            sys.exit(f"bench: {case[1]} ticks of the loop take more than a minute, so there is nothing to compare with")
        if taken is None or case[2][0] in programs and status not in (0, 3, 4):
            endless.add(case)
        else:
            seconds[case] = min(taken, seconds.get(case, taken))
            peak[case] = max(high, peak.get(case, 0))

def report(name, rate, unit, loop, rest=""):
    print(f"{name:46} {rate / 1e6:7.2f} million {unit} per second, {rate / loop:.2f} of the loop{rest}")

def no_end(name):
    print(f"{name}: no end within a minute", file=sys.stderr)

# How the rate of the second program at a case compares, where there is such a program and it runs the case.
def beside(case):
    if len(programs) == 1:
        return ""
    its = (case[0], case[1], (programs[1], *case[2][1:]))
    if its not in seconds:
        return ", which the other doesn't run"
    return f", {seconds[its] / seconds[case]:.2f} of the other's {its[1] / seconds[its] / 1e6:.2f}"

loop = measured[0][1] / seconds[measured[0]]
for case in [case for case in measured if case[2][0] == programs[0]]:
    if case in endless:
        no_end(case[0])
    else:
        report(case[0], case[1] / seconds[case], "ticks", loop, f"{beside(case)}, {peak[case]} KB at most")
emulated = [case for case in measured if case[2][0] not in programs]
for short, long in zip(emulated[::2], emulated[1::2]):
    if short in endless or long in endless:
        no_end(short[0])
    elif seconds[long] - seconds[short] < 0.01:
        print(f"{short[0]}: it didn't run the loop here", file=sys.stderr)
    else:
        report(f"{short[0]}, the same loop", 2 * (long[1] - short[1]) / (seconds[long] - seconds[short]), "instructions", loop)
PY
