#!/usr/bin/env bash
# Runs the examples with a built program and compares all that they leave with what is kept beside them, and with what their
# sources say; then tries what a program answers whose words, files or output are refused, and builds the images again.
# usage: examples/check.sh PROGRAM
set -euo pipefail
if [ $# != 1 ] || [ ! -x "$1" ]; then
    echo "usage: examples/check.sh PROGRAM, the built program" >&2
    exit 2
fi
program=$(realpath "$1")
cd "$(dirname "$0")/.."
export PYTHONDONTWRITEBYTECODE=1
work=$(mktemp -d)
trap 'rm -rf "$work"' EXIT

fail() {
    echo "examples: $1" >&2
    exit 1
}

pass() {
    echo "examples: $1"
}

skip() {
    echo "examples: skipped, $1"
}

same() {
    [ "$2" = "$3" ] || fail "$1 gave '$2', not '$3'"
    pass "$1 is what its source says"
}

# Runs the program with the words behind the status, which has to come; its output is in the file `output`.
ends() {
    local status=0
    "$program" "${@:2}" > "$work/output" 2> "$work/error" || status=$?
    [ "$status" = "$1" ] || fail "'${*:2}' ended with status $status, not $1"
    [ ! -s "$work/error" ] || fail "'${*:2}' wrote to standard error"
}

# Runs the program with the words behind the file, and compares the whole output with that file, and the status where one is given first.
kept() {
    kept_ending 0 "$@"
}

kept_ending() {
    ends "$1" "${@:3}"
    cmp "$work/output" "$2" || fail "the output of '${*:3}' differs from $2"
    pass "the output of '${*:3}' is as kept in $2"
}

# The words of the last line, G's end line of `flat`: letter, tick, end, mode, EIP, EFLAGS, EAX, ECX, EDX, EBX, ESP, EBP, ESI, EDI.
end_words() {
    tail -n 1 "$work/output"
}

# Two increments of EAX and a jump back, five ticks long.
kept examples/first.expected flat examples/first.bin 5
same "first.bin" "$(cat "$work/output")" \
    "G 5 end runs 00000002 00000002 00000004 00000000 00000000 00000000 00010000 00000000 00000000 00000000"

# A decrement of ECX and a jump back, a thousand ticks long: 0 less 500.
kept examples/loop.expected flat examples/loop.bin 1000
read -r -a words <<< "$(end_words)"
same "loop.bin" "${words[3]} ${words[4]} ${words[7]}" "runs 00000000 fffffe0c"

# What the host computed from the same C.
kept examples/compute/expected flat examples/compute/compute.bin 100000
read -r -a words <<< "$(end_words)"
same "compute" "${words[6]} ${words[7]} ${words[8]} ${words[9]} ${words[12]} ${words[13]}" "$(cat examples/compute/results)"

# The whole trace is the one that is kept, and it has what the source, the script and the definitions say.
trace() {
    kept "examples/$1/expected" "${@:2}"
    told "$1"
}

told() {
    if command -v python3 > /dev/null; then
        python3 "examples/${2:-check_trace}.py" "$1" < "$work/output" || fail "the trace of $1 isn't what its source says"
        pass "the trace of $1 is what its source says"
    else
        skip "no python3: whether the trace of $1 is what its source says"
    fi
}

# Each line of a trace that a page shows is one of the output that is kept.
shown() {
    local lines other
    lines=$(sed -nE 's/^    ([RGH] [0-9]+ )/\1/p' "$1")
    [ -n "$lines" ] || fail "$1 shows no line of a trace"
    other=$(grep -vxFf <(cat "examples/$2/expected"*) <<< "$lines") || true
    [ -z "$other" ] || fail "$1 shows a line that isn't in examples/$2/expected: $other"
    pass "the lines that $1 shows are as kept"
}

# What a second machine says that a run of a system has to print: it is written from the documents, and its lines are all but H's.
modelled() {
    if command -v python3 > /dev/null; then
        python3 examples/machine_model.py "$1" "$2" > "$work/modelled" || fail "the second machine doesn't run $1"
        cmp <(grep -v '^H ' "$work/output") "$work/modelled" || fail "the second machine says something else of $1"
        pass "the second machine says the same of $1"
    else
        skip "no python3: what the second machine says of $1"
    fi
}

shown README.md first_steps
for page in examples/*/README.md; do
    [ "$page" = examples/labs/README.md ] || shown "$page" "$(basename "$(dirname "$page")")"
done

trace interrupts flat examples/interrupts/interrupts.bin 200
trace transmit flat examples/transmit/transmit.bin 1600

# The example, the ticks, and more words.
system_trace() {
    trace "$1" run "examples/$1/system.toml" --ticks "$2" "${@:3}"
    modelled "examples/$1/system.toml" "$2"
}

system_trace first_steps 1000
system_trace shadow_and_halt 2000
system_trace serial_echo 2500
system_trace round_robin 4000
system_trace timer 90000 --hardware
system_trace threads 6000
system_trace control_loop 26000

# One module, and a system file for each version of the rule that picks among equal priorities.
for version in 1 2; do
    kept "examples/versions/expected_$version" run "examples/versions/system_$version.toml" --ticks 1000
    told "versions_$version"
    modelled "examples/versions/system_$version.toml" 1000
done

# Systems with modules: the status, the example, the ticks.
module_trace() {
    kept_ending "$1" "examples/$2/expected" run "examples/$2/system.toml" --ticks "$3"
    told "$2" check_systems
    modelled "examples/$2/system.toml" "$3"
}

module_trace 0 frank 10000
module_trace 0 sensor_loop 19600
module_trace 0 module_calls 12000
module_trace 0 rate_monotonic 9000
module_trace 0 lent_line 6200
module_trace 4 faults 3000
module_trace 3 breach 6000

# One module beside three guests: the real-time lines are the same to the last byte.
for guest in idle:0 storm:0 wild:3; do
    name=${guest%:*}
    kept_ending "${guest#*:}" "examples/worst_guest/expected_$name" run "examples/worst_guest/$name.toml" --ticks 6000
    told "$name" check_systems
    modelled "examples/worst_guest/$name.toml" 6000
    grep '^R ' "$work/output" > "$work/real_time_$name"
done
cmp "$work/real_time_idle" "$work/real_time_storm" || fail "the real-time lines beside a storm differ from those beside an idle guest"
cmp "$work/real_time_idle" "$work/real_time_wild" || fail "the real-time lines beside a wild guest differ from those beside an idle one"
pass "the real-time lines are the same beside three guests"

# A module whose lines say nothing of the guest below it: beside another kernel the real-time lines are the same.
sed 's#examples/threads/kernel/image.elf#examples/first_steps/image.elf#' examples/threads/system.toml > "$work/other.toml"
ends 0 run "$work/other.toml" --ticks 6000
! cmp -s "$work/output" examples/threads/expected || fail "another kernel under the threads has the same lines"
cmp <(grep '^R ' "$work/output") <(grep '^R ' examples/threads/expected) || fail "the real-time lines of the threads differ beside another kernel"
pass "the real-time lines of the threads are the same beside another kernel"

# Words and files that are refused, files that can't be read, and a breach: the status, and all that is written.
answers() {
    ends "$1" "${@:3}"
    printf '%s\n' "$2" | cmp -s - "$work/output" || fail "'${*:3}' wrote '$(cat "$work/output")', not '$2'"
    pass "'${*:3}' is answered with status $1 and '${2%%$'\n'*}'"
}

# A system file with an image and G.
system() {
    printf 'version = 1\nimage = "%s"\nguest_memory = %s\nreal_time_memory = 65536\n' "$1" "${2:-65536}"
}

# An ELF image of two segments of four bytes, at 1000h and 1002h.
overlapping() {
    printf '\x7fELF\1\1\1\0\0\0\0\0\0\0\0\0\2\0\3\0\1\0\0\0\0\x10\0\0\x34\0\0\0\0\0\0\0\0\0\0\0\x34\0\x20\0\2\0\0\0\0\0\0\0'
    local place
    for place in '\0' '\2'; do
        printf "\\1\\0\\0\\0\\x74\\0\\0\\0$place\\x10\\0\\0\\0\\0\\0\\0\\4\\0\\0\\0\\4\\0\\0\\0\\5\\0\\0\\0\\1\\0\\0\\0"
    done
    printf '\xeb\xfe\xeb\xfe'
}

# A module whose init, at 11000h, divides by EAX, which is 0: its number.
faulting() {
    printf '\x7fELF\1\1\1\0\0\0\0\0\0\0\0\0\2\0\3\0\1\0\0\0\0\x10\1\0\x34\0\0\0\0\0\0\0\0\0\0\0\x34\0\x20\0\1\0\0\0\0\0\0\0'
    printf '\1\0\0\0\x54\0\0\0\0\x10\1\0\0\x10\1\0\2\0\0\0\2\0\0\0\5\0\0\0\1\0\0\0'
    printf '\xf7\xf0'
}

mkdir "$work/files"
(
    cd "$work/files"
    system missing.elf > no_image.toml
    system first.bin > no_elf.toml
    system image.elf > image.toml
    system image.elf 65537 > no_page.toml
    system image.elf | sed 's/version = 1/version = 3/' > no_version.toml
    system overlapping.elf > overlapping.toml
    overlapping > overlapping.elf
    { system image.elf; echo 'script = "missing.script"'; } > no_script.toml
    { system image.elf; echo 'script = "line_four"'; } > bad_script.toml
    { system image.elf; echo 'modules = ["module.o"]'; } > module.toml
    { system image.elf 1048576; echo 'modules = ["module.elf"]'; } > module_below.toml
    { system image.elf; echo 'modules = ["module.elf", "second.elf"]'; } > modules_overlap.toml
    { system image.elf; echo 'modules = ["fault.elf"]'; } > fault.toml
    faulting > fault.elf
    printf '# a line that no script has\n5 line 4\n' > line_four
    echo 'version =' > no_document.toml
    printf '\xfa' > cli.bin
    truncate -s 65536 largest.bin
    truncate -s 65537 large.bin
    truncate -s 33554433 huge.bin
)
cp examples/first.bin examples/first_steps/image.elf examples/threads/module.elf "$work/files"
cp examples/threads/module.elf "$work/files/second.elf"
cd "$work/files"
answers 5 "E usage"
answers 5 "E usage" --help
answers 5 "E usage" run --help
answers 5 "E usage" flat first.bin 5x
answers 5 "E usage" run image.toml --ticks 000000000000000000001
answers 1 "E 40 0" flat first.bin 0
answers 1 "E 40 1000000001" run image.toml --ticks 1000000001
answers 2 "E read missing.bin" flat missing.bin 5
answers 2 "E read missing.toml" run missing.toml --ticks 5
answers 2 "E read missing.elf" run no_image.toml --ticks 5
answers 2 "E read missing.script" run no_script.toml --ticks 5
answers 1 "E 10 no_document.toml" run no_document.toml --ticks 5
answers 1 "E 11 no_page.toml" run no_page.toml --ticks 5
answers 1 "E 11 no_version.toml" run no_version.toml --ticks 5
answers 2 "E read module.o" run module.toml --ticks 5
answers 1 "E 21 module.elf" run module_below.toml --ticks 5
answers 1 "E 22 second.elf" run modules_overlap.toml --ticks 5
answers 1 "E 20.1 first.bin" run no_elf.toml --ticks 5
answers 1 "E 22 overlapping.elf" run overlapping.toml --ticks 5
answers 1 "E 30 line_four 2" run bad_script.toml --ticks 5
answers 1 "E 21 large.bin" flat large.bin 5
answers 1 "E 12 huge.bin" flat huge.bin 5
answers 3 "G 1 breach cli
G 5 end stopped 00000000 00000002 00000000 00000000 00000000 00000000 00010000 00000000 00000000 00000000" flat cli.bin 5
ends 4 run fault.toml --ticks 5
same "a module that divides by zero" "$(head -n 3 "$work/output")" "R 1 on init 0
R 1 fault init 0 divide
R 2 on guest"
ends 0 flat largest.bin 5
pass "an image of 65536 bytes is taken"
ends 7 flat $'\xff' 5
[ ! -s "$work/output" ] || fail "words that are no text were answered with '$(cat "$work/output")'"
pass "words that are no text are answered with status 7 and no output"
cd - > /dev/null

# Standard output that is closed, and one that takes nothing.
unwritable() {
    local status=0
    "$program" "$@" >&- 2> "$work/error" || status=$?
    [ "$status" = 2 ] || fail "'$*' with a closed output ended with status $status, not 2"
    pass "'$*' ends with status 2 where its output is closed"
    if [ -c /dev/full ]; then
        status=0
        "$program" "$@" > /dev/full 2>> "$work/error" || status=$?
        [ "$status" = 2 ] || fail "'$*' with a full output ended with status $status, not 2"
        pass "'$*' ends with status 2 where its output is full"
    else
        skip "no /dev/full: how '$*' ends where its output is full"
    fi
    [ ! -s "$work/error" ] || fail "'$*' with an output that fails wrote to standard error"
}

unwritable flat examples/first.bin 5
unwritable run examples/first_steps/system.toml --ticks 1000
unwritable flat missing.bin 5
unwritable

# The images that are kept are those of their sources. The same compiler has to give the same bytes.
rebuilt() {
    local images image
    make -s -C examples IMAGES="$work/images" > "$work/make" 2>&1 || fail "the images can't be built: $(cat "$work/make")"
    images=$(make -s -C examples list) || fail "make doesn't list the images"
    [ -n "$images" ] || fail "make lists no images"
    for image in $images; do
        cmp "$work/images/$image" "examples/$image" || fail "$image isn't what its sources give"
    done
    pass "the images are what their sources give"
}

# Each lab's solution is what its task asks for, and what is given isn't.
labs() {
    local lab status
    for lab in examples/labs/*/; do
        lab=$(basename "$lab")
        examples/labs/lab.sh check "$program" "$lab" "examples/labs/$lab/solution" > "$work/lab" 2>&1 || fail "the solution of $lab: $(cat "$work/lab")"
        status=0
        examples/labs/lab.sh check "$program" "$lab" "examples/labs/$lab/start" > "$work/lab" 2>&1 || status=$?
        [ "$status" = 1 ] && grep -q '^lab: ' "$work/lab" || fail "what is given for $lab ended its check with status $status: $(cat "$work/lab")"
        pass "the solution of $lab is what its task asks for, and its start isn't"
    done
}

compiler=$(gcc --version 2> /dev/null | head -n 1) || true
linker=$(ld --version 2> /dev/null | head -n 1) || true
if ! command -v make > /dev/null || ! command -v ar > /dev/null || [ -z "$linker" ]; then
    skip "no make or no binutils: the labs, and whether the images are what their sources give"
elif ! echo 'int x;' | gcc -m32 -march=i386 -c -x c - -o "$work/try.o" 2> /dev/null; then
    skip "no gcc -m32: the labs, and whether the images are what their sources give"
else
    if command -v python3 > /dev/null; then
        labs
        python3 examples/try_commands.py "$program" || fail "a page shows a command that doesn't end as it says"
    else
        skip "no python3: the labs, and the commands of the pages"
    fi
    if [ "$compiler, $linker" = "$(cat examples/compiler)" ]; then
        rebuilt
    else
        skip "another compiler ($compiler, $linker): whether the images are what their sources give"
    fi
fi
