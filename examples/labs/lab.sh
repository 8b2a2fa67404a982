#!/usr/bin/env bash
# Builds what a folder has for a lab, and runs it or checks it. Nothing is left in the folder.
# usage: examples/labs/lab.sh run PROGRAM LAB FOLDER [--hardware]   prints the run's lines
#        examples/labs/lab.sh check PROGRAM LAB FOLDER    says whether the lab's task is done, by status 0 and a line, or what isn't
# PROGRAM is the built program. LAB is a folder beside this file. FOLDER has the files of its start folder, as they were changed.
set -euo pipefail
usage="usage: examples/labs/lab.sh run PROGRAM LAB FOLDER [--hardware], or check PROGRAM LAB FOLDER"
labs=$(dirname "$(realpath "$0")")
case "$#${1:+ $1}${5:+ $5}" in
    "4 run" | "4 check" | "5 run --hardware") ;;
    *) echo "$usage" >&2; exit 2 ;;
esac
if [ ! -x "$2" ] || [ ! -d "$labs/$3/start" ] || [ ! -d "$4" ]; then
    echo "$usage" >&2
    exit 2
fi
program=$(realpath "$2")
lab=$3
folder=$(realpath "$4")
export PYTHONDONTWRITEBYTECODE=1
work=$(mktemp -d)
trap 'rm -rf "$work"' EXIT

if [ "$lab" = reading_a_trace ]; then
    [ "$1" = check ] || exec cat "$labs/../threads/expected"
    exec python3 "$labs/check_lab.py" "$lab" "$labs/../threads/expected" "$folder/answers"
fi

# A copy, in which the folder stands beside what the lab gives.
mkdir "$work/lab"
cp -r "$labs/$lab/." "$work/lab"
cp -r "$folder" "$work/lab/mine"
cd "$work"
cp "lab/system.toml" .
[ ! -f lab/script ] || cp lab/script .
if [ "$lab" = round_robin ]; then
    "$labs/../build.sh" lab/mine
    cp lab/mine/image.elf kernel.elf
else
    "$labs/../build.sh" lab/mine --module
    cp lab/mine/module.elf .
    if [ -d lab/kernel ]; then
        "$labs/../build.sh" lab/kernel
        cp lab/kernel/image.elf kernel.elf
    else
        cp "$labs/../first_steps/image.elf" kernel.elf
    fi
fi
status=0
"$program" run system.toml --ticks "$(python3 "$labs/check_lab.py" "$lab")" "${@:5}" > trace || status=$?
if [ "$1" = run ]; then
    cat trace
    exit "$status"
fi
[ "$status" = 0 ] || { echo "lab: the run ended with status $status" >&2; exit 1; }
python3 "$labs/check_lab.py" "$lab" trace
