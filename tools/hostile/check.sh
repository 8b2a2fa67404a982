#!/usr/bin/env bash
# Hostile use of a built program: damaged files, words, refused memory, output and input that fail, what a real machine does to a program, and shorter
# runs beside longer ones. What has to come is said by docs/FORMATS.md, through oracle.py, and by no run of the program. What isn't
# installed is skipped with a line.
# usage: tools/hostile/check.sh PROGRAM
set -euo pipefail
if [ $# != 1 ] || [ ! -x "$1" ]; then
    echo "usage: tools/hostile/check.sh PROGRAM, the built program" >&2
    exit 2
fi
program=$(realpath "$1")
cd "$(dirname "$0")"
export PYTHONDONTWRITEBYTECODE=1

skip() {
    echo "hostile: skipped, $1"
}

if ! python3 -c 'import sys; sys.exit(sys.version_info < (3, 8))' 2> /dev/null; then
    skip "no python3 from 3.8 on, in which the checks are written"
    exit 0
fi

# The check with a wrong rule has to find a difference.
fails() {
    local said
    if said=$("$1" "$program" --wrong 2>&1); then
        echo "hostile: $1 finds nothing where its rule is wrong" >&2
        exit 1
    fi
    case $said in
    *"hostile: "*", and n"*) ;;
    *) echo "hostile: $1 with a wrong rule says $said" >&2; exit 1 ;;
    esac
}

./campaign.py "$program"
./words.py "$program"
./breaches.py "$program"
./prefixes.py "$program"
./real_machine.py "$program"
fails ./words.py
fails ./breaches.py
fails ./prefixes.py
fails ./real_machine.py
if command -v cc > /dev/null || command -v gcc > /dev/null; then
    ./refused_memory.py "$program"
    ./failing_io.py "$program"
    fails ./refused_memory.py
    fails ./failing_io.py
else
    skip "no cc: refused memory, and reads and writes that fail"
fi
