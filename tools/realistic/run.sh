#!/usr/bin/env bash
# Runs a system of the size of a real one and compares what happens in it with its numbers: a kernel of 40 KiB with a timer and an echo over COM1,
# two modules with five periodic threads, two FIFOs, a script of 500 lines, 100,000 ticks. Its files are made here.
# usage: tools/realistic/run.sh PROGRAM
set -euo pipefail
if [ $# != 1 ] || [ ! -x "$1" ]; then
    echo "usage: tools/realistic/run.sh PROGRAM, the built program" >&2
    exit 2
fi
program=$(realpath "$1")
here=$(cd "$(dirname "$0")" && pwd)
export PYTHONDONTWRITEBYTECODE=1
if ! python3 -c 'import sys; sys.exit(sys.version_info < (3, 8))' 2> /dev/null; then
    echo "realistic: skipped, no python3 from 3.8 on, which makes its files"
    exit 0
fi
work=$(mktemp -d)
trap 'rm -rf "$work"' EXIT
"$here/build.py" "$work"
cd "$work"
status=0
"$program" run system.toml --ticks 100000 > trace || status=$?
[ "$status" = 0 ] || { echo "realistic: the run ended with status $status, not 0" >&2; exit 1; }
"$here/check.py" < trace
