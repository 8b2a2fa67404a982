#!/usr/bin/env bash
# Tries the tools with a built program: their helps and errors, the examples' traces as pictures, dumps, words and response times, the
# commands of docs/PICTURES.md, damaged files, mistakes made on purpose, and the guest that docs/GUESTS_IN_C.md writes. What isn't installed is
# skipped with a line.
# usage: tools/check.sh PROGRAM
set -euo pipefail
if [ $# != 1 ] || [ ! -x "$1" ]; then
    echo "usage: tools/check.sh PROGRAM, the built program" >&2
    exit 2
fi
program=$(realpath "$1")
cd "$(dirname "$0")/.."
export PYTHONDONTWRITEBYTECODE=1

skip() {
    echo "tools: skipped, $1"
}

if ! python3 -c 'import sys; sys.exit(sys.version_info < (3, 8))' 2> /dev/null; then
    skip "no python3 from 3.8 on, in which the tools are written"
    exit 0
fi
python3 tools/tests/check_clauses.py
python3 tools/tests/check_traces.py "$program"
python3 tools/tests/check_pictures.py
python3 tools/tests/check_dumps.py
python3 tools/tests/check_responses.py
python3 tools/tests/check_pictures_page.py "$program"
python3 tools/tests/check_explain.py "$program"

for tool in make ld ar nm addr2line objdump; do
    command -v "$tool" > /dev/null || { skip "no $tool: the guests in C"; exit 0; }
done
object=$(mktemp)
trap 'rm -f "$object"' EXIT
if echo 'int x;' | gcc -m32 -march=i386 -c -x c - -o "$object" 2> /dev/null; then
    python3 tools/tests/check_mistakes.py "$program"
    python3 tools/tests/check_page.py "$program"
else
    skip "no gcc -m32: the guests in C"
fi
