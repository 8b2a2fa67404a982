#!/usr/bin/env bash
# Compares `make` with `run` on the files of the same systems, which are written from the table.
#
# usage: run.sh PROGRAM
set -euo pipefail
if [ $# != 1 ] || [ ! -x "$1" ]; then
    echo "usage: tools/made/run.sh PROGRAM, the built program" >&2
    exit 2
fi
folder=$(cd "$(dirname "$0")" && pwd)
if ! python3 -c "import sys; sys.exit(sys.version_info < (3, 8))" 2> /dev/null; then
    echo "tools: skipped, no python3 from 3.8 on: make against run"
    exit 0
fi
PYTHONDONTWRITEBYTECODE=1 python3 "$folder/check.py" "$1"
