#!/usr/bin/env bash
# Runs random systems in both versions of the rule that picks among ready threads of equal priority, and compares their real-time lines with those
# of a model, and the first tick that differs with the table.
# usage: tools/versions/run.sh PROGRAM
set -euo pipefail
if [ $# != 1 ] || [ ! -x "$1" ]; then
    echo "usage: tools/versions/run.sh PROGRAM, the built program" >&2
    exit 2
fi
export PYTHONDONTWRITEBYTECODE=1
if ! python3 -c 'import sys; sys.exit(sys.version_info < (3, 8))' 2> /dev/null; then
    echo "versions: skipped, no python3 from 3.8 on, which makes its systems"
    exit 0
fi
exec "$(dirname "$0")/check.py" "$1"
