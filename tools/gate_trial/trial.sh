#!/usr/bin/env bash
# Compares random sequences of 60 gates with a plain model: trial.sh [SEQUENCES], 100,000 where none is said.
# It tries main.rt.txt, a program over the repository's crates that is no crate of the repository, and compares its digests with model.py's.
# Not a part of the gate: it takes some minutes.
set -euo pipefail
here=$(cd "$(dirname "$0")" && pwd)
top=$(cd "$here/../.." && pwd)
sequences=${1:-100000}
part=25000
room=$(mktemp -d)
trap 'rm -rf "$room"' EXIT
cp "$top/HANDLES" "$room"
mkdir "$room/crates"
while read -r name; do
    mkdir "$room/crates/$name"
    cp -r "$top/crates/$name/src" "$top/crates/$name/specs" "$top/crates/$name/proofs" "$room/crates/$name/" 2> /dev/null || true
done < <(ls "$top/crates")
mkdir -p "$room/crates/gate_trial/src"
cp "$here/main.rt.txt" "$room/crates/gate_trial/src/main.rt"
uses="cpu_state flat_memory hard_dispatch executive module_gates pic_8259 rt_fifos rt_irqs rt_ready rt_threads rt_timeline"
{ cat "$top/crates.txt"; echo "gate_trial: $uses"; } > "$room/crates.txt"
cd "$room/crates/gate_trial"
for ((first = 0; first < sequences; first += part)); do
    count=$((sequences - first < part ? sequences - first : part))
    "$here/model.py" "$first" "$count" > "$room/model.$first" &
    model=$!
    rt try --seconds 600 --steps 1000000000000 -- "$first" "$count" > "$room/tried"
    wait "$model"
    if ! diff <(grep '^digest' "$room/tried") "$room/model.$first" > /dev/null; then
        echo "sequences from $first on: the gates and the model differ; 'show' as a third word tells where" >&2
        exit 1
    fi
done
echo "$sequences sequences of 60 gates: the gates and the model agree"
