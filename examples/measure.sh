#!/usr/bin/env bash
# Measures the program on long scripts: for each, the best of five runs in milliseconds.
set -eu
here="$(cd "$(dirname "${BASH_SOURCE[0]}")" && pwd)"
cd "$here/../crates/ir_cli"
rt run < "$here/types.script" > /dev/null 2>&1
scratch="$(mktemp -d)"
trap 'rm -rf "$scratch"' EXIT
for kind in lets sames; do
    for lines in 10000 100000; do
        "$here/generate.sh" "$kind" "$lines" > "$scratch/script"
        best=
        for _ in 1 2 3 4 5; do
            begin="$(date +%s%N)"
            out/ir_cli < "$scratch/script" > /dev/null
            taken=$((($(date +%s%N) - begin) / 100000))
            if [ -z "$best" ] || [ "$taken" -lt "$best" ]; then best="$taken"; fi
        done
        echo "$kind $lines: $((best / 10)).$((best % 10)) ms"
    done
done
