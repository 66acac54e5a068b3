#!/usr/bin/env bash
# Runs the program on real files and devices, and compares the status and the number of bytes written with what is wanted. It ends with 0 where all are so, and else with 1.
set -u
here="$(cd "$(dirname "${BASH_SOURCE[0]}")" && pwd)"
cd "$here/../crates/ir_cli" || exit 1
rt run < "$here/types.script" > /dev/null 2>&1 || { echo "the program does not run"; exit 1; }

scratch="$(mktemp -d)" || exit 1
trap 'rm -rf "$scratch"' EXIT
faults=0

# Compares: what is tried, the status, the status that is wanted, how many bytes were written, how many are wanted.
compare() {
    if [ "$2" -eq "$3" ] && [ "$4" -eq "$5" ]; then
        echo "ok: $1"
    else
        echo "fault: $1: status $2 and $4 bytes, wanted were $3 and $5"
        faults=1
    fi
}

# Runs on the script, with the words behind it: what is tried, the status and the number of bytes that are wanted, the script.
try() {
    local what="$1" status="$2" bytes="$3" script="$4"
    shift 4
    out/ir_cli "$@" < "$script" > "$scratch/out" 2> /dev/null
    compare "$what" "$?" "$status" "$(wc -c < "$scratch/out")" "$bytes"
}

echo 'print (ref not static u8)' > "$scratch/one"
head -c 16777217 /dev/zero | tr '\0' '\n' > "$scratch/long"
head -c 16777216 "$scratch/long" > "$scratch/longest"

try "one print is done" 0 20 "$scratch/one"
out/ir_cli < "$scratch/one" > /dev/full 2> /dev/null
compare "a full device is a write fault" "$?" 4 0 0
out/ir_cli < "$scratch" > "$scratch/out" 2> /dev/null
compare "a folder is a read fault" "$?" 3 "$(wc -c < "$scratch/out")" 0
try "16,777,217 bytes are too long" 6 0 "$scratch/long"
try "16,777,216 blank lines are done" 0 0 "$scratch/longest"
try "a word is refused" 2 0 "$scratch/one" word
try "an empty script is done" 0 0 /dev/null
exit "$faults"
