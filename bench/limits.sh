#!/bin/sh
# Runs the built program on inputs around a reader's chunk of 4096 bytes and around the limit of 16777216, each as a
# file and as a pipe. It runs what each compiler built, where `rt ci` has left both: a read loop that ends too late or
# too early shows here as a fault, or as a run that takes seconds.
set -eu
cd "$(dirname "$0")/.."
program=$PWD/crates/checker/out/checker
[ -x "$program" ] || { echo "limits: $program is not built yet" >&2; exit 1; }

room=$(mktemp -d)
trap 'rm -rf "$room"' EXIT
document=$room/smallest
printf '%s' '[1,["EXPRESSIONS","BLOCKS","CONTROL_FLOW_UNIFORMITY","STRUCT_LAYOUTS","CONSTANTS","BINDINGS"],[],[[],[]],false,[],[null,null,null,[]],[[],null],[],[],[],[],[],[]]' >"$document"
size=$(wc -c <"$document")
failed=0

# Runs the program $1 on the file $2, called $3, which has the answer $4 and the status $5.
try() {
    for way in file pipe; do
        status=0
        if [ "$way" = file ]; then
            timeout 5 "$1" <"$2" >"$room/out" 2>"$room/err" || status=$?
        else
            cat "$2" | timeout 5 "$1" >"$room/out" 2>"$room/err" || status=$?
        fi
        if [ "$status" != "$5" ] || [ "$(cat "$room/out")" != "$4" ] || [ -s "$room/err" ]; then
            echo "limits: $(basename "$1"), $3 ($way): status $status, and it wrote $(cat "$room/out" "$room/err")" >&2
            failed=1
        fi
    done
}

# The smallest document, with blanks behind it up to $1 bytes.
padded() {
    cat "$document"
    head -c "$(($1 - size))" /dev/zero | tr '\0' ' '
}

for built in "$program" "$program.by-rattle"; do
    [ -x "$built" ] || continue
    : >"$room/input"
    try "$built" "$room/input" "no bytes" "refused document" 1
    for length in "$size" 4095 4096 4097 8192 100000 16777215 16777216; do
        padded "$length" >"$room/input"
        try "$built" "$room/input" "$length bytes" accepted 0
    done
    for length in 16777217 16777218 33554432; do
        padded "$length" >"$room/input"
        try "$built" "$room/input" "$length bytes" "refused document" 1
    done
    [ "$failed" = 0 ] && echo "$(basename "$built"): 12 inputs, each as a file and as a pipe: as they should be"
done
exit "$failed"
