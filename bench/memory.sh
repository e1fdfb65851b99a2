#!/bin/sh
# Refuses each allocation of the built program in turn, on the documents of examples/ and on a few others.
#
# A run that was refused one ends with status 2, writes nothing, and says `fault: memory`; or it can do without, and gives the
# document's own answer, as does the first run with too few allocations to be refused one. Needs the built program (`rt ci` leaves it, and
# ./shader-check builds it), a C compiler, and glibc.
set -eu
cd "$(dirname "$0")/.."
program=$PWD/crates/checker/out/checker
[ -x "$program" ] || { echo "memory: $program is not built yet" >&2; exit 1; }

room=$(mktemp -d)
trap 'rm -rf "$room"' EXIT
"${CC:-cc}" -O2 -fPIC -shared -o "$room/librefuse.so" bench/refuse.c

fail() {
    echo "memory: $1" >&2
    exit 1
}

# Runs the program on the file $1 with allocation $2 refused. Its status is in $status.
run() {
    status=0
    REFUSE_AT=$2 LD_PRELOAD="$room/librefuse.so" "$program" <"$1" >"$room/out" 2>"$room/err" 9>"$room/allocations" || status=$?
    allocations=$(cat "$room/allocations")
}

# Whether the run gave the answer in the file $1.
is_own() {
    case $(cat "$1") in
    accepted*) own=0 ;;
    *) own=1 ;;
    esac
    [ "$status" = "$own" ] && [ ! -s "$room/err" ] && cmp -s "$room/out" "$1"
}

# Tries the document in the file $1, called $2, whose answer is in the file $3.
try() {
    at=1
    faults=0
    while :; do
        run "$1" "$at"
        [ "$allocations" -ge "$at" ] || break
        at=$((at + 1))
        is_own "$3" && continue
        faults=$((faults + 1))
        [ "$status" = 2 ] || fail "$2: allocation $((at - 1)) refused, and the status is $status"
        [ ! -s "$room/out" ] || fail "$2: allocation $((at - 1)) refused, and something was written: $(cat "$room/out")"
        [ "$(cat "$room/err")" = "fault: memory" ] || fail "$2: allocation $((at - 1)) refused, and it said: $(cat "$room/err")"
    done
    [ "$faults" -gt 0 ] || [ ! -s "$1" ] || fail "$2: there was no allocation to refuse"
    is_own "$3" || fail "$2: status $status, and it wrote $(cat "$room/out" "$room/err"), and not $(cat "$3")"
    echo "$2: each of $((at - 1)) allocations refused in turn, $faults faults; then $(head -n 1 "$3")"
}

for file in examples/*.json; do
    try "$file" "$(basename "$file" .json)" "${file%.json}.txt"
done
printf 'accepted\n' >"$room/due"
try crates/checker/stdin "more than one read takes" "$room/due"
printf 'refused document\n' >"$room/due"
: >"$room/document"
try "$room/document" "no bytes" "$room/due"
printf 'not json' >"$room/document"
try "$room/document" "no JSON" "$room/due"
i=0
while [ $i -lt 126 ]; do printf '['; i=$((i + 1)); done >"$room/document"
try "$room/document" "126 brackets" "$room/due"
