#!/bin/sh
# Refuses memory to the commands that take most of it, one piece at a time: each run must end with 7 and nothing on standard output, or
# with its answer; with 4 and nothing there where the piece is one that the system asks for as it opens a file, since a disk can't tell
# that from another failure. Run it at the top of the repository once the program is built; it takes some minutes, and no gate runs it.
#
#     sh bench/refused-memory.sh [PROGRAM]
set -u
program=${1:-crates/fux/out/fux}
exercise=examples/first.fux
work=$(mktemp -d)
trap 'rm -rf "$work"' EXIT
cc -shared -fPIC -O1 -o "$work/refuse.so" bench/refuse.c -ldl || exit 1
"$program" compose "$exercise" > "$work/setting" && "$program" certify "$exercise" > "$work/certificate" || exit 1
"$program" tosmf "$work/setting" > "$work/midi" || exit 1
wrong=0

# The words of a run. REFUSED is the number of the piece that is refused it.
run() {
    LD_PRELOAD="$work/refuse.so" "$program" "$@" > "$work/out" 2> "$work/err"
}

tries() {
    "$program" "$@" > "$work/answer" 2> "$work/err"
    answered=$?
    REFUSED=0 COUNTED="$work/count" run "$@"
    count=$(cat "$work/count")
    number=1
    refused=0
    opening=0
    while [ "$number" -le "$count" ]; do
        REFUSED=$number run "$@"
        status=$?
        if [ "$status" -eq 7 ] && [ ! -s "$work/out" ]; then
            refused=$((refused + 1))
        elif [ "$status" -eq 4 ] && [ ! -s "$work/out" ]; then
            opening=$((opening + 1))
        elif [ "$status" -ne "$answered" ] || ! cmp -s "$work/out" "$work/answer"; then
            wrong=$((wrong + 1))
            echo "$1, piece $number: status $status"
        fi
        number=$((number + 1))
    done
    echo "$1: $count pieces, refused $refused times with 7, $opening times as a file was opened"
}

tries compose "$exercise"
tries certify "$exercise"
tries check "$exercise" "$work/certificate"
tries fromsmf "$work/midi" --mode dorian --species 1 --voice 1 --cantus 0
echo "wrong: $wrong"
[ "$wrong" -eq 0 ]
