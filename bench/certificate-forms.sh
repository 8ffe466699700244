#!/bin/sh
# Measures `check` of a certificate of the second form against one of the first, of the same exercise: its bytes, and the least time of five
# whole processes on one processor and on all, with the greatest memory. Run it at the top of the repository once the program is built.
#
#     sh bench/certificate-forms.sh [PROGRAM [EXERCISE ..]]
set -u
program=${1:-crates/fux/out/fux}
[ $# -gt 0 ] && shift
[ $# -gt 0 ] || set -- examples/first.fux examples/course/two-voices-5.fux examples/course/four-voices-3.fux
work=$(mktemp -d)
trap 'rm -rf "$work"' EXIT

# The least seconds of five runs of the words, and the greatest kilobytes.
measured() {
    for _ in 1 2 3 4 5; do
        /usr/bin/time -f '%e %M' -o "$work/time" "$@" > "$work/said" 2> "$work/err"
        tail -n 1 "$work/time"
    done | awk 'NR == 1 || $1 < least { least = $1 } $2 > most { most = $2 } END { printf "%s s, %d kB", least, most }'
}

for exercise in "$@"; do
    for form in 1 2; do
        "$program" certify "$exercise" --form "$form" > "$work/certificate"
        [ $? -le 1 ] || exit 1
        one=$(measured taskset -c 0 "$program" check "$exercise" "$work/certificate")
        all=$(measured "$program" check "$exercise" "$work/certificate")
        echo "$exercise, form $form: $(wc -c < "$work/certificate") bytes; one processor $one; all $all; $(cat "$work/said")"
    done
done
