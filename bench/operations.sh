#!/usr/bin/env bash
# What each operation costs on the shipped machine, and on a part carved out of it whose regions do not stand in order, beside
# a plain loop over slices of u64: for each of the twelve, the nanoseconds of processor time for a word by `apply` on both and
# by the loop, and the ratios. An operation goes over 330,000 words
# of its destination, or of its source where it gives one word; a sparse product over 330,000 positions in rows of four. The
# time is that of many turns less that of few, the least of some runs each. Run by hand; the program is built first.
set -eu

top=$(dirname -- "$(readlink -f -- "${BASH_SOURCE[0]}")")/..
CDPATH='' cd -- "$top/crates/cd_speed"
rt run -- field fill 1 >/dev/null
program=$PWD/out/cd_speed

words=330000
few=20
many=520
runs=${1:-5}

# The least user time of some runs, in milliseconds.
least() {
    local best='' took
    for _ in $(seq 1 "$runs"); do
        took=$({ TIMEFORMAT=%3U; time "$program" "$@" >/dev/null; } 2>&1)
        took=$((10#${took/./}))
        if [ -z "$best" ] || [ "$took" -lt "$best" ]; then
            best=$took
        fi
    done
    echo "$best"
}

# Picoseconds for a word.
cost() {
    local all start
    all=$(least "$1" "$2" "$many")
    start=$(least "$1" "$2" "$few")
    echo $(((all - start) * 1000000000 / (words * (many - few))))
}

printf '%-8s %8s %8s %8s %6s %6s\n' operation machine part loop ratio ratio
for operation in fill copy add sub mul axpy scan sum dot max stencil spmv; do
    for way in field part; do
        if [ "$("$program" "$way" "$operation" 3)" != "$("$program" slice "$operation" 3)" ]; then
            echo "$operation: the ways do not give the same words" >&2
            exit 1
        fi
    done
    awk -v name="$operation" -v field="$(cost field "$operation")" -v part="$(cost part "$operation")" \
        -v slice="$(cost slice "$operation")" \
        'BEGIN {
            if (slice < 1) slice = 1
            printf "%-8s %8.2f %8.2f %8.2f %6.1f %6.1f\n", name, field / 1000, part / 1000, slice / 1000, field / slice, part / slice
        }'
done
