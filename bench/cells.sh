#!/usr/bin/env bash
# What a domain costs that goes the whole way through the cells, beside a plain loop of the same atomic steps: a group of four members is
# sent, claimed, brought home, taken and sent again, by 1, 2 and 4 threads that all try the same members. Nanoseconds a member: of the
# clock, and of the processor time of all threads; of many rounds less those of few, the least of some runs each. Run by hand; the
# program is built first, and the plain loop with `rustc`.
set -eu

top=$(dirname -- "$(readlink -f -- "${BASH_SOURCE[0]}")")/..
plain=$(mktemp)
trap 'rm -f -- "$plain"' EXIT
rustc -O -o "$plain" "$top/bench/cells/plain.rs"
CDPATH='' cd -- "$top/crates/cd_speed"
rt run -- group 1 1 >/dev/null
program=$PWD/out/cd_speed

few=100000
many=1100000
members=4
runs=${1:-5}

# The least of some runs, in milliseconds: of the clock, and of the processors.
least() {
    local clock='' processors='' real user system took
    for _ in $(seq 1 "$runs"); do
        read -r real user system < <({ TIMEFORMAT='%3R %3U %3S'; time "$@" >/dev/null; } 2>&1)
        took=$((10#${real/./}))
        if [ -z "$clock" ] || [ "$took" -lt "$clock" ]; then clock=$took; fi
        took=$((10#${user/./} + 10#${system/./}))
        if [ -z "$processors" ] || [ "$took" -lt "$processors" ]; then processors=$took; fi
    done
    echo "$clock" "$processors"
}

# Tenths of a nanosecond for a member, of both. The last word is the number of threads.
cost() {
    local all start threads=${*: -1} count=$(((many - few) * members))
    read -r -a all < <(least "${@:1:$#-1}" "$many" "$threads")
    read -r -a start < <(least "${@:1:$#-1}" "$few" "$threads")
    echo $(((all[0] - start[0]) * 10000000 / count)) $(((all[1] - start[1]) * 10000000 / count))
}

for threads in 1 2 4; do
    if [ "$("$program" group 1000 "$threads")" != "$("$plain" 1000 "$threads")" ]; then
        echo 'the ways do not win the same number of claims' >&2
        exit 1
    fi
done

printf '%7s %12s %12s %6s %12s %12s %6s\n' threads 'clock, cells' 'plain' ratio 'work, cells' 'plain' ratio
for threads in 1 2 4; do
    read -r -a cells < <(cost "$program" group "$threads")
    read -r -a loop < <(cost "$plain" "$threads")
    awk -v threads="$threads" -v a="${cells[0]}" -v b="${loop[0]}" -v c="${cells[1]}" -v d="${loop[1]}" \
        'BEGIN {
            if (b < 1) b = 1
            if (d < 1) d = 1
            printf "%7d %12.1f %12.1f %6.2f %12.1f %12.1f %6.2f\n", threads, a / 10, b / 10, a / b, c / 10, d / 10, c / d
        }'
done
