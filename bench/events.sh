#!/usr/bin/env bash
# What an event costs that is told to the machine, and what reading it back by its number costs, beside a plain list: nanoseconds
# of processor time, of 10,000,000 events less that of 1,000,000, the least of some runs each. Run by hand; the program is built
# first.
set -eu

top=$(dirname -- "$(readlink -f -- "${BASH_SOURCE[0]}")")/..
CDPATH='' cd -- "$top/crates/cd_speed"
rt run -- tell field 1 >/dev/null
program=$PWD/out/cd_speed

few=1000000
many=10000000
runs=${1:-5}

# The least processor time of some runs, in milliseconds.
least() {
    local best='' user system took
    for _ in $(seq 1 "$runs"); do
        read -r user system < <({ TIMEFORMAT='%3U %3S'; time "$program" "$@" >/dev/null; } 2>&1)
        took=$((10#${user/./} + 10#${system/./}))
        if [ -z "$best" ] || [ "$took" -lt "$best" ]; then
            best=$took
        fi
    done
    echo "$best"
}

# Picoseconds for an event.
cost() {
    local all start
    all=$(least "$1" "$2" "$many")
    start=$(least "$1" "$2" "$few")
    echo $(((all - start) * 1000000000 / (many - few)))
}

if [ "$("$program" event field 100000)" != "$("$program" event list 100000)" ]; then
    echo 'the ways do not give the same events' >&2
    exit 1
fi
printf '%-8s %6s %10s\n' behind told 'read back'
for behind in field list; do
    awk -v behind="$behind" -v told="$(cost tell "$behind")" -v both="$(cost event "$behind")" \
        'BEGIN { printf "%-8s %6.1f %10.1f\n", behind, told / 1000, (both - told) / 1000 }'
done
