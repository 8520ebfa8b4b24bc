#!/usr/bin/env bash
# What parts cost, beside a plain copy in the same run: a part with 1, 16 and 256 ranges of a region of 330,002 words, carved out and
# taken back, that writes all their words, half of them or none; the first change of a region that a part shares; and a region's
# words put back by one run, in a whole machine and in a part. The time is processor time, of many turns less that of few, the least
# of some runs each. Run by hand; the program is built first.
set -eu

top=$(dirname -- "$(readlink -f -- "${BASH_SOURCE[0]}")")/..
CDPATH='' cd -- "$top/crates/cd_speed"
rt run -- carve none 1 1 >/dev/null
program=$PWD/out/cd_speed

words=330000
runs=${1:-5}

# The least processor time of some runs, in milliseconds.
least() {
    local best='' user system took
    for _ in $(seq 1 "$runs"); do
        read -r user system < <({ TIMEFORMAT='%3U %3S'; time "$program" "$@" >/dev/null; } 2>&1)
        took=$((10#${user/./} + 10#${system/./}))
        if [ -z "$best" ] || [ "$took" -lt "$best" ]; then
            best=$took
        fi
    done
    echo "$best"
}

# Nanoseconds for a turn, by turns more than one.
cost() {
    local turns=$1 all start
    shift
    all=$(least "$@" "$((turns + 1))")
    start=$(least "$@" 1)
    echo $(((all - start) * 1000000 / turns))
}

both=$(cost 1000 copy region)
echo "a plain copy of $words words there and back: $((both / 1000)) microseconds"
echo
printf '%7s %-7s %13s %11s %6s\n' ranges writes 'carve, absorb' 'plain copy' ratio
for ranges in 1 16 256; do
    for written in all half none; do
        case $written in
            all) copy=$both turns=500 ;;
            half) copy=$((both / 2)) turns=500 ;;
            none) copy=0 turns=20000 ;;
        esac
        awk -v ranges="$ranges" -v written="$written" -v took="$(cost "$turns" carve "$written" "$ranges")" -v copy="$copy" \
            'BEGIN {
                printf "%7d %-7s %13.1f %11.1f ", ranges, written, took / 1000, copy / 1000
                if (copy == 0) printf "%6s\n", "-"
                else printf "%6.1f\n", took / copy
            }'
    done
done
echo
awk -v same="$(cost 20000 share same)" -v changed="$(cost 1000 share changed)" -v copy="$((both / 2))" \
    'BEGIN {
        printf "a part that shares a region: %.1f microseconds; with one word changed: %.1f, so %.1f for the change; a plain copy: %.1f\n",
            same / 1000, changed / 1000, (changed - same) / 1000, copy / 1000
    }'
awk -v whole="$(cost 1000 refill field)" -v part="$(cost 1000 refill part)" -v copy="$((both / 2))" -v words="$words" \
    'BEGIN {
        printf "a word put back by runs: %.2f ns in a whole machine, %.2f in a part; copied: %.2f\n",
            whole / words, part / words, copy / words
    }'
