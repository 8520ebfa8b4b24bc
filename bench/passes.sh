#!/usr/bin/env bash
# Nanoseconds of a thread's processor time for a block of 64 words: by passes over blocks and over shared pointers, and as a plain copy.
set -eu

top=$(dirname -- "$(readlink -f -- "${BASH_SOURCE[0]}")")/..
CDPATH='' cd -- "$top/crates/cd_speed"
rt run -- plain keep 1 1 >/dev/null
program=$PWD/out/cd_speed

few=256000
many=4096000
runs=${1:-5}

# The least processor time of some runs, in milliseconds.
least() {
    local best='' user system took
    for _ in $(seq 1 "$runs"); do
        read -r user system < <({ TIMEFORMAT='%3U %3S'; time "$program" "$@" >/dev/null; } 2>&1)
        took=$((10#${user/./} + 10#${system/./}))
        if [ -z "$best" ] || [ "$took" -lt "$best" ]; then
            best=$took
        fi
    done
    echo "$best"
}

# Picoseconds for a turn of a thread.
cost() {
    local all start
    all=$(least "$1" "$2" "$many" "$3")
    start=$(least "$1" "$2" "$few" "$3")
    echo $(((all - start) * 1000000000 / ((many - few) * $3)))
}

for threads in 1 2 4; do
    for measure in keep share fetch; do
        for behind in leased pointed; do
            if [ "$("$program" "$behind" "$measure" 256 "$threads")" != "$("$program" plain "$measure" 256 "$threads")" ]; then
                echo "$measure: the ways do not give the same words" >&2
                exit 1
            fi
        done
    done
done

printf '%-8s %7s %10s %11s %6s %6s %7s %6s\n' behind threads keep+give share+give keep share 'give up' fetch
for threads in 1 2 4; do
    for behind in leased pointed plain; do
        hold=0
        if [ "$behind" != plain ]; then
            hold=$(cost "$behind" hold "$threads")
        fi
        awk -v behind="$behind" -v threads="$threads" -v keep="$(cost "$behind" keep "$threads")" \
            -v share="$(cost "$behind" share "$threads")" -v hold="$hold" -v fetch="$(cost "$behind" fetch "$threads")" \
            'BEGIN {
                printf "%-8s %7d %10.1f %11.1f ", behind, threads, keep / 1000, share / 1000
                if (behind == "plain") printf "%6s %6s %7s ", "-", "-", "-"
                else printf "%6.1f %6.1f %7.1f ", (keep - share + hold) / 1000, hold / 1000, (share - hold) / 1000
                printf "%6.1f\n", fetch / 1000
            }'
    done
done

# A pass that is split off and taken back: where one block was kept before, where thousands were, and after each block kept.
printf '\n%-8s %7s %10s %14s %14s\n' behind threads split+join 'after 10,000' 'after a keep'
for threads in 1 2 4; do
    for behind in leased pointed; do
        later=-
        if [ "$behind" = pointed ]; then
            later=$(cost "$behind" later "$threads")
        fi
        awk -v behind="$behind" -v threads="$threads" -v off="$(cost "$behind" split "$threads")" -v later="$later" \
            -v layer="$(cost "$behind" layer "$threads")" -v keep="$(cost "$behind" keep "$threads")" \
            'BEGIN {
                if (later != "-") later = sprintf("%.1f", later / 1000)
                printf "%-8s %7d %10.1f %14s %14.1f\n", behind, threads, off / 1000, later, (layer - keep) / 1000
            }'
    done
done
