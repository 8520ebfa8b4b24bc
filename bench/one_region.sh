#!/usr/bin/env bash
# How long a region of 1,048,576 words takes that is filled, and struck in 99 of its 100 tries: 100 fills, 99 restores and
# one copy of the whole region. Run by hand; the program is built first where that is due.
set -u

top=$(dirname -- "$(readlink -f -- "${BASH_SOURCE[0]}")")/..
document=$(mktemp) || exit 1
trap 'rm -f -- "$document"' EXIT

{
    printf 'cd 1\nregion y 1048576 const 3\ndomain root retry 100 detects flip\npreserve y copy\nfill y 7\nend\nfaults\n'
    for begin in $(seq 1 99); do
        printf 'strike root %d 1 flip y[%d] 255\n' "$begin" "$begin"
    done
} >"$document"

"$top/bin/cd" run </dev/null >/dev/null # builds where that is due
time "$top/bin/cd" run <"$document"
