#!/usr/bin/env bash
# How long the reader of the whole language takes: a text at the limit of 1,048,576 bytes, with 16,384 operations; the largest
# expansion, 65,000 turns of nested loops; and loops without turns inside a loop of many, which no limit bounds. Beside the
# first, a plain loop over its bytes (`wc -l`). Run by hand; the program is built first where that is due.
set -eu

top=$(dirname -- "$(readlink -f -- "${BASH_SOURCE[0]}")")/..
program="$top/bin/cd"
"$program" check </dev/null >/dev/null || true # builds where that is due
text=$(mktemp)
trap 'rm -f -- "$text"' EXIT

{
    printf 'cd 1\nregion y 1 const 0\ndomain root retry 1 detects flip\npreserve y copy\n'
    for _ in $(seq 1 16384); do
        printf 'fill y 00000000000000000000000000000000000000000000000000007\n'
    done
    printf 'end\n'
} >"$text"
wc -c <"$text"
time wc -l <"$text"
time "$program" check <"$text" | head -n 1

printf 'cd 1\nfor a in 0..250\nfor b in 0..259\nend\nend\ndomain root retry 1 detects flip\nend\n' >"$text"
time "$program" check <"$text" | head -n 1

{
    printf 'cd 1\nfor a in 0..65535\n'
    for _ in $(seq 1 200); do
        printf 'for b in 0..0\nend\n'
    done
    printf 'end\n'
} >"$text"
time "$program" check <"$text" | head -n 1
