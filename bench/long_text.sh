#!/usr/bin/env bash
# How long a document at the limit of 1,048,576 bytes takes to be read: once as blanks behind a short program, and once as
# 16,384 operations on a region of one word. Run by hand; the program is built first where that is due.
set -u

top=$(dirname -- "$(readlink -f -- "${BASH_SOURCE[0]}")")/..
document=$(mktemp) || exit 1
trap 'rm -f -- "$document"' EXIT

"$top/bin/cd" run </dev/null >/dev/null # builds where that is due

printf 'cd 1\ndomain root retry 1 detects flip\nend\n%1048532s' '' >"$document"
wc -c <"$document"
time "$top/bin/cd" run <"$document"

{
    printf 'cd 1\nregion y 1 const 0\ndomain root retry 1 detects flip\npreserve y copy\n'
    for _ in $(seq 1 16384); do
        printf 'fill y 00000000000000000000000000000000000000000000000000007\n'
    done
    printf 'end\n'
} >"$document"
wc -c <"$document"
time "$top/bin/cd" run <"$document"
