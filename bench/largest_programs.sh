#!/usr/bin/env bash
# How long `check` and `read` take on the largest programs, and `make --size 14` piped into `check`. The first document has 2,048
# domains with 16,384 entries, of which seven in eight are references. The second has 2,048 domains and 256 strikes, each of which
# repeats all but the root, so that they begin some 526,000 times in all. With the path of a reference program as its argument (a
# Python script that takes the same words) that is timed beside them. Run by hand; the program is built first where that is due.
set -eu

top=$(dirname -- "$(readlink -f -- "${BASH_SOURCE[0]}")")/..
reference=${1:-}
text=$(mktemp)
trap 'rm -f -- "$text"' EXIT
TIMEFORMAT='%R s'

"$top/bin/cd" check </dev/null >/dev/null || true # builds where that is due

# Runs an action on the document, and then that of the reference program.
timed() {
    echo "cd $*"
    time "$top/bin/cd" "$@" <"$text" | sed -n '1p;$p'
    if [ -n "$reference" ]; then
        echo "the reference program"
        time python3 "$reference" "$@" <"$text" >/dev/null
    fi
}

# A group of domains without items, whose names begin with a letter.
group() {
    printf 'group\nfor i in 0..%d\ndomain %s:i retry 1 detects none\nend\nend\nend\n' "$2" "$1"
}

# Domains with 64 words each from a place on, in eight entries of which seven are references: the letter of their names, how many,
# the place.
sharing() {
    printf 'group\nfor i in 0..%d\ndomain %s:i retry 1 detects flip\n' "$2" "$1"
    printf 'preserve y[%d+64*i..%d+64*i+8] copy\n' "$3" "$3"
    for k in 8 16 24 32 40 48 56; do
        printf 'preserve y[%d+64*i..%d+64*i+8] refer\n' $(($3 + k)) $(($3 + k))
    done
    printf 'fill y[%d+64*i..%d+64*i+64] 7\nend\nend\nend\n' "$3" "$3"
}

{
    printf 'cd 1\nregion y 131072 const 0\ndomain root retry 1 detects node\npreserve y copy\n'
    from=0
    for letter in a b c d e f g; do
        sharing "$letter" 256 "$from"
        from=$((from + 16384))
    done
    sharing h 255 "$from"
    printf 'end\n'
} >"$text"
timed check

{
    printf 'cd 1\nregion q 1 const 0\ndomain root retry 100 detects none\npreserve q copy\n'
    printf 'domain a retry 100 detects flip\npreserve q copy\n'
    for letter in a b c d e f g; do
        group "$letter" 256
    done
    group h 254
    printf 'end\nend\nfaults\nfor b in 1..257\nstrike root/a b 0 flip q[0] 1\nend\n'
} >"$text"
timed check
timed read

echo 'cd make --size 14 | cd check'
time "$top/bin/cd" make --size 14 | "$top/bin/cd" check | head -n 1
if [ -n "$reference" ]; then
    echo 'the reference program'
    time python3 "$reference" make --size 14 | python3 "$reference" check >/dev/null
fi
