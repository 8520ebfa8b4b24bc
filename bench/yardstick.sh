#!/usr/bin/env bash
# How long the program takes beside a yardstick: another program that does the same, on inputs of its own. The yardstick is no part of
# this repository. Its script is given as the first word; it is called with the path of the built program and all further words, times
# both in turn, checks that both write the same bytes, and ends with the greatest and the middle ratio of their times.
#
#     bench/yardstick.sh PATH/bench.py                              a run with one worker, all inputs
#     bench/yardstick.sh PATH/bench.py -a 'run --workers 4'         another command line
#     bench/yardstick.sh PATH/bench.py -a check -i NAME,NAME        some inputs
#
# Run by hand, on a machine that does nothing else; the program is built first where that is due.
set -eu

if [ $# -lt 1 ] || [ ! -f "$1" ]; then
    echo "usage: bench/yardstick.sh PATH/bench.py [WORD ..]" >&2
    exit 2
fi
bench=$1
shift
top=$(dirname -- "$(readlink -f -- "${BASH_SOURCE[0]}")")/..
"$top/bin/cd" check </dev/null >/dev/null || true # builds where that is due
exec python3 "$bench" "$top/crates/cd/out/cd" "$@"
