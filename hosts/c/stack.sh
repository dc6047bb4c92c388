#!/bin/sh
# Says by repeated runs how much stack the calls of the C interface take, and with how much the check program gets along.
#
#   hosts/c/stack.sh [--runs RUNS] [KIB ..]
#
# First each call is measured, as the top comment of hosts/c/stack.c says. Then target/bin/knot_check is run RUNS times (100 if none are named)
# on the largest check, crates/knot_check_most, with its stack limited to so many KiB, in an empty environment, since that stands on the stack
# too. A run holds if the program prints what it must. Where the stack begins is drawn anew by the system in each run, so that near the least
# stack some runs hold and some do not. With no KIB the limits are looked for, in steps of 4 KiB: from one at which few runs hold to the first
# at which all do.
#
# It wants gcc, the archive and the program (tools/build.sh). Its own files stand in target/stack-runs.
set -eu
cd "$(dirname "$0")/../.."

usage() {
    echo "usage: hosts/c/stack.sh [--runs RUNS] [KIB ..]" >&2
    exit 2
}

number() {
    case $1 in
    '' | *[!0-9]* | 0*) usage ;;
    esac
}

runs=100
case ${1-} in
-h | --help)
    sed -n '2,/^[^#]/ s/^# \{0,1\}//p' "$0"
    exit
    ;;
--runs)
    [ $# -ge 2 ] || usage
    number "$2"
    runs=$2
    shift 2
    ;;
esac
for kib; do
    number "$kib"
done
command -v gcc > /dev/null || { echo "stack.sh: gcc is missing (Debian: gcc libc6-dev)" >&2; exit 1; }
[ -f target/staticlib/libpickledune.a ] || { echo "stack.sh: no target/staticlib/libpickledune.a: tools/build.sh archive makes it" >&2; exit 1; }
[ -x target/bin/knot_check ] || { echo "stack.sh: no target/bin/knot_check: tools/build.sh knot_check makes it" >&2; exit 1; }

mkdir -p target/stack-runs
gcc -std=c99 -O2 -Wall -Wextra -Werror -Iinclude hosts/c/stack.c target/staticlib/libpickledune.a -pthread -o target/stack-runs/stack
target/stack-runs/stack "$runs"

# Sets held to how many of so many runs hold with so many KiB.
try() {
    held=0
    run=0
    while [ "$run" -lt "$2" ]; do
        run=$((run + 1))
        if (ulimit -s "$1" && exec env -i target/bin/knot_check < crates/knot_check_most/stdin > target/stack-runs/stdout) 2> target/stack-runs/stderr &&
            cmp -s target/stack-runs/stdout crates/knot_check_most/stdout; then
            held=$((held + 1))
        fi
    done
} 2> /dev/null

tell() {
    (ulimit -s "$1") 2> /dev/null || { echo "stack.sh: the system allows no limit of $1 KiB here" >&2; exit 1; }
    try "$1" "$runs"
    echo "knot_check with $1 KiB: $held of $runs runs held"
}

if [ $# -eq 0 ]; then
    low=16
    high=8192
    try "$high" 3
    [ "$held" -eq 3 ] || { echo "stack.sh: knot_check does not hold with $high KiB either" >&2; exit 1; }
    while [ $((high - low)) -gt 4 ]; do
        middle=$(((low + high) / 8 * 4))
        try "$middle" 3
        if [ "$held" -eq 3 ]; then high=$middle; else low=$middle; fi
    done
    kib=$((low - 4))
    tell "$kib"
    while [ "$held" -lt "$runs" ]; do
        kib=$((kib + 4))
        tell "$kib"
    done
else
    for kib; do
        tell "$kib"
    done
fi
