#!/bin/sh
# Counts the instructions of a delivery, a start and a pick, of the proved library, the plain Rust and the C comparator, by callgrind.
#
#   hosts/instructions.sh [N ..]
#
# Prints a table in markdown for each N named, 16, 32, 64 or 128, by default 16 and 128, with the five shapes of the benchmark. Each figure is a
# difference: `bench --repeat` makes the same thing eight times and sixteen, on eight different waits in turn (whole checks by picks once and
# twice), so that what comes before and after falls out. A delivery is what a start and a whole check take more than the start, for each
# delivery; a pick is the same of a check by picks, each of which tests the area. Instructions are no time: they do not tell what waits for memory
# or for a branch that was foreseen wrongly. But they are the same each time, whatever else the machine does.
#
# It wants valgrind and the benchmark: cargo build --release --offline --manifest-path hosts/rust/Cargo.toml (another place of it is named in
# BENCH). With 16 and 128 it takes some minutes. Its own files stand in target/instructions.
set -eu
cd "$(dirname "$0")/.."

usage() {
    echo "usage: hosts/instructions.sh [N ..]" >&2
    exit 2
}

case ${1-} in
-h | --help)
    sed -n '2,/^[^#]/ s/^# \{0,1\}//p' "$0"
    exit
    ;;
esac
for n; do
    case $n in
    16 | 32 | 64 | 128) ;;
    *) usage ;;
    esac
done
[ $# -ne 0 ] || set -- 16 128
bench=${BENCH-hosts/rust/target/release/bench}
command -v valgrind > /dev/null || { echo "instructions.sh: valgrind is missing (Debian: valgrind)" >&2; exit 1; }
[ -x "$bench" ] || { echo "instructions.sh: no $bench: cargo build --release --offline --manifest-path hosts/rust/Cargo.toml makes it" >&2; exit 1; }
work=target/instructions
mkdir -p "$work"

# The C library fills and copies long stretches of memory by one instruction, which callgrind counts for each byte; with this, by loops.
GLIBC_TUNABLES=glibc.cpu.x86_rep_stosb_threshold=1000000000:glibc.cpu.x86_rep_movsb_threshold=1000000000
export GLIBC_TUNABLES

# counted TIMES LIBRARY WHAT SHAPE N: sets `instructions` and `deliveries` of so many repetitions.
counted() {
    if ! valgrind --tool=callgrind --callgrind-out-file=/dev/null "$bench" --repeat "$@" > "$work/printed" 2> "$work/said"; then
        cat "$work/said" >&2
        exit 1
    fi
    instructions=$(sed -n 's/.*Collected : \([0-9]*\).*/\1/p' "$work/said")
    deliveries=$(sed -n 's/^\([0-9]*\) deliveries$/\1/p' "$work/printed")
}

# added TIMES LIBRARY WHAT SHAPE N: sets `instructions` and `deliveries` to what twice as many repetitions take more.
added() {
    times=$1
    shift
    counted "$times" "$@"
    fewer=$instructions
    made=$deliveries
    counted "$((2 * times))" "$@"
    instructions=$((instructions - fewer))
    deliveries=$((deliveries - made))
}

# of LIBRARY N SHAPE: a line with a start, a delivery of running on, one that is shuffled, and a pick.
of() {
    added 8 "$1" start "$3" "$2"
    start=$((instructions / 8))
    case $1 in
    proved) name=proved ;;
    plain) name="plain Rust" ;;
    c) name=C ;;
    esac
    line="| $3 | $name | $start"
    for what in run shuffled picks; do
        times=8
        [ "$what" != picks ] || times=1
        added "$times" "$1" "$what" "$3" "$2"
        line="$line | $(((instructions - times * start) / deliveries))"
    done
    echo "$line |"
}

for n; do
    printf '\n| instructions, N %s, M %s | of | a start | a delivery, running on | a delivery, shuffled | a pick |\n' "$n" "$((4 * n))"
    echo "|---|---|---|---|---|---|"
    for shape in "next four" "ring with random waits" random bipartite "two hubs"; do
        for library in proved plain c; do
            of "$library" "$n" "$shape"
        done
    done
done
