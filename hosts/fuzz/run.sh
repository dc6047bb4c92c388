#!/bin/sh
# Fuzzes the C interface for so many seconds (600 if none are named), with clang's libFuzzer from Debian's packages.
#
#   hosts/fuzz/run.sh [SECONDS]
#
# It wants clang-14 and libclang-rt-14-dev (`apt-get install clang-14 libclang-rt-14-dev`) and the archive (`tools/build.sh archive`).
# A crash or a hang leaves the input that made it in target/fuzz and exits with a status that is not 0.
set -e
case ${1-} in
-h | --help)
    sed -n '2,/^[^#]/ s/^# \{0,1\}//p' "$0"
    exit
    ;;
esac
cd "$(dirname "$0")/../.."
seconds=${1:-600}
case $#/$seconds in
*/*[!0-9]* | [2-9]*) echo "usage: hosts/fuzz/run.sh [SECONDS]" >&2; exit 2 ;;
esac
command -v clang-14 > /dev/null || { echo "run.sh: clang-14 is missing (Debian: clang-14 libclang-rt-14-dev)" >&2; exit 1; }
[ -f target/staticlib/libpickledune.a ] || { echo "run.sh: no target/staticlib/libpickledune.a: tools/build.sh archive makes it" >&2; exit 1; }
mkdir -p target/fuzz/corpus
clang-14 -g -O1 -Wall -Wextra -fsanitize=fuzzer,undefined -Iinclude hosts/fuzz/fuzz.c target/staticlib/libpickledune.a -o target/fuzz/fuzz
cd target/fuzz
./fuzz -max_total_time="$seconds" -timeout=10 -max_len=20000 -len_control=20 -print_final_stats=1 corpus
