#!/bin/sh
# Builds what hosts use and runs all tests of hosts: the program where reads and writes fail, the C example, the stack, the installed files, the
# Rust side, and the comparison, of the library and of the C comparator of the benchmarks.
#
#   hosts/test.sh
#
# It names what is missing, with the Debian package that has it, before it begins; what is optional is named and left out. Then it prints a line
# for each test with its time, and last 'N host tests passed' with status 0. A test that fails prints its output, at most the last 60 lines (all of it
# is in target/host-test); the last line then names those that failed, and the status is 1. From a fresh clone it takes some minutes, most of them
# for proofs. What it makes stands in target/.
#
# Needed: rt (the Rattle kit), gcc and g++ with the run-time of their sanitizers, pkg-config, cargo (as new as the packages of hosts/rust ask
# for). Optional: cargo's fmt and clippy, python3 for the tools in Python, clang-14 for a short fuzzing, valgrind for counts of instructions.
set -u
cd "$(dirname "$0")/.." || exit 1

case ${1-} in
-h | --help)
    sed -n '2,/^[^#]/ s/^# \{0,1\}//p' hosts/test.sh
    exit
    ;;
esac
[ $# -eq 0 ] || { echo "usage: hosts/test.sh" >&2; exit 2; }

here=$(pwd)
work=$here/target/host-test
rm -rf "$work"
mkdir -p "$work" || exit 1
CARGO_TARGET_DIR=$here/target/host-rust
PYTHONDONTWRITEBYTECODE=1
TERM=dumb
export CARGO_TARGET_DIR PYTHONDONTWRITEBYTECODE TERM

# ---- what is missing

missing=0
miss() {
    echo "missing: $1 ($2)"
    missing=$((missing + 1))
}

there() {
    command -v "$1" > /dev/null
}

# Whether a program in C can be made with these flags, and run.
makes() {
    printf '#include <stdio.h>\nint main(void) { return puts("") < 0; }\n' > "$work/small.c"
    gcc "$@" "$work/small.c" -o "$work/small" 2> /dev/null && "$work/small" > /dev/null 2>&1
}

# Whether clang-14 can link a program for libFuzzer.
fuzzer() {
    echo 'int LLVMFuzzerTestOneInput(const unsigned char *data, unsigned long size) { return data && size ? 0 : 0; }' > "$work/fuzzed.c"
    clang-14 -fsanitize=fuzzer,undefined "$work/fuzzed.c" -o "$work/fuzzed" 2> /dev/null
}

# Whether a version, as 1.95.0, is another, as 1.88, or later.
as_new() {
    echo "$1 $2" | awk '{ split($1, a, "."); split($2, b, "."); exit !(a[1] > b[1] || a[1] == b[1] && a[2] >= b[2]) }'
}

there rt || miss rt "the Rattle kit, with its command rt on the path"
if ! there gcc; then
    miss gcc "Debian: gcc libc6-dev"
elif ! makes; then
    miss "the C library's headers and files to link" "Debian: libc6-dev"
elif ! makes -fsanitize=address,undefined; then
    miss "the run-time of gcc's sanitizers, address and undefined" "Debian: libgcc-$(gcc -dumpversion)-dev, which gcc brings along"
fi
there g++ || miss g++ "Debian: g++"
there pkg-config || miss pkg-config "Debian: pkg-config"
# The latest version that a package of the Rust side asks for.
rust=$(cat hosts/rust/Cargo.toml hosts/rust/*/Cargo.toml | sed -n 's/^rust-version = "\(.*\)"$/\1/p' | sort -t . -k 1,1n -k 2,2n | tail -n 1)
if there cargo; then
    as_new "$(cargo --version | cut -d ' ' -f 2)" "$rust" || miss "cargo $rust or later" "this is $(cargo --version); rustup has it, https://rustup.rs"
else
    miss cargo "Rust $rust or later, by rustup, https://rustup.rs, or Debian's cargo where that is as new"
fi
if [ "$missing" -ne 0 ]; then
    echo "$missing missing; no host test was run"
    exit 1
fi

# optional NAME HOW COMMAND ..: whether it is there; if not, it is named.
optional() {
    what=$1
    how=$2
    shift 2
    "$@" > /dev/null 2>&1 || { echo "left out, since it is missing: $what ($how)"; return 1; }
}

fmt=
clippy=
python=
fuzz=
valgrind=
optional "cargo fmt" "rustup component add rustfmt" cargo fmt --version && fmt=yes
optional "cargo clippy" "rustup component add clippy" cargo clippy --version && clippy=yes
optional python3 "Debian: python3" python3 --version && python=yes
optional "clang-14 and its libFuzzer" "Debian: clang-14 libclang-rt-14-dev" fuzzer && fuzz=yes
optional valgrind "Debian: valgrind" valgrind --version && valgrind=yes

# ---- running a test

passed=0
failed=0
names=

now() {
    cut -d ' ' -f 1 /proc/uptime
}

# run NAME COMMAND ..: the command, whose output is printed if it fails.
run() {
    name=$1
    shift
    begun=$(now)
    output=$work/output-$((passed + failed + 1))
    if "$@" > "$output" 2>&1; then
        passed=$((passed + 1))
        word=passed
    else
        failed=$((failed + 1))
        names="$names${names:+; }$name"
        word=FAILED
    fi
    echo "$begun $(now)" | awk -v word="$word" -v name="$name" '{ printf "%s  %s (%.1f s)\n", word, name, $2 - $1 }'
    if [ "$word" = FAILED ]; then
        tail -n 60 "$output" | sed 's/^/    /'
        return 1
    fi
}

finish() {
    if [ "$failed" -eq 0 ]; then
        echo "$passed host tests passed"
        exit 0
    fi
    echo "$failed of $((passed + failed)) host tests failed: $names"
    exit 1
}

# ---- what is built

run "the check program is proved and built" tools/build.sh knot_check || finish
run "the archive is proved and built" tools/build.sh archive || finish

# ---- the program

# It prints nothing and says so on standard error if a read fails: here of a folder, and of a standard input that is closed.
unread() {
    target/bin/knot_check < crates > "$work/unread" 2> "$work/said" && target/bin/knot_check <&- >> "$work/unread" 2>> "$work/said" &&
        [ ! -s "$work/unread" ] && [ "$(grep -c '^knot_check: reading standard input failed$' "$work/said")" -eq 2 ]
}

# It says so on standard error if a write fails: here to a device that is always full.
unwritten() {
    target/bin/knot_check < crates/knot_check/stdin > /dev/full 2> "$work/said" && grep '^knot_check: writing standard output failed$' "$work/said"
}

# What README's line for a script says, in a folder of its own, of the input that stands there.
script_says() {
    line=$(sed -n 's/^    \(target.bin.knot_check < input > output .*\)$/\1/p' README.md)
    (cd "$work/script" && sh -c "$line")
}

# It says `checked` of an output that came out whole, and nothing of one that was cut off, here by a file that may have one block, of which the
# beginning came out, or of a refused input.
script_line() {
    most=crates/knot_check_most
    mkdir -p "$work/script/target" && ln -sfn "$here/target/bin" "$work/script/target/bin" && cp "$most/stdin" "$work/script/input" || return 1
    [ "$(script_says)" = checked ] && cmp "$work/script/output" "$most/stdout" || return 1
    [ -z "$(trap '' XFSZ && ulimit -f 1 && script_says)" ] || return 1
    bytes=$(wc -c < "$work/script/output")
    [ "$bytes" -gt 0 ] && cmp -n "$bytes" "$work/script/output" "$most/stdout" && cat "$work/script/errors" || return 1
    : > "$work/script/input"
    [ -z "$(script_says)" ] && grep '^refused 1$' "$work/script/output"
}

# An input that comes in pieces is read whole.
pieces() {
    { dd bs=3 count=4; sleep 0.2; dd bs=7; } < crates/knot_check/stdin 2> /dev/null | target/bin/knot_check | diff crates/knot_check/stdout -
}

run "the program says that a read failed, and prints no run" unread
run "the program says that a write failed" unwritten
run "README's line for a script tells whether all came out" script_line
run "the program reads an input that comes in pieces" pieces

# ---- C

archive=target/staticlib/libpickledune.a

# What the example prints: the lines of the check program for the same check, and those of two shuffled checks.
{
    cat crates/knot_check/stdout
    echo "seed 2463534242 made 16 fathers 0 3 1"
    echo "seed 2026 made 16 fathers 0 1 2"
} > "$work/example.stdout"

# Runs the program named and compares what it prints.
prints_example() {
    "$1" > "$work/printed" && diff "$work/example.stdout" "$work/printed"
}

c_example() {
    gcc -std=c99 -Wall -Wextra -pedantic -Werror -Iinclude hosts/c/example.c "$archive" -o "$work/example-c" && prints_example "$work/example-c"
}

sanitized_example() {
    gcc -std=c99 -g -O1 -Wall -Wextra -pedantic -Werror -fsanitize=address,undefined -fno-sanitize-recover=all -Iinclude hosts/c/example.c "$archive" \
        -o "$work/example-sanitized" && prints_example "$work/example-sanitized"
}

cpp_example() {
    g++ -Wall -Wextra -pedantic -Werror -Iinclude -x c++ hosts/c/example.c -x none "$archive" -o "$work/example-cpp" && prints_example "$work/example-cpp"
}

# Each call on the largest table, and the program on the largest check.
stack() {
    hosts/c/stack.sh --runs 5 1024 > "$work/stack" && cat "$work/stack" && grep -q 'with 1024 KiB: 5 of 5 runs held' "$work/stack"
}

run "the C example, warnings as errors" c_example
run "the C example with the sanitizers address and undefined" sanitized_example
run "the C example as C++" cpp_example
run "the stack of each call and of the program, and a stack that is too small" stack

# ---- installed

# The example from the installed files alone, as pkg-config names them, and the installed program. The version that pkg-config tells is the
# header's number, which the example compares with the archive's.
installed() {
    PKG_CONFIG_PATH=$work/prefix/lib/pkgconfig
    export PKG_CONFIG_PATH
    tools/install.sh "$work/prefix" &&
        flags=$(pkg-config --cflags --libs pickledune) &&
        (cd "$work" && gcc -std=c99 -Wall -Wextra -pedantic -Werror "$here/hosts/c/example.c" $flags -o example-installed) &&
        prints_example "$work/example-installed" &&
        version=$(pkg-config --modversion pickledune | awk -F . '{ print 10000 * $1 + 100 * $2 + $3 }') &&
        echo "pkg-config tells version $version" &&
        grep "^#define PICKLEDUNE_VERSION $version\$" "$work/prefix/include/pickledune.h" &&
        "$work/prefix/bin/knot_check" < crates/knot_check/stdin | diff crates/knot_check/stdout -
}

# What install.sh refuses: no PREFIX, and a clone in which nothing was built, where the line names what builds it.
not_installed() {
    mkdir -p "$work/unbuilt/tools" && cp tools/install.sh "$work/unbuilt/tools" || return 1
    if tools/install.sh || "$work/unbuilt/tools/install.sh" "$work/nowhere" 2> "$work/said"; then
        echo "install.sh did not refuse"
        return 1
    fi
    grep 'tools/build.sh archive' "$work/said" && [ ! -e "$work/nowhere" ]
}

run "installed, and used by pkg-config" installed
run "what install.sh refuses" not_installed
[ -z "$fuzz" ] || run "fuzzing for ten seconds" hosts/fuzz/run.sh 10

# ---- tools

# helps PROGRAM NAME: it answers --help with status 0, and with a line that begins with its name.
helps() {
    if ! "$1" --help > "$work/help" || ! grep -q "^  $2" "$work/help"; then
        echo "$2 does not answer --help"
        return 1
    fi
}

tools_help() {
    for tool in hosts/test.sh hosts/instructions.sh hosts/c/stack.sh hosts/fuzz/run.sh tools/*.sh ${python:+tools/*.py}; do
        helps "$tool" "$tool" || return 1
    done
    helps target/stack-runs/stack stack
}

run "every tool answers --help" tools_help

# ---- Rust

rust() {
    command=$1
    shift
    cargo "$command" --offline --locked --manifest-path hosts/rust/Cargo.toml "$@"
}

programs_help() {
    for program in compare bench plain_check; do
        helps "$CARGO_TARGET_DIR/release/$program" "$program" || return 1
    done
}

# compares PROGRAM ARGUMENT ..: the last line is 'no difference in N calls'.
compares() {
    "$@" > "$work/compared"
    status=$?
    tail -n 20 "$work/compared"
    [ "$status" -eq 0 ] && tail -n 1 "$work/compared" | grep -q '^no difference in [0-9]* calls$'
}

comparison() {
    compares "$CARGO_TARGET_DIR/release/compare" --program target/bin/knot_check
}

c_comparison() {
    compares "$CARGO_TARGET_DIR/release/compare" --library c
}

# The same with the C compiled so that it stops where C leaves open what happens. It is built apart, since it is slower.
sanitized_comparison() {
    (
        CARGO_TARGET_DIR=$here/target/host-sanitized
        CFLAGS="-fsanitize=undefined -fsanitize-undefined-trap-on-error"
        export CFLAGS
        rust build --release --package compare && compares "$CARGO_TARGET_DIR/release/compare" --library c
    )
}

# Counts of instructions on the smallest of the timed checks: a line for each shape and library, with four numbers.
instructions() {
    BENCH=$CARGO_TARGET_DIR/release/bench hosts/instructions.sh 16 > "$work/instructions" && cat "$work/instructions" &&
        [ "$(grep -cE '^\| [a-z ]* \| (proved|plain Rust|C)( \| [1-9][0-9]*){4} \|$' "$work/instructions")" -eq 15 ]
}

# The programs of the Rust side over the plain Rust in the archive's place. They are built apart, since they compare nothing.
standin() {
    (CARGO_TARGET_DIR=$here/target/host-standin && rust test --release --workspace --exclude pickledune --features standin)
}

run "the Rust side is built" rust build --release
run "every Rust program answers --help" programs_help
run "the Rust tests" rust test --release
for example in hosts/rust/pickledune/examples/*.rs; do
    [ -f "$example" ] || continue
    example=$(basename "$example" .rs)
    run "the wrapper's example $example" rust run --release --package pickledune --example "$example"
done
[ -z "$fmt" ] || run "cargo fmt" cargo fmt --manifest-path hosts/rust/Cargo.toml --all --check
[ -z "$clippy" ] || run "cargo clippy, warnings as errors" rust clippy --release --all-targets -- -D warnings
run "the Rust side without the archive" standin
run "the comparison, call by call and with the program" comparison
run "the comparison of the C comparator" c_comparison
run "the comparison of the C comparator with the sanitizer undefined" sanitized_comparison
[ -z "$valgrind" ] || run "instructions are counted" instructions

finish
