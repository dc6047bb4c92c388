#!/bin/sh
# Proves and builds what hosts use, and puts it into target.
#
#   tools/build.sh [knot_check | archive]
#
# knot_check is the check program, target/bin/knot_check: it is proved, built, run on the crate's stdin, and what it prints is compared with the
# crate's stdout. archive is the archive for C and Rust, target/staticlib/libpickledune.a, made from the crate pickledune_c. With no word both
# are made. What was proved here before, and has not changed since, is not proved again.
# It needs rt (the Rattle kit) alone.
set -eu

case ${1-} in
-h | --help)
    sed -n '2,/^[^#]/ s/^# \{0,1\}//p' "$0"
    exit
    ;;
esac
usage() {
    echo "usage: tools/build.sh [knot_check | archive]" >&2
    exit 2
}
[ $# -le 1 ] || usage
cd "$(dirname "$0")/.."

# A file that was made, moved to its name when it is whole: who uses the old one meanwhile keeps it.
put() {
    mkdir -p "$(dirname "$2")"
    cp "$1" "$2.new"
    mv -f "$2.new" "$2"
    echo "$2"
}

build_program() {
    mkdir -p target
    (cd crates/knot_check && rt run < stdin > ../../target/knot_check.stdout)
    cmp target/knot_check.stdout crates/knot_check/stdout
    put crates/knot_check/out/knot_check target/bin/knot_check
}

build_archive() {
    (cd crates/pickledune_c && rt lib)
    put crates/pickledune_c/out/libpickledune_c.a target/staticlib/libpickledune.a
}

case ${1-both} in
knot_check) build_program ;;
archive) build_archive ;;
both)
    build_program
    build_archive
    ;;
*) usage ;;
esac
