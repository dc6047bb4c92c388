#!/bin/sh
# Installs the library and the check program.
#
#   tools/install.sh PREFIX
#
# PREFIX is a folder, such as /usr/local, whose name has letters, digits and /._+@,- alone. It gets
#   include/pickledune.h            the header
#   lib/libpickledune.a             the archive, for x86-64 Linux
#   lib/pkgconfig/pickledune.pc     what pkg-config tells a host's build: gcc host.c $(pkg-config --cflags --libs pickledune)
#   bin/knot_check                  the check program
# Where pkg-config does not look in PREFIX by itself, a host's build sets PKG_CONFIG_PATH=PREFIX/lib/pkgconfig.
# The archive and the program must be built, by tools/build.sh. If DESTDIR is set, all is put below that folder instead, and is written for use
# in PREFIX. The version is the header's.
set -eu

refuse() {
    echo "install.sh: $1" >&2
    exit "$2"
}

case ${1-} in
-h | --help)
    sed -n '2,/^[^#]/ s/^# \{0,1\}//p' "$0"
    exit
    ;;
esac
[ $# -eq 1 ] || refuse "usage: tools/install.sh PREFIX" 2
case $1 in
'' | -*) refuse "'$1' is no PREFIX; usage: tools/install.sh PREFIX" 2 ;;
/*) prefix=$1 ;;
*) prefix=$(pwd)/$1 ;;
esac
case $prefix in
*[!A-Za-z0-9/._+@,-]*) refuse "pkg-config is to name this folder, which has another character than letters, digits and /._+@,-: '$prefix'" 2 ;;
esac
while [ "$prefix" != / ] && [ "$prefix" != "${prefix%/}" ]; do prefix=${prefix%/}; done
case ${DESTDIR-} in
'' | /*) below=${DESTDIR-} ;;
*) below=$(pwd)/$DESTDIR ;;
esac

cd "$(dirname "$0")/.."
header=include/pickledune.h
archive=target/staticlib/libpickledune.a
program=target/bin/knot_check
[ -f "$archive" ] || refuse "no $archive: build it by 'tools/build.sh archive'" 1
[ -f "$program" ] || refuse "no $program: build it by 'tools/build.sh knot_check'" 1
version=$(sed -n 's/^#define PICKLEDUNE_VERSION_TEXT "\(.*\)"$/\1/p' "$header")
[ -n "$version" ] || refuse "$header names no PICKLEDUNE_VERSION_TEXT" 1

root=$below$prefix
mkdir -p "$root/include" "$root/lib/pkgconfig" "$root/bin"

# A file of its own, with the mode that it is to have, moved to its name when it is whole: who uses the old one meanwhile keeps it.
put() {
    cp "$1" "$root/$2.new"
    chmod "$3" "$root/$2.new"
    mv -f "$root/$2.new" "$root/$2"
    echo "$root/$2"
}

put "$header" include/pickledune.h 644
put "$archive" lib/libpickledune.a 644
cat > target/pickledune.pc << END
prefix=$prefix
includedir=\${prefix}/include
libdir=\${prefix}/lib

Name: pickledune
Description: Checks whether a payment is stuck in a knot of waits
Version: $version
Cflags: -I\${includedir}
Libs: -L\${libdir} -lpickledune
END
put target/pickledune.pc lib/pkgconfig/pickledune.pc 644
put "$program" bin/knot_check 755
