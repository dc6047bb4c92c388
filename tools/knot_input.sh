#!/bin/sh
# Makes an input of the check program from lists of waits and picks, with sh, awk and printf alone.
#
#   tools/knot_input.sh START EDITION N 'FROM-TO FROM-TO ..' ['FROM-TO FROM-TO ..'] > input
#
# START is the start process, EDITION the rulebook's edition, 1 or 2, and N the number of processes. The first list has the waits, the
# second the picks, in order. Each wait is put at the front of its two chains, as the writer of tables does. Numbers are 0 to 65535; whether
# they make a right input the check program says.
case ${1-} in
-h | --help)
    sed -n '2,/^[^#]/ s/^# \{0,1\}//p' "$0"
    exit
    ;;
esac
if [ $# -lt 4 ] || [ $# -gt 5 ]; then
    echo "usage: $0 START EDITION N 'FROM-TO ..' ['FROM-TO ..'] > input" >&2
    exit 2
fi
escapes=$(awk -v start="$1" -v edition="$2" -v n="$3" -v waits="$4" -v picks="${5-}" '
    function fail(text) { print text | "cat >&2"; exit 2 }
    function number(text) {
        if (text !~ /^[0-9]+$/ || text + 0 > 65535) fail("no number of 0 to 65535: \"" text "\"")
        return text + 0
    }
    function pair(text, ends) { if (split(text, ends, "-") != 2) fail("no FROM-TO: \"" text "\"") }
    function field(v) { printf "\\%03o\\%03o", v % 256, int(v / 256) }
    BEGIN {
        start = number(start); edition = number(edition); n = number(n)
        m = split(waits, wait, " ")
        for (k = 1; k <= m; k++) {
            pair(wait[k], ends)
            a = from[k] = number(ends[1]); b = to[k] = number(ends[2])
            next_out[k] = first_out[a]; first_out[a] = k
            next_in[k] = first_in[b]; first_in[b] = k
        }
        count = split(picks, pick, " ")
        field(start); field(edition); field(n); field(m)
        for (p = 1; p <= n; p++) { field(first_out[p]); field(first_in[p]) }
        for (k = 1; k <= m; k++) { field(from[k]); field(to[k]); field(next_out[k]); field(next_in[k]) }
        for (k = 1; k <= count; k++) { pair(pick[k], ends); field(number(ends[1])); field(number(ends[2])) }
    }') || exit 2
printf "$escapes"
