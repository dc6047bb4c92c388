#!/bin/sh
# Counts, in the sources of all crates, the places that docs/DESIGN-PASS.md speaks of, point by point.
#
#   tools/design_places.sh [--list]
#
# With --list it names each place, too.
set -eu

case ${1-} in
-h | --help)
    sed -n '2,/^[^#]/ s/^# \{0,1\}//p' "$0"
    exit
    ;;
'' | --list) ;;
*)
    echo "usage: tools/design_places.sh [--list]" >&2
    exit 2
    ;;
esac
cd "$(dirname "$0")/.."
list=${1:-}
sources=$(find crates -path '*/src/*' -name '*.rt' -not -path '*/out/*' | LC_ALL=C sort)

# say POINT TEXT < places, one a line
say() {
    places=$(cat)
    n=$(printf '%s' "$places" | grep -c . || true)
    printf '%s %s: %s\n' "$1" "$2" "$n"
    [ "$list" != --list ] || [ "$n" = 0 ] || printf '%s\n' "$places" | sed 's/^/    /'
}

# shellcheck disable=SC2086
find_in() { grep -nE "$1" $sources || true; }

find_in '^ +Refused(\(u32\)| \{)' | say 1a 'enums with a case for a refusal by number'
find_in '^ +(Nothing|Nobody|Wrong|End|Beyond|Short),' | say 1b 'enums with a case for nothing'
find_in 'fn (fields_number|write_number|row_met|number_of|refusal|started_number)\(' | say 1c 'functions that give the number of a refusal, 0 for none'
find_in '^ +(pub )?(number|fault): u32,|^ +(pub )?(failed|made): bool,' | say 1d 'numbers of a refusal or fault, and flags, with values beside them'
find_in '^(pub )?const [A-Z_0-9]+: (usize|u32) = [0-9]+;' | grep -E '^crates/(drawing|ordering|expecting)/' | grep -vE 'FAMILIES|DRAWN|KINDS|SHAPES|ORDERS|FIXED|SMALL|const (WRONG|MOST|LONGEST)' | say 1e 'numbers for kinds, in the crates of the trials'

# shellcheck disable=SC2086
grep -hoE '\bfn [a-z_0-9]+' $sources | grep -vE 'fn (main|pickledune_.*|read|run_on|start|step|next|begin|report|pick|run_shuffled|open|write|version|layout)$' | LC_ALL=C sort | uniq -d | say 2a 'names that more than one function has'

find_in '^ *while ' | say 3a 'while loops'
find_in '^ *for [a-z_]+ in [0-9a-z_]+\.\.' | say 3b 'loops over a range of numbers'

find_in 'let mut [a-z] = [a-z];' | say 4a 'copies of a value that are changed field by field'
find_in 'fn (kind|kind_of|knot_bit|returned_bit|probes_number|message_of|chain_of|no_counts|is_same|print_field|print_signed|signed|joined|word|wide|least)\(' | say 4b 'conversions, comparisons and printing by hand'

# shellcheck disable=SC2086
grep -hoE '^ +requires( [a-z_0-9]+)? \{.*\}' $sources | sed -E 's/^[^{]*//; s/\.(now|old)\b/.at/g' | LC_ALL=C sort | uniq -c | awk '$1 >= 3 { print }' | say 5a 'facts that three contracts or more ask for'
find_in '^ +(requires|ensures) ([a-z_]+_[2-9]|[a-z_]*_value(_[0-9])?|le_[a-z]+|[a-z_]*bound(_[0-9])?|by_index|[a-z_]+_le_[a-z_]+|[a-z_]+_lt_[a-z_]+) \{' | say 5b 'clauses whose name says nothing of their fact'
find_in '\bn: usize, m: usize\b|^ +n: usize,$' | say 5c 'places where N and M travel together, as parameters or fields'

find_in '&(mut )?\[(u8|u16|i32|bool|usize); [0-9]+\]' | say 6a 'arrays of a fixed size that are lent whole'
find_in 'entries: usize' | say 6b 'lengths beside a buffer'

find_in '^ +match (kind|order|number|links|places|place) \{' | say 7a 'switches on a number'

grep -hE '^ +let ' crates/*/proofs/Answers.antt crates/*/proofs/*/Answers.antt crates/*/proofs/*/*/Answers.antt 2>/dev/null | sed -E 's/^ +//' | LC_ALL=C sort | uniq -d | say 8a 'let lines that stand in more than one answer'
find_in '// Stays: ' | say 9 'places that stay, with the reason beside them'
