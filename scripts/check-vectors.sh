#!/usr/bin/env bash
# The listings of crates/vectors/data. Everything derived from them is derived anew and compared, so that none is left out and
# none is empty; then each is run, and a wrong expectation is told with file, line, word, expected and given answer. The program is
# the one that `rt ci` or `rt run` built; PROGRAM, where it is set, names another file of it.
set -euo pipefail
cd "$(dirname "$0")/.."
crate=${VECTORS:-crates/vectors}
program=${PROGRAM:-$PWD/target/bin/vectors}
work=$(mktemp -d)
trap 'rm -rf "$work"' EXIT
bad=0
complain() {
    echo "vectors: $*"
    bad=1
}

listings=$(python3 scripts/vectors_expect.py --check "$crate" 2> "$work/said") || complain "$(cat "$work/said")"
source scripts/library.sh
[ -n "${PROGRAM:-}" ] || program vectors
[ -x "$program" ] || { complain "there is no $program"; exit 1; }

# what is printed for each listing, and what is to be
find "$crate/data" -name '*.txt' | sed "s#^$crate/data/##" | LC_ALL=C sort > "$work/names"
mapfile -t names < "$work/names"
(cd "$crate/data" && "$program" "${names[@]}") > "$work/printed" 2> "$work/errors" || complain "the program ended with status $?"
while IFS= read -r line; do
    complain "said on standard error: $line"
done < "$work/errors"
while IFS= read -r line; do
    name=${line%%: *}
    given=$(awk -v name="$name: " 'index($0, name) == 1 { print; exit }' "$work/printed")
    given=${given:-$name: nothing}
    [ "$given" = "$line" ] && continue
    difference='line ([0-9]+): after words ([0-9]+) word ([0-9A-F]{8}) expected ([0-9A-F]{8}) given ([0-9A-F]{8})$'
    if [[ "$given" =~ $difference ]]; then
        complain "$crate/data/$name: line ${BASH_REMATCH[1]}: word ${BASH_REMATCH[3]}: expected ${BASH_REMATCH[4]}, given ${BASH_REMATCH[5]} (after ${BASH_REMATCH[2]} words as expected)"
    else
        complain "$crate/data/$given, where '${line#*: }' is to be printed"
    fi
done < "$crate/stdout"

# what cannot be read or written is told
said() {
    local told
    told=$(cd "$crate/data" && "$program" "${@:2}" 2>&1 > "${out:-/dev/null}") || complain "vectors ${*:2}: status $?"
    [ "$told" = "$1" ] || complain "vectors ${*:2}: said '$told', not '$1'"
}
said 'vectors: no listing is named'
said '.: Is a directory' . p01-read-mdcon.txt
said 'missing.txt: No such file or directory' missing.txt
out=/dev/full said 'vectors: standard output: No space left on device' p01-read-mdcon.txt p02-last-register.txt

[ "$bad" = 0 ] && echo "vectors: $listings, each named in args, none empty, each answered as it says"
exit "$bad"
