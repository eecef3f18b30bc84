#!/usr/bin/env bash
# Checks each crate with each of its must-fail edits, over the libraries that `rt ci` has left (scripts/rattle.py edits), and reads all that the prover says:
# `rt ci`, which tries them too, tells the first line alone. An edit file with headers holds several wrong answers. Under
# '# FUNCTION: wrong answer' stands one of a function, refused by that function's own proof; under '# FUNCTION/GOAL: wrong answer' one
# refused at the goal of that name of the proof; under '# MODULE.THEOREM: wrong rule' one of a definition,
# refused by a fact of that theorem of proofs/MODULE.antt. No two of a file name the same function, goal or theorem, so each refusal is
# told apart; that a goal or theorem named is refused by its own wrong answer alone, scripts/check-apart.sh sees by trying each by itself.
# A caller of a refused function is checked all the same, by the function's contract.
# Any other edit file is one wrong program, and its first error counts. A refusal that only says that a proof no longer
# fits the code, or that what it rests on was refused, shows nothing about the contract and fails the check. It cannot tell a fact
# that fails from one that the proof does not find: that the edited code is wrong indeed, scripts/check-wrong-answers.sh sees by
# running it. Each public function has at least two wrong answers, but for one without an `ensures` that reads or writes: no contract can say
# what is read or written. Such a one stands in a crate that uses std's input, files or environment.
# LOGS, where it is set, is a folder with the logs of an earlier try, which are read in place of another one.
set -euo pipefail
cd "$(dirname "$0")/.."
bad=0
complain() {
    echo "must-fail: $*"
    bad=1
}

# What a refusal says that is none of a fact: a proof that no longer fits the code or rests on what was refused, or a text that cannot be read.
unfit='can be named from here|has no field|has no `|is not in scope|is no name|room for only|was not admitted|were not checked|was not checked|was rejected|operand is missing|expected the end|cannot continue'

# judge EDIT ERRORS: one of them, a line each, is that of a fact
judge() {
    if [ -z "$2" ]; then
        complain "$1: no error of its own"
    elif ! grep -qvE "$unfit" <<< "$2"; then
        complain "$1 only unfits its proof: $(head -n 1 <<< "$2" | cut -c 1-300)"
    fi
}

# headers EDIT: for each wrong answer its function, or its function and goal, and the public function that it is an answer of,
# '# FUNCTION of PUBLIC (LABEL): ..'; for each wrong rule its theorem twice
headers() {
    sed -nE 's/^# ([a-z0-9_]+(\/[A-Za-z0-9_-]+)?) of ([a-z0-9_]+)( \([a-z0-9_]+\))?: .*/\1 \3/p
        s/^# ([a-z0-9_]+)(\/[A-Za-z0-9_-]+)?( \([a-z0-9_]+\))?: .*/\1\2 \1/p
        s/^# ([A-Z][A-Za-z0-9]*\.[^ .:]+)( \([a-z0-9_]+\))?: .*/\1 \1/p' "$1"
}

# shared EDIT: what two wrong answers of a file name both, a function's goal and the whole function among it. Headings one after the
# other are of the same wrong answer.
shared() {
    awk '/^old:/ { edited = 1 }
        /^# ([a-z0-9_]+(\/[A-Za-z0-9_-]+)?( of [a-z0-9_]+)?|[A-Z][A-Za-z0-9]*\.[^ .:]+)( \([a-z0-9_]+\))?: / {
            answer += edited; edited = 0
            name = $2; sub(/:$/, "", name); whole = name; sub(/\/.*/, "", whole)
            if ((name in by && by[name] != answer) || (name != whole && whole in by) || (name == whole && name in parted)) print name
            by[name] = answer
            if (name != whole) parted[whole] = 1
        }' "$1"
}

# refusals LOG CRATE NAME: the errors of a function's own proof, of the goal of a proof FUNCTION/GOAL, or of a theorem MODULE.THEOREM. Of a function
# with no answers of its own the prover tells the goals that it does not find a proof for.
refusals() {
    local function=${3%%/*} goal
    case $3 in
    *.*) grep -E "/proofs/${3%%.*}\.antt:[0-9]+:[0-9]+: error: \`${3#*.}\`:" "$1" || true ;;
    *)
        goal='[^`]*'
        [ "$function" = "$3" ] || goal=${3#*/}
        grep -E "/proofs/([^:]*/)?$function/(Answers|Invariants|Proof)\.antt:[0-9]+:[0-9]+: error: \`$goal\`:" "$1" || true
        [ "$function" != "$3" ] || grep -E "/proofs/([^:]*/)?$function/(Answers|Invariants|Proof)\.antt:[0-9]+:[0-9]+: error: [^\`]" "$1" || true
        grep -E "^fn $2::([^ ]*::)?$function: no proof: .*\`search\` did not prove .*\`$goal\`" "$1" || true
        ;;
    esac
}

logs=${LOGS:-target/must-fail}
[ -n "${LOGS:-}" ] || { rm -rf "$logs" && mkdir -p "$logs" && python3 scripts/rattle.py edits "$logs"; }
answers=0
tried=''
for edit in crates/*/must-fail/*.edit; do
    crate=$(basename "$(dirname "$(dirname "$edit")")")
    log=$logs/$crate/$(basename "$edit" .edit).log
    if [ ! -f "$log" ] || [ "$(tail -n 1 "$log")" != 'status 1' ] || ! grep -q '^logic=not-proved' "$log"; then
        complain "$edit: the prover does not refuse it: $(tail -n 2 "$log" 2> /dev/null | cut -c 1-300 | tr '\n' ' ')"
        continue
    fi
    named=$(headers "$edit")
    if [ -z "$named" ]; then
        answers=$((answers + 1))
        judge "$edit" "$(grep -m 1 -E '^[^ ]+:[0-9]+:[0-9]+: error|^note: [^ ]+:[0-9]+:[0-9]+: it is not proved that' "$log" || true)"
        continue
    fi
    while read -r name public; do
        answers=$((answers + 1))
        tried="$tried$crate::$public"$'\n'
        judge "$edit, $name" "$(refusals "$log" "$crate" "$name")"
    done <<< "$named"
    twice=$(shared "$edit")
    [ -z "$twice" ] || complain "$edit names twice: ${twice//$'\n'/ }"
done

# signatures: each public function as SOURCE NAME, and `ensures` where its contract has one
signatures() {
    awk '/^pub (extern "C" )?fn / { name = $0; sub(/^pub (extern "C" )?fn /, "", name); sub(/[^a-z0-9_].*/, "", name); kind = "" }
        name != "" && /^ *ensures / { kind = "ensures" }
        name != "" && /^\{|[^ ] \{$/ { print FILENAME, name, kind; name = "" }' crates/*/src/lib.rt
}

functions=0
silent=0
while read -r source name kind; do
    crate=${source#crates/}
    crate=${crate%%/*}
    if [ -z "$kind" ] && grep -qE '^use std::(env|fs|io)\b|\b(Env|Files|Print)\b' "$source"; then
        silent=$((silent + 1))
        continue
    fi
    functions=$((functions + 1))
    count=$(grep -cxF "$crate::$name" <<< "$tried" || true)
    [ "$count" -ge 2 ] || complain "$crate::$name has $count wrong answers tried, not two"
done < <(signatures)

# edit files alone name wrong answers: a comment that did would come to differ from what is tried
naming=$(grep -lE '^ *// Wrong answers:' crates/*/src/*.rt || true)
[ -z "$naming" ] || complain "comments name wrong answers: ${naming//$'\n'/ }"

[ "$bad" = 0 ] && echo "must-fail: $answers wrong answers, each refused at a fact of its own proof or theorem; at least two for each of $functions public functions; $silent only read or write"
exit "$bad"
