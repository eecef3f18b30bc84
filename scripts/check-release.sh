#!/usr/bin/env bash
# Tries ./nt6861 release in a copy of the tree with a commit of its own and a record written here: the sheet is made and has no empty cell, and each
# thing that may not be signed is refused with its reason. Ends in 'release: ..', or names the first difference and fails.
set -euo pipefail
cd "$(dirname "$0")/.."
work=$(mktemp -d)
trap 'rm -rf "$work"' EXIT
tree=$work/tree
mkdir "$tree"
git ls-files -z --cached --others --exclude-standard | grep -zE '^(nt6861|crates.txt|crates/.*|docs/.*|scripts/.*|include/.*|\.gitignore)$' | xargs -0 cp --parents -t "$tree"
git -C "$tree" init -q
save() { git -C "$tree" add -A && git -C "$tree" -c user.name=check -c user.email=check@example.invalid commit -q -m "$1"; }
save 'A tree to try'
gate=$tree/target/gate

# a record as .ci/run leaves it
record() {
    rm -rf "$tree/target"
    mkdir -p "$gate" "$tree/target/bin"
    for number in 0 1 2 3 4 5 6 7 8 9; do echo "program $number" > "$tree/target/bin/p$number"; done
    (cd "$tree" && sha256sum target/bin/* > target/gate/made)
    {
        echo '==== rt ci'
        (cd "$tree/crates" && printf '%s\n' */must-fail/*.edit) | sed 's#^\(.*\)/must-fail/\(.*\)\.edit$#rt: must-fail \1/\2.edit: refused, as it must be: an error#'
        for check in scripts/check-*.sh; do printf '==== %s\nagree: 1\n' "${check#scripts/}"; done
    } > "$gate/log"
    printf '%s\n' "commit $(git -C "$tree" rev-parse HEAD)" 'clean yes' 'began 2000-01-01T00:00Z' 'ended 2000-01-01T01:00Z' "toolchain $(rt version)" 'last 9 passed, 0 failed' 'counts 60' \
        "log $(sha256sum < "$gate/log" | cut -d ' ' -f 1)" > "$gate/record"
}

complain() {
    echo "release: $*"
    exit 1
}
tried=0
# refused WHY: status 1, nothing written, and the reason; the tree is put back
refused() {
    local status=0
    rm -rf "$tree/target/release"
    (cd "$work" && "$tree/nt6861" release) > "$work/out" 2> "$work/err" || status=$?
    # shellcheck disable=SC2053
    [ "$status" = 1 ] && [ ! -s "$work/out" ] && [[ $(cat "$work/err") == "nt6861 release: refused: "$1 ]] || complain "not refused as '$1': status $status, $(cat "$work/out" "$work/err")"
    [ ! -e "$tree/target/release" ] || complain "'$1': a page is written"
    tried=$((tried + 1))
    git -C "$tree" checkout -q -- .
    git -C "$tree" clean -q -f -d
    record
}

record
[ "$(cd "$work" && "$tree/nt6861" release)" = "$tree/target/release/release.md
$tree/target/release/release.html" ] || complain "the pages are not written"
python3 - "$tree/target/release" <<'PYTHON'
import pathlib, re, sys
folder = pathlib.Path(sys.argv[1])
text, page = (folder / "release.md").read_text(), (folder / "release.html").read_text()
for name in ["Demand 1", "Demand 2", "Demand 3", "P1 to P12", "The recall", *[f"Wish {n}" for n in range(1, 15)]]:
    row = re.search(rf"^\| {name} \| (\w+\.antt: \S.*?) \| (\d+)[^|]* \| (\d+)[^|]* \| (\d+)[^|]* \| (\d+)[^|]* \|$", text, re.M)
    if not row or row.group(2) == "0" or row.group(3) == "0":
        sys.exit(f"release: the sheet has no whole row for {name}")
    if f"<td>{name}</td>" not in page:
        sys.exit(f"release: the page to print has no row for {name}")
empty = [line for line in text.split("\n") if re.search(r"\|\s*\|", line) and line != "|  |  |"]
if empty or "<td></td>" in page:
    sys.exit(f"release: a cell is empty: {empty}")
PYTHON

echo >> "$tree/docs/STATE.md"
refused 'the tree differs from its commit: M docs/STATE.md'
touch "$tree/more"
refused 'the tree differs from its commit: [?][?] more'
rm "$gate/record"
refused 'the gate has left no record here*'
sed -i 's/^commit .*/commit 0123456789abcdef0123456789abcdef01234567/' "$gate/record"
refused "the gate's record is of commit 0123456789ab, and this is *"
sed -i 's/^clean yes/clean no/' "$gate/record"
refused 'the gate has run on a tree that differed from its commit'
sed -i 's/^last .*/last 9 passed, 1 failed/' "$gate/record"
refused "the gate's last line is '9 passed, 1 failed'"
sed -i 's/^last .*/last 0 passed, 0 failed/' "$gate/record"
refused "the gate's last line is '0 passed, 0 failed'"
sed -i 's/^toolchain .*/toolchain another/' "$gate/record"
refused 'the toolchain is not the one of the gate, another'
sed -i '/^counts/d' "$gate/record"
refused "the gate's record says nothing of 'counts'"
echo 'agree: 2' >> "$gate/log"
refused 'what the gate has printed was changed since'
again() { sed -i "s/^log .*/log $(sha256sum < "$gate/log" | cut -d ' ' -f 1)/" "$gate/record"; }
sed -i '/must-fail registers/d' "$gate/log"
again
refused "the gate's log has no refusal of registers/*"
sed -i '/==== check-vcd.sh/,+1d' "$gate/log"
again
refused "the gate's log has nothing of check-vcd.sh"
echo changed > "$tree/target/bin/p3"
refused 'target/bin/p3 is not the file that the gate has made'
head -n 9 "$gate/made" > "$work/made" && mv "$work/made" "$gate/made"
refused "the gate's record names 9 files"

# of what is committed a cell is empty
sed -i 's/^pub /hidden /' "$tree/crates/demands_laws/proofs/Cases.antt"
save 'No statement of the cases'
record
refused 'a cell would be empty: Promises*, P1 to P12'
echo "release: the sheet is made and whole; $tried trees and records that may not be signed are refused"
