#!/usr/bin/env bash
# Compares the proved reader of value change dumps with the independent one, on generated and damaged files; reads the
# stored dumps. Ends in 'vcd: ..', or names the first difference and fails.
set -euo pipefail
cd "$(dirname "$0")/.."
work=$(mktemp -d)
trap 'rm -rf "$work"' EXIT
source scripts/library.sh
library vcd_capi
cargo test --offline --quiet --release --lib vcd > "$work/log" 2>&1 || { cat "$work/log"; exit 1; }
cargo build --offline --quiet --release --features proved --bin vcd --bin vcd_compare
target/cargo/release/vcd_compare > "$work/compare"
cat "$work/compare"

# The stored dumps, with the words that they stand for.
dumps=0
for file in tests/vcd/*.vcd; do
    # a refusal, `41 at 45`, is the last line that is expected, and has status 1
    expected=0
    ! tail -n 1 "${file%.vcd}.expect" | grep -q ' at ' || expected=1
    status=0
    target/cargo/release/vcd "$file" < "$file" > "$work/words" 2> "$work/refusal" || status=$?
    [ "$status" = "$expected" ] || { echo "vcd: $file ends with status $status, not $expected"; exit 1; }
    { od -An -v -tx4 -w4 "$work/words" | tr -d " "; sed -E "s#^nt6861 vcd: $file: at byte ([0-9]+): ([0-9]+), [a-z].*#\2 at \1#" "$work/refusal"; } > "$work/out"
    diff -u "${file%.vcd}.expect" "$work/out" || { echo "vcd: $file differs"; exit 1; }
    dumps=$((dumps + 1))
done

# The dumps whose trace is computed in a proof are the stored ones.
python3 - <<'PYTHON'
import re, sys
worked = re.findall(r'^(\w+)_dump =\n((?: .*\n)+)', open('crates/vcd_laws/specs/Worked.antt').read(), re.M)
for name, listed in worked:
    if bytes(map(int, re.findall(r'\d+', listed))) != open(f'tests/vcd/{name}.vcd', 'rb').read():
        sys.exit(f'vcd: {name}_dump of vcd_laws/specs/Worked.antt is not tests/vcd/{name}.vcd')
if len(worked) < 4:
    sys.exit(f'vcd: {len(worked)} dumps are found in vcd_laws/specs/Worked.antt')
print(f'vcd: {len(worked)} dumps computed in a proof are the stored ones')
PYTHON
echo "vcd: $dumps stored dumps read as expected"
