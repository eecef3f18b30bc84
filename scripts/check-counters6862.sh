#!/usr/bin/env bash
# Compares `./nt6861 counters6862` with the independent model of the counters: generated scripts of four seeds, the hand-worked
# lines of crates/counters6862 and malformed lines; then the calls of the C interface, linked from their
# static library, from C by the header and, beside the same model, from Rust. A difference prints the line and both outputs.
set -euo pipefail
cd "$(dirname "$0")/.."
work=$(mktemp -d)
trap 'rm -rf "$work"' EXIT
source scripts/library.sh
cargo build --offline --quiet --release --bin model6862
model=target/cargo/release/model6862
program=(./nt6861 counters6862)

# same NAME: the program's lines and the model's for the script of that name
same() {
    local status=0 expected=0
    "${program[@]}" < "$work/$1" > "$work/proved" 2> "$work/said" || status=$?
    "$model" run < "$work/$1" > "$work/expected"
    ! tail -n 1 "$work/expected" | grep -q malformed || expected=1
    [ "$status" = "$expected" ] || { echo "counters6862: $1 ends with status $status, not $expected"; exit 1; }
    cmp -s "$work/proved" "$work/expected" && return
    echo "counters6862: $1 differs; the first lines of the difference (program <, model >):"
    diff "$work/proved" "$work/expected" | head -n 4
    exit 1
}

seed=${SEED:-1}
count=${COUNT:-25000}
lines=0
for _ in 1 2 3 4; do
    "$model" script "$seed" "$count" > "$work/seed $seed"
    same "seed $seed"
    lines=$((lines + count))
    seed=$((seed + 1))
done

cp crates/counters6862/stdin "$work/hand-worked"
same hand-worked
cmp -s "$work/expected" crates/counters6862/stdout || { echo "counters6862: the model differs from the hand-worked lines"; exit 1; }

malformed=0
for bad in x 'h' 'h 0 0' 'h  0 ' ' h 0' 'clrh 0' 'clrv ' 'field 1' 'put 12 0' 'put 0 65536' 'put 0' 'put 0 0 0' 'clock -1' 'clock' 'h 1000000000' 'H 0' 'freshen 6862' \
    'enhsels 1' '#' '' 'h0' 'h 0#'; do
    printf 'fresh 6862\n%s\nh 0' "$bad" > "$work/line '$bad'"
    same "line '$bad'"
    malformed=$((malformed + 1))
done

library sync6862_capi
cc -std=c99 -Wall -Wextra -Werror -Iinclude -o "$work/c" tests/counters6862.c target/staticlib/libsync6862_capi.a
"$work/c"
cargo build --offline --quiet --release --features proved --bin calls6862
target/cargo/release/calls6862
echo "counters6862 agrees: $lines lines of scripts, $malformed scripts with a line of every form"
