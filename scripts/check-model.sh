#!/usr/bin/env bash
# Compares replay, as `rt ci` built it, with the independent model: generated words of four seeds, with none to three bytes left
# over.
# A difference prints seed, place, word and both answers.
set -euo pipefail
cd "$(dirname "$0")/.."
source scripts/library.sh
program replay
work=$(mktemp -d)
trap 'rm -rf "$work"' EXIT
cargo build --offline --quiet --release --bin model
cargo test --offline --quiet --release > "$work/tests.log" 2>&1 || { cat "$work/tests.log"; exit 1; }
model=target/cargo/release/model
seed=${SEED:-1}
count=${COUNT:-500000}
for tail in 0 1 2 3; do
    "$model" words "$seed" "$count" "$tail" > "$work/words"
    target/bin/replay < "$work/words" > "$work/answers"
    "$model" compare "$seed" "$count" "$work/answers" "$tail"
    seed=$((seed + 1))
done
