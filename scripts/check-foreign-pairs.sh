#!/usr/bin/env bash
# Samples pairs of runs through transfers to other devices under the premises of Wish 13, told from words and levels alone, and
# compares them in the independent model; then drops each premise in turn, and a difference must be found.
set -euo pipefail
cd "$(dirname "$0")/.."
work=$(mktemp -d)
trap 'rm -rf "$work"' EXIT
cargo build --offline --quiet --release --bin foreign_pairs
target/cargo/release/foreign_pairs "${SEED:-1}" "${PAIRS:-300000}"
cargo test --offline --quiet --release --bin foreign_pairs > "$work/log" 2>&1 || { cat "$work/log"; exit 1; }
echo "foreign pairs: with any one premise dropped a difference is found"
