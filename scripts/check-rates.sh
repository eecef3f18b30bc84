#!/usr/bin/env bash
# Compares the proved rates with an independent computation, bit for bit: each latch for the field and for the interval, and
# each pair of latches for the line. Ends in 'rates agree: N', or names the first difference and fails.
set -euo pipefail
cd "$(dirname "$0")/.."
work=$(mktemp -d)
trap 'rm -rf "$work"' EXIT
source scripts/library.sh
library rates_capi
cargo test --offline --quiet --release --features proved --bin rates > "$work/log" 2>&1 || { cat "$work/log"; exit 1; }
cargo build --offline --quiet --release --features proved --bin rates
target/cargo/release/rates
