#!/usr/bin/env bash
# Compares the proved calls on a state in bytes with the independent model's: generated traffic, damaged areas, other lengths, lists.
set -euo pipefail
cd "$(dirname "$0")/.."
work=$(mktemp -d)
trap 'rm -rf "$work"' EXIT
source scripts/library.sh
library chip_capi
cargo build --offline --quiet --release --features proved --bin states
target/cargo/release/states
