#!/usr/bin/env bash
# Compares the proved hold of SCL and the proved lines with the independent model's: generated traffic, holds of 0 to 70,000 clocks, and the
# latches of P30 and P31.
set -euo pipefail
cd "$(dirname "$0")/.."
work=$(mktemp -d)
trap 'rm -rf "$work"' EXIT
source scripts/library.sh
library chip_capi
cargo build --offline --quiet --release --features proved --bin holds
target/cargo/release/holds
