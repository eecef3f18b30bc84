#!/usr/bin/env bash
# crates.txt lists what each crate's files need, and no more, and docs/CRATES.md has its row for each.
set -euo pipefail
cd "$(dirname "$0")/.."
python3 scripts/crates.py --check
python3 scripts/graph.py
