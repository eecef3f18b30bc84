#!/usr/bin/env bash
# What README.md and docs/SHEET.md cite is stated by definitions of specs/ alone: no statement of a cited theorem names anything of a
# proofs/ folder. scripts/statements.py says how statements are read.
set -euo pipefail
cd "$(dirname "$0")/.."
python3 scripts/statements.py
