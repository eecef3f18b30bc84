#!/usr/bin/env bash
# Holds docs/WORDS.md to the tables in the code, and runs its examples by the program that `rt ci` built.
set -euo pipefail
cd "$(dirname "$0")/.."
source scripts/library.sh
program vectors
python3 scripts/words.py
