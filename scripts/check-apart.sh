#!/usr/bin/env bash
# Tries by itself each wrong answer that shares an edit file and names a theorem or a goal or edits a definition, and sees that of all that
# its file names it refuses its own and no other (scripts/apart.py). Not part of the gate: it takes as long as the files save. Wants the
# libraries that `rt ci` or `rt all check` has left below crates/.
# Usage: scripts/check-apart.sh [CRATE ..]
set -euo pipefail
cd "$(dirname "$0")/.."
python3 scripts/apart.py "$@"
