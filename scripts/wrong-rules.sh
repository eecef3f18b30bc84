#!/usr/bin/env bash
# Tries the wrong rules of scripts/wrong-rules.txt, each in a copy of the definitions, and sees the theorem or the computed case that its row names refuse it
# (scripts/wrong_rules.py). Not part of the gate: a row takes half a minute. docs/WRONG-RULES.md keeps the last result of each row with its commit.
# Usage: scripts/wrong-rules.sh [LABEL ..]; with arguments only these rows are tried.
set -euo pipefail
cd "$(dirname "$0")/.."
python3 scripts/wrong_rules.py --write docs/WRONG-RULES.md "$@"
