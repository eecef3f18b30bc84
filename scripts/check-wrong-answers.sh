#!/usr/bin/env bash
# Builds each wrong answer of the must-fail edits that changes code, unproved, and sees a run differ from the right program's
# (scripts/wrong_answers.py). Not part of the gate: it takes a quarter of an hour. docs/WRONG-ANSWERS.md keeps the last result.
# Usage: scripts/check-wrong-answers.sh [CRATE | CRATE/LABEL ..]; with arguments only these are run, and the others keep their rows.
set -euo pipefail
cd "$(dirname "$0")/.."
python3 scripts/wrong_answers.py --write docs/WRONG-ANSWERS.md "$@"
