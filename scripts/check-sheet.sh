#!/usr/bin/env bash
# Checks the release sheet, docs/SHEET.md: each column takes only names of its kind that exist, no cell is empty, and every
# must-fail edit and every listing stands in some row. scripts/sheet.py says how names are written.
set -euo pipefail
cd "$(dirname "$0")/.."
python3 scripts/sheet.py "${SHEET:-docs/SHEET.md}"
