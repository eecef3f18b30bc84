#!/usr/bin/env bash
# Sees that what the pages name exists, and runs the examples of README.md and of the pages for users as they are written: commands, and listings.
set -euo pipefail
cd "$(dirname "$0")/.."
python3 scripts/pages.py
source scripts/library.sh
program vectors
front vcd vcd_capi
front addresses addresses_capi
front hosted firmware_capi_c chip_capi
python3 scripts/readme.py README.md docs/COMMANDS.md docs/CAPTURES.md docs/FIRMWARE.md docs/CONTRIBUTING.md
