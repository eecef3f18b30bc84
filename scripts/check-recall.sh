#!/usr/bin/env bash
# The image and the two lists in the definitions of `recall_image_laws` are images/recall.rom, images/recall-foreign.events and
# images/recall-own.events, byte by byte and event by event, and the theorems run as many instructions as images/runs.txt says.
set -euo pipefail
cd "$(dirname "$0")/.."
python3 scripts/recall.py crates/recall_image_laws images
