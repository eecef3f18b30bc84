#!/usr/bin/env bash
# Makes the images and listings from the sources, in the folder that is named, by default beside them: make.sh [FOLDER]
set -euo pipefail
cd "$(dirname "$0")"
to=${1:-.}
objects=$(mktemp -d)
trap 'rm -rf "$objects"' EXIT
for source in *.s; do
    name=${source%.s}
    ca65 --cpu 6502 -l "$objects/$name.lst" -o "$objects/$name.o" "$source"
    # the listing of the source alone, without a heading and the lines of nt6861.inc
    grep -E '^[0-9A-F]{6}[r ] 1' "$objects/$name.lst" > "$to/$name.lst"
    ld65 -C nt6861.cfg -o "$to/$name.rom" "$objects/$name.o"
done
