#!/usr/bin/env bash
# The gate of the base alone: a copy of the repository with the crates that document 01's programs and theorems need, and `rt ci` over
# them from nothing. Prints the last line of it and the time that it took. Usage: bench/base.sh
set -euo pipefail
cd "$(dirname "$0")/.."
roots="replay vectors rates_capi chip_rate_report list_call_laws chip_laws chip_write_laws chip_flag_laws chip_count_laws chip_observed_laws bus_transfer_laws isolation_laws chip_cases"
work=$(mktemp -d)
trap 'rm -rf "$work"' EXIT
wanted=$(python3 - $roots << 'EOF'
import re, sys
stands = {}
for line in open("crates.txt"):
    name, colon, rest = line.split("#")[0].partition(":")
    if colon and name.strip():
        stands[name.split()[0]] = rest.split()
found, todo = set(), sys.argv[1:]
while todo:
    name = todo.pop()
    if name in stands and name not in found:
        found.add(name)
        todo += stands[name]
print("\n".join(sorted(found)))
EOF
)
mkdir "$work/crates"
for crate in $wanted; do
    mkdir "$work/crates/$crate"
    tar c --exclude=./out -C "crates/$crate" . | tar x -C "$work/crates/$crate"
    grep -E "^$crate( staticlib)?:" crates.txt >> "$work/crates.txt"
done
cd "$work"
began=$(date +%s)
rt ci --anew > log 2>&1 || { tail -n 20 log; exit 1; }
echo "the base alone, $(wc -l < crates.txt) crates and $(find crates -name '*.edit' | wc -l) must-fail edits: $(tail -n 1 log), $((($(date +%s) - began) / 60)) min $((($(date +%s) - began) % 60)) s"
