#!/usr/bin/env bash
# Builds and runs the examples over the proved library, in C as C99 and as C++17 without a warning. Those of a chip, in C, in Rust and in Python, store their
# chip in a file and go on from it; what they print and what they store are the same, and are what examples/chip.txt says. The one that runs
# a firmware image prints examples/firmware.txt, the one that does four jobs examples/jobs.txt.
set -euo pipefail
cd "$(dirname "$0")/.."
work=$(mktemp -d)
trap 'rm -rf "$work"' EXIT
source scripts/library.sh
whole_library
strict=(-Wall -Wextra -Wpedantic -Werror -Iinclude)
for example in chip firmware jobs; do
    cc -std=c99 "${strict[@]}" -o "$work/$example" "examples/$example.c" target/lib/libnt6861.a
    c++ -x c++ -std=c++17 "${strict[@]}" -o "$work/$example++" "examples/$example.c" -x none target/lib/libnt6861.a
done
cargo build --offline --quiet --release --features proved --bin chip_example
"$work/chip" "$work/c.bin" > "$work/c"
"$work/chip++" "$work/cc.bin" > "$work/cc"
target/cargo/release/chip_example "$work/rust.bin" > "$work/rust"
PYTHONPATH=bindings/python python3 -B examples/chip.py "$work/python.bin" > "$work/python"
for one in c cc rust python; do
    diff examples/chip.txt "$work/$one"
    cmp "$work/c.bin" "$work/$one.bin"
done
echo "examples: C, C++, Rust and Python print the same $(wc -l < examples/chip.txt) lines and store the same 128 bytes"
for one in firmware firmware++; do
    "$work/$one" images/recall.rom | diff examples/firmware.txt -
done
echo "examples: the firmware run from C prints its $(wc -l < examples/firmware.txt) lines"
for one in jobs jobs++; do
    "$work/$one" images/edid.bin examples/address.vcd images/recall.rom | diff examples/jobs.txt -
done
echo "examples: the four jobs in C print their $(wc -l < examples/jobs.txt) lines"
