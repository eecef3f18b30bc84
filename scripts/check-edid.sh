#!/usr/bin/env bash
# Compares the proved check of EDID blocks and the programs edid, feed and replay with an independent check and the independent
# chip, builds and runs a program in C over the header, and sees that refused blocks are told. Ends in a line
# for each part, or names the first difference and fails. scripts/check-commands.sh tries reads and writes that fail.
set -euo pipefail
cd "$(dirname "$0")/.."
work=$(mktemp -d)
trap 'rm -rf "$work"' EXIT
source scripts/library.sh
library edid_capi
program edid feed replay
cargo test --offline --quiet --release --lib edid > "$work/log" 2>&1 || { cat "$work/log"; exit 1; }
cargo build --offline --quiet --release --features proved --bin edid
target/cargo/release/edid

cc -std=c99 -Wall -Wextra -Werror -Iinclude -o "$work/edid" tests/edid.c target/staticlib/libedid_capi.a
"$work/edid" < crates/edid/stdin

# a refused block: ./nt6861 edid prints its verdict, ./nt6861 feed writes nothing and tells the number, both with status 1
head -c 127 crates/edid/stdin > "$work/short"
status=0
./nt6861 edid "$work/short" > "$work/out" 2> "$work/err" || status=$?
[ "$status" = 1 ] && [ "$(cat "$work/out")" = '30 length' ] && [ ! -s "$work/err" ] || { echo "edid: a refused block: status $status, $(cat "$work/out" "$work/err")"; exit 1; }
status=0
./nt6861 feed "$work/short" > "$work/out" 2> "$work/err" || status=$?
[ "$status" = 1 ] && [ ! -s "$work/out" ] && [ "$(cat "$work/err")" = 'nt6861 feed: the block is refused: 30, length' ] || { echo "feed: a refused block: status $status, $(cat "$work/err")"; exit 1; }
echo "edid: refused blocks are told by ./nt6861 edid and ./nt6861 feed"
