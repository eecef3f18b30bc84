#!/usr/bin/env bash
# Compares the reasons of request lines with the independent model's, which looks back over all states: the C call on hand-worked and
# generated lists and on refused areas, and ./nt6861 why on generated words of many lengths, cut words, long inputs, and reads and writes that fail.
set -euo pipefail
cd "$(dirname "$0")/.."
work=$(mktemp -d)
trap 'rm -rf "$work"' EXIT
source scripts/library.sh
library why_capi chip_capi
program why
cargo build --offline --quiet --release --features proved --bin why_compare
target/cargo/release/why_compare
cargo build --offline --quiet --release --bin model
model=target/cargo/release/model

# same NAME: the program's lines and the model's for the words of that name
same() {
    target/bin/why < "$work/words" > "$work/proved"
    "$model" why < "$work/words" > "$work/expected"
    cmp -s "$work/proved" "$work/expected" && return
    echo "why: $1 differs (program <, model >):"
    diff "$work/proved" "$work/expected" || true
    exit 1
}
runs=0
for seed in $(seq 1 60); do
    "$model" words "$seed" $((seed * seed)) $((seed % 4)) > "$work/words"
    same "seed $seed, $((seed * seed)) words and $((seed % 4)) bytes"
    runs=$((runs + 1))
done
# around the ends of the program's blocks of 16,384 words
for count in 16383 16384 16385 32768 70000; do
    for tail in 0 3; do
        "$model" words "$count" "$count" "$tail" > "$work/words"
        same "$count words and $tail bytes"
        runs=$((runs + 1))
    done
done
bad=0
# proves and builds the program where that is not done yet, so that nothing is said of it below
./nt6861 why < /dev/null > "$work/log" 2>&1 || { cat "$work/log"; exit 1; }
said() {
    local status=0
    "${@:3}" > "$work/out" 2> "$work/err" || status=$?
    [ "$status" = "$1" ] && [ "$(cat "$work/err")" = "$2" ] && return
    echo "why: ${*:3}: status $status, said '$(cat "$work/err")'"
    bad=1
}
in_directory() { ./nt6861 why < "$work"; }
full_disk() { ./nt6861 why crates/why/stdin > /dev/full; }
said 2 'nt6861 why: standard input: Is a directory' in_directory
said 2 'nt6861 why: standard output: No space left on device' full_disk
said 0 '' ./nt6861 why crates/why/stdin
cmp -s "$work/out" crates/why/stdout || { echo "why: ./nt6861 why FILE prints otherwise"; bad=1; }
[ "$bad" = 0 ] && echo "why: $runs inputs of ./nt6861 why agree with the model; failed reads and writes are told"
exit "$bad"
