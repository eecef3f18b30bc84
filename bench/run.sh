#!/usr/bin/env bash
# The figures of docs/PERFORMANCE.md: the list call (through its static library) and replay, beside the independent model in
# turn, and the machine instructions a word (scripts/check-instructions.sh). Usage: bench/run.sh [SEED]
set -euo pipefail
cd "$(dirname "$0")/.."
seed=${1:-1}
work=$(mktemp -d)
trap 'rm -rf "$work"' EXIT
source scripts/library.sh
bash scripts/check-instructions.sh
program replay
library chip_capi
cargo build --offline --quiet --release --features proved --bin bench --bin model
model=target/cargo/release/model
target/cargo/release/bench "$seed"

# once COMMAND..: processor seconds of one run over the words, to a file
once() {
    TIMEFORMAT='%U %S'
    { time "$@" < "$work/words" > "$work/out"; } 2>&1 | awk '{ print $1 + $2 }'
}

# the best of five runs of each, in turn, and the median of the ratios
best() { cut -d ' ' -f "$1" "$work/times" | sort -g | head -n 1; }
echo "MB of words, replay in s of processor time, model in s, median of the ratios of speeds"
for mb in 1 4 16 64; do
    "$model" words "$seed" $((mb * 262144)) > "$work/words"
    for _ in 1 2 3 4 5; do
        echo "$(once target/bin/replay) $(once "$model" answers)"
    done > "$work/times"
    echo "$mb, $(best 1), $(best 2), $(awk '{ printf "%.2f\n", $2 / ($1 + 0.0001) }' "$work/times" | sort -g | sed -n 3p)"
done
