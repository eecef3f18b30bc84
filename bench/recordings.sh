#!/usr/bin/env bash
# The figures on recordings in docs/PERFORMANCE.md: processor seconds of `replay`, `recording` and `record` on the same generated
# words, the best of seven runs each, in turn. Usage: bench/recordings.sh [SEED]
set -euo pipefail
cd "$(dirname "$0")/.."
seed=${1:-1}
work=$(mktemp -d)
trap 'rm -rf "$work"' EXIT
source scripts/library.sh
program replay record recording
cargo build --offline --quiet --release --bin model
TIMEFORMAT='%U %S'

# once NAME INPUT: processor seconds of one run
once() {
    { time "target/bin/$1" < "$work/$2" > /dev/null; } 2>&1 | awk '{ print $1 + $2 }'
}

echo "words, replay in s, recording in s, record in s, recording to replay"
for count in 1000000 2000000 4000000 8000000; do
    target/cargo/release/model words "$seed" "$count" > "$work/words"
    target/bin/record < "$work/words" > "$work/recording"
    replay=1000 recording=1000 record=1000
    for _ in 1 2 3 4 5 6 7; do
        replay=$(echo "$replay $(once replay words)" | awk '{ print ($1 < $2) ? $1 : $2 }')
        recording=$(echo "$recording $(once recording recording)" | awk '{ print ($1 < $2) ? $1 : $2 }')
        record=$(echo "$record $(once record words)" | awk '{ print ($1 < $2) ? $1 : $2 }')
    done
    echo "$count $replay $recording $record" | awk '{ printf "%d, %.3f, %.3f, %.3f, %.2f\n", $1, $2, $3, $4, $3 / $2 }'
done
