#!/usr/bin/env bash
# Compares recordings with independent Rust: reader and writer of a block call by call, with every byte of a block damaged; the
# programs `record` and `recording`, as `rt ci` built them, on generated words, on uneven and damaged recordings, and at their
# limits; what they tell where they cannot read or write; and the example of README.md. Fails at the first difference.
set -euo pipefail
cd "$(dirname "$0")/.."
work=$(mktemp -d)
trap 'rm -rf "$work"' EXIT
source scripts/library.sh
library blocks_capi
program record recording replay
cargo build --offline --quiet --release --features proved --bin recordings --bin model
ours=target/cargo/release/recordings
model=target/cargo/release/model
failed() {
    echo "recordings: $1"
    exit 1
}

"$ours" blocks

# answers NAME: the program's answers to $work/NAME are those of the independent reader
compared=0
answers() {
    target/bin/recording < "$work/$1" > "$work/theirs" 2> "$work/said" || failed "$1 ends with a status"
    "$ours" answers < "$work/$1" > "$work/answers"
    cmp "$work/theirs" "$work/answers" || failed "the answers to $1 differ"
    compared=$((compared + 1))
}

# words of none, of one, of full blocks and of one more
for count in 0 1 125 126 127 252 16128 16129 100003; do
    "$model" words 5 "$count" > "$work/words"
    target/bin/record < "$work/words" > "$work/recorded" 2> "$work/said"
    [ ! -s "$work/said" ] || failed "record says of $count words: $(cat "$work/said")"
    "$ours" write < "$work/words" > "$work/written"
    cmp "$work/recorded" "$work/written" || failed "the recordings of $count words differ"
    answers recorded
    [ ! -s "$work/said" ] || failed "recording says of $count words: $(cat "$work/said")"
    target/bin/replay < "$work/words" | cmp - "$work/theirs" || failed "recording and replay differ on $count words"
done

# blocks of every count, empty ones too; cut short; damaged at places of the head, the words and the sum
"$ours" uneven < "$work/words" > "$work/uneven"
answers uneven
for length in 1 511 512 513 65535 65536 66047 66048; do
    head -c "$length" "$work/uneven" > "$work/cut"
    answers cut
done
for place in 0 1 2 3 4 507 508 511 66048 66050 131071 204800; do
    "$ours" damage "$place" 1 < "$work/uneven" > "$work/damaged"
    answers damaged
    [ -s "$work/said" ] || failed "nothing is said of a bad block"
    [ "$(tail -n 1 "$work/theirs")" = 0B000000 ] || failed "no wrong sum at $place"
done

# 65,536 blocks are taken and one more is not; what no recording can hold is not written
"$ours" empty 65536 > "$work/most"
answers most
[ ! -s "$work/theirs" ] || failed "empty blocks are answered"
"$ours" empty 65537 > "$work/more"
answers more
[ "$(cat "$work/theirs")" = 0C000000 ] || failed "a block too many is taken"
head -c 33030144 /dev/zero > "$work/words"
target/bin/record < "$work/words" > "$work/recorded" 2> "$work/said"
[ ! -s "$work/said" ] && [ "$(stat -c %s "$work/recorded")" = 33554432 ] || failed "65,536 blocks are not recorded"
printf '\0\0\0\0' >> "$work/words"
target/bin/record < "$work/words" > "$work/recorded" 2> "$work/said"
grep -q 'more words than' "$work/said" && [ "$(stat -c %s "$work/recorded")" = 33554432 ] || failed "a word too many is not told"

# what cannot be read or written is told, and the status says so
told() {
    local status=0
    "${@:3}" 2> "$work/said" || status=$?
    [ "$status" = "$1" ] && grep -q "$2" "$work/said" || failed "'$2' is not told: status $status, $(cat "$work/said")"
}
told 2 'Is a directory' ./nt6861 record /
told 2 'Is a directory' ./nt6861 recording /
told 1 'ends within a word' ./nt6861 record crates/replay/stdin > /dev/null
told 1 'bad block' ./nt6861 recording crates/recording/stdin > /dev/null
told 2 'cannot write' ./nt6861 record crates/record/stdin > /dev/full
told 2 'cannot write' ./nt6861 recording crates/record/stdout > /dev/full

# the example of README.md
./nt6861 record crates/record/stdin > "$work/example.rec"
./nt6861 recording "$work/example.rec" | cmp - <(head -n 7 crates/replay/stdout)
echo "recordings agree: $compared recordings replayed, limits and failures told"
