#!/usr/bin/env bash
# Cases as text. The listings of crates/vectors/data that agree there pass by ./nt6861 check too, with as many words. Of the words of each, and of random
# words, ./nt6861 list prints a case that passes and whose words are the same; with one answer changed it fails at that line. Then cases by hand: each form of a
# line, lines that are malformed, files that cannot be read.
set -euo pipefail
cd "$(dirname "$0")/.."
source scripts/library.sh
program words list_words check_cases
work=$(mktemp -d)
trap 'rm -rf "$work"' EXIT
bad=0
tries=0
complain() {
    echo "cases: $*"
    bad=1
}

# says STATUS OUTPUT ERRORS COMMAND..
says() {
    local status=0
    tries=$((tries + 1))
    "${@:4}" > "$work/out" 2> "$work/err" || status=$?
    [ "$status" = "$1" ] || complain "${*:4}: status $status, not $1"
    [ "$(cat "$work/out")" = "$2" ] || complain "${*:4}: printed '$(head -c 300 "$work/out")', not '$2'"
    [ "$(cat "$work/err")" = "$3" ] || complain "${*:4}: said '$(head -c 300 "$work/err")', not '$3'"
}
text() { printf "$1" | ./nt6861 check; }

# ---- listings
mapfile -t agreeing < <(sed -n 's/: words [0-9]*$//p' crates/vectors/stdout)
(cd crates/vectors/data && ../../../nt6861 check "${agreeing[@]}") > "$work/passed" || complain "a listing that agrees does not pass"
sed -n 's/: words \([0-9]*\)$/: passed, \1 words/p' crates/vectors/stdout > "$work/due"
echo "${#agreeing[@]} passed, 0 failed" >> "$work/due"
cmp -s "$work/passed" "$work/due" || complain "listings: $(diff "$work/due" "$work/passed" | head -n 3)"

# ---- runs
python3 - "$work" << 'PYTHON'
import random, struct, sys
random.seed(6861)
for name in range(4):
    words = []
    for _ in range(20000):
        kind = random.choice([1, 2, 3, 3, 4, 4, 5, 0, 6, 255])
        a = random.choice([random.randrange(256), random.randrange(40), 0x19, 0x18, 0x1B, 0x1A])
        b = random.choice([0, 1, 0, 1, random.randrange(256)])
        zero = random.choice([0] * 30 + [random.randrange(256)])
        words.append(kind << 24 | zero << 16 | a << 8 | (0 if kind in (1, 4) and random.random() < 0.95 else b))
    open(f"{sys.argv[1]}/random{name}.words", "wb").write(struct.pack(f"<{len(words)}I", *words))
PYTHON
for name in "${agreeing[@]}"; do
    target/bin/words < "crates/vectors/data/$name" > "$work/$(basename "$name" .txt).words"
done
lines=0
mkdir "$work/cases" "$work/damaged"
for words in "$work"/*.words; do
    case=$work/cases/$(basename "$words" .words).txt
    target/bin/list_words < "$words" > "$case"
    target/bin/words < "$case" | cmp -s - "$words" || complain "the words of a listed run are others: $(basename "$words")"
    count=$(wc -l < "$case")
    lines=$((lines + count))
    [ "$((count * 4))" = "$(stat -c %s "$words")" ] || complain "$(basename "$words"): $count lines"
    at=$((1 + (count * 7) / 11 % count))
    sed "$at s/ => .*/ => refused 9/" "$case" > "$work/damaged/$(basename "$case")"
    echo "$at" > "$work/damaged/$(basename "$case").at"
done
./nt6861 check "$work/cases" > "$work/passed" || complain "a listed run does not pass: $(grep -v ': passed' "$work/passed" | head -n 2)"
damaged=0
for case in "$work"/damaged/*.txt; do
    damaged=$((damaged + 1))
    target/bin/check_cases "$case" > "$work/out"
    grep -q "^$case:$(cat "$case.at"): .*: expected refused 9, given " "$work/out" || complain "an answer that is changed is not found: $(basename "$case")"
done

# ---- by hand
says 0 '/dev/stdin: passed, 100009 words
1 passed, 0 failed' '' text '# each form\n\nWRITE iex 01 => DONE\r\n\tpin vsynci 0\n03001B01 => done requests V\n01001000 00000101 IRQX\nread irqx => 00000101 # too\n100000 * clock 8us => done requests V\nword 06000000 => refused 1 requests V\n3*clock base0'
says 1 '/dev/stdin:2: read IRQX: expected done byte 01, given done byte 00 (word 2)
0 passed, 1 failed' '' text 'write IEX 01 => done\nread IRQX => done byte 01\nwrite IEX\n'
says 1 '/dev/stdin:2: clock watchdog: expected done, given done watchdog reset (word 65)
0 passed, 1 failed' '' text 'read IRQX\n18446744073709551609 * clock watchdog => done\n'
says 1 '/dev/stdin: no events
0 passed, 1 failed' '' text '# nothing\n'
for line in 'write IEX|9' 'read IRQX => done|17' 'read IRQX => done byte 00 00|26' 'write IEX 01 => done byte 00|21' 'read 10|5' '0 * clock 8us|0' 'write IEX 01 =>|15' '18446744073709551610 * clock 8us|0'; do
    says 2 '0 passed, 1 failed' "nt6861 check: /dev/stdin:2: at byte ${line#*|}: not an event with its answer" text "clock 8us => done\n${line%|*}\nclock 8us => done\n"
done
says 2 'tests/cases/vsync.txt: passed, 6 words
1 passed, 1 failed' 'nt6861 check: no such case: No such file or directory' ./nt6861 check 'no such case' tests/cases/vsync.txt
mkdir "$work/empty"
says 2 '' "nt6861 check: $work/empty: no files in this folder" ./nt6861 check tests/cases/vsync.txt "$work/empty"
says 2 '' 'nt6861 check: no option -j; ./nt6861 check -h says what it takes' ./nt6861 check -j
left() { printf '\000\006\000\001\000' | ./nt6861 list; }
says 1 'read HVCON => done byte 3C' 'nt6861 list: standard input: bytes left over: 1' left

[ "$bad" = 0 ] || exit 1
echo "cases: ${#agreeing[@]} listings pass as they agree; $lines lines of listed runs pass and have the words of the run; $damaged changed answers are found"
echo "cases: $tries cases by hand give what they must"
