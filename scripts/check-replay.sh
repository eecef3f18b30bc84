#!/usr/bin/env bash
# Tries ./nt6861 replay as people use it: words given one at a time, a stream cut anywhere, bytes left over, inputs that cannot be read, and
# outputs that cannot be written. scripts/check-commands.sh tries what it has in common with the other commands.
set -euo pipefail
cd "$(dirname "$0")/.."
source scripts/library.sh
program replay
work=$(mktemp -d)
trap 'rm -rf "$work"' EXIT
bad=0
tried=0
complain() {
    echo "replay: $*"
    bad=1
}

# tried STATUS STDOUT STDERR COMMAND..: the status and what is said are these
tried() {
    local status=0
    tried=$((tried + 1))
    "${@:4}" > "$work/out" 2> "$work/err" || status=$?
    [ "$status" = "$1" ] || complain "${*:4}: status $status, not $1"
    [ "$(cat "$work/out")" = "$2" ] || complain "${*:4}: printed '$(cat "$work/out")', not '$2'"
    [ "$(cat "$work/err")" = "$3" ] || complain "${*:4}: said '$(cat "$work/err")', not '$3'"
}

# word HEX..: the bytes of words, the lowest first
word() {
    local w
    for w in "$@"; do
        # shellcheck disable=SC2059
        printf "\\x${w:6:2}\\x${w:4:2}\\x${w:2:2}\\x${w:0:2}"
    done
}

# ---- a conversation: each answer comes before the next word is given
words=(01000600 02000F01 03001B00 03001B01 01001000 02002600 02001101)
answers=(0000003C 00000000 00000000 00000100 00000101 02000100 00000000)
coproc chip { ./nt6861 replay; }
for i in "${!words[@]}"; do
    word "${words[$i]}" >&"${chip[1]}"
    tried=$((tried + 1))
    read -r -t 20 answer <&"${chip[0]}" || answer='nothing in 20 seconds'
    [ "$answer" = "${answers[$i]}" ] || complain "in a conversation ${words[$i]} is answered by $answer, not ${answers[$i]}"
done
exec {chip[1]}>&-
wait "$chip_PID" || complain "a conversation ends with status $?"

# ---- a stream cut anywhere is answered as the whole
for i in {1..200}; do word "${words[@]}"; done > "$work/words"
printf '\007\007\007' >> "$work/words"
target/bin/replay < "$work/words" > "$work/whole"
{
    for n in 1 1 1 1 2 3 5 7 4 11 6 1 13 2 1; do
        dd bs="$n" count=1 status=none
        sleep 0.02
    done
    cat
} < "$work/words" | target/bin/replay > "$work/parts"
tried=$((tried + 1))
cmp -s "$work/whole" "$work/parts" || complain "a stream that comes in parts is answered otherwise than the whole"
[ "$(wc -l < "$work/whole")" = 1401 ] || complain "1400 words and three bytes left over make $(wc -l < "$work/whole") lines"

# ---- bytes left over
word 01000600 > "$work/one"
printf '\000\006\000' > "$work/three"
: > "$work/none"
tried 0 0000003C '' ./nt6861 replay "$work/one"
tried 0 01000000 '' ./nt6861 replay "$work/three"
tried 0 '' '' ./nt6861 replay "$work/none"

# ---- reads and writes that fail
in_directory() { ./nt6861 replay < "$work"; }
full_disk() { ./nt6861 replay "$work/one" > /dev/full; }
not_ready() { python3 -c 'import os, subprocess, sys
r, w = os.pipe()
os.set_blocking(r, False)
sys.exit(subprocess.run(["./nt6861", "replay"], stdin=r).returncode)'; }
tried 2 '' 'nt6861 replay: standard input: Is a directory' in_directory
tried 2 '' 'nt6861 replay: standard output: No space left on device' full_disk
tried 2 '' 'nt6861 replay: standard input: Resource temporarily unavailable' not_ready
tried=$((tried + 1))
for i in {1..200}; do cat "$work/words"; done > "$work/many"
{ ./nt6861 replay "$work/many" 2> "$work/err" || echo "$?" > "$work/status"; } | head -n 1 > "$work/first"
[ "$(cat "$work/status")" = 141 ] || complain "a closed pipe: status $(cat "$work/status"), not 141, that of SIGPIPE"
[ ! -s "$work/err" ] || complain "a closed pipe: said '$(cat "$work/err")'"

[ "$bad" = 0 ] && echo "replay: $tried uses of ./nt6861 replay behave as said: a conversation, parts, failed reads and writes"
exit "$bad"
