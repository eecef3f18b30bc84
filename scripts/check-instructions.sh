#!/usr/bin/env bash
# Machine instructions a word of the list call, of the step on a state in bytes and of replay, and an instruction of firmware, alone and
# with its host's events, counted by callgrind, which repeats exactly: each under its ceiling. Where valgrind is not installed nothing is counted, and that is said. Nothing here is timed.
set -euo pipefail
cd "$(dirname "$0")/.."
command -v valgrind > /dev/null || { echo "instructions: valgrind is not installed: nothing is counted"; exit 0; }
work=$(mktemp -d)
trap 'rm -rf "$work"' EXIT
source scripts/library.sh
words=80000

# A few per cent above what the compiler of this kit gives; the figures of docs/PERFORMANCE.md are of the older kit.
list_ceiling=97
step_ceiling=1130
replay_ceiling=157
firmware_ceiling=111
host_ceiling=163

library chip_capi firmware_capi_c
program replay
cargo build --offline --quiet --release --features proved --bin bench --bin model
cargo build --offline --quiet --release --features proved,area --bin firmware_compare
target/cargo/release/model words 1 "$words" > "$work/words"

# counted FILE COMMAND..: the instructions of a command that reads a file
counted() {
    valgrind --tool=callgrind --callgrind-out-file=/dev/null "${@:2}" < "$1" 2> "$work/counted" > /dev/null || { cat "$work/counted"; exit 1; }
    sed -n 's/.*Collected : *//p' "$work/counted"
}

bench() { counted /dev/null target/cargo/release/bench instructions "$1" "$words"; }

# an_instruction IMAGE LIST COUNT: of a run of COUNT instructions, one; a run of one is what the call costs by itself
an_instruction() {
    local run=(target/cargo/release/firmware_compare instructions "$1" "$2")
    echo $((($(counted /dev/null "${run[@]}" "$3") - $(counted /dev/null "${run[@]}" 1)) / ($3 - 1)))
}

none=$(bench none)
list=$((($(bench list) - none) / words))
step=$((($(bench step) - none) / words))
model=$((($(bench model) - none) / words))
replay=$((($(counted "$work/words" target/bin/replay) - $(counted /dev/null target/bin/replay)) / words))

firmware=$(an_instruction sort none 40000)
host=$(an_instruction ddc2b ddc2b 22662)

bad=0
# held NAME COUNT CEILING
held() {
    [ "$2" -gt 0 ] && [ "$2" -le "$3" ] && return
    bad=1
    echo "instructions: $1 takes $2, and the ceiling is $3. Look at:"
    echo "  call places: advance_core, and what it calls, is called at one place of a library, or it no longer stands in the loop;"
    echo "  joins: a struct with an array in it that two branches return, or one part put by a copy of the whole and not by with_*;"
    echo "  order of fields: fields of 1 or 2 bytes side by side that the compiler moves as one number (sync::LineCounter, bus::Phase, cpu_arithmetic::Flags);"
    echo "  tables: a const array is built anew at each use. docs/PERFORMANCE.md tells what each of these has cost."
}
held "a word of the list call" "$list" "$list_ceiling"
held "a step on bytes" "$step" "$step_ceiling"
held "a word of replay" "$replay" "$replay_ceiling"
held "an instruction of firmware (sort)" "$firmware" "$firmware_ceiling"
held "an instruction of firmware with its host's events (ddc2b)" "$host" "$host_ceiling"
[ "$bad" = 1 ] || echo "instructions: a word takes $list in the list call (the model takes $model), $step by the step on bytes, $replay in replay; the ceilings are $list_ceiling, $step_ceiling and $replay_ceiling
instructions: an instruction of firmware takes $firmware, and $host with its host's events; the ceilings are $firmware_ceiling and $host_ceiling"
exit "$bad"
