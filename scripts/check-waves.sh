#!/usr/bin/env bash
# Dumps of runs. Of random lists and of the stored runs the proved program writes the same dump as the independent writer, byte for byte, and the proved
# reader gives back the list's 8 µs clocks and levels of the four pins; ./nt6861 wave leaves nothing half written under the name asked for; the
# recall's pictures are those of its dumps; what other readers of dumps are installed take them. Ends in 'waves: ..', or names the first difference
# and fails.
set -euo pipefail
cd "$(dirname "$0")/.."
work=$(mktemp -d)
trap 'rm -rf "$work"' EXIT
source scripts/library.sh
library vcd_capi
program wave
cargo test --offline --quiet --release --lib wave > "$work/log" 2>&1 || { cat "$work/log"; exit 1; }
cargo build --offline --quiet --release --bin model
cargo build --offline --quiet --release --features proved --bin vcd
model=target/cargo/release/model

# read_back NAME: the dump of $work/words by both writers, and the words that the proved reader gives back
read_back() {
    target/bin/wave < "$work/words" > "$work/dump" 2> "$work/said"
    [ ! -s "$work/said" ] || { echo "waves: $1: the program says '$(cat "$work/said")'"; exit 1; }
    "$model" wave < "$work/words" > "$work/independent"
    cmp "$work/dump" "$work/independent" || { echo "waves: $1: the two writers' dumps differ"; exit 1; }
    target/cargo/release/vcd < "$work/dump" > "$work/read" || { echo "waves: $1: the reader refuses the dump"; exit 1; }
    "$model" kept < "$work/words" > "$work/kept"
    cmp "$work/read" "$work/kept" || { echo "waves: $1: the words read back differ"; exit 1; }
}

# Random lists, among them an empty one and one word.
lists=0
for count in 0 1 2 1023 1024 1025 60000; do
    for seed in 1 2 3; do
        "$model" words "$seed" "$count" > "$work/words"
        read_back "$count words of seed $seed"
        lists=$((lists + 1))
    done
done
echo "waves: of $lists random lists the program writes the independent writer's dump, and the proved reader gives back their clocks and pins"

# Events between two clocks stay before the next one, however many they are.
python3 - "$work/words" <<'PYTHON'
import sys
open(sys.argv[1], "wb").write(b"".join(w.to_bytes(4, "little") for w in [0x0400_0000] + [0x0300_1800, 0x0300_1801] * 8000 + [0x0400_0000, 0x0300_1900]))
PYTHON
read_back "16,000 events between two clocks"

# The recall: the stored pictures are those of the dumps.
for run in "foreign 2153" "own 2187"; do
    set -- $run
    "$model" given images/recall.rom "$2" "images/recall-$1.events" > "$work/words"
    read_back "recall-$1"
    python3 scripts/wave_svg.py 100 480 < "$work/dump" > "$work/svg"
    cmp "$work/svg" "images/recall-$1.svg" || { echo "waves: images/recall-$1.svg is not the picture of its dump"; exit 1; }
    cp "$work/dump" "$work/recall-$1.vcd"
    cp "$work/words" "$work/recall-$1.words"
done
echo "waves: images/recall-foreign.svg and images/recall-own.svg are the pictures of the recall's dumps"

# Outputs: the dump of standard input and of a file under a name; bytes left over; what cannot be written. Nothing is left under another name.
mkdir "$work/out"
printf '\001\002\003' > "$work/left"
cat "$work/recall-own.words" "$work/left" > "$work/cut.words"
uses=0
# used STATUS SAID DUMP COMMAND..: the status, what is said, and the dump that then has the name
used() {
    local status=0
    "${@:4}" 2> "$work/said" || status=$?
    uses=$((uses + 1))
    # shellcheck disable=SC2053
    [ "$status" = "$1" ] && [[ "$(cat "$work/said")" == $2 ]] || { echo "waves: ${*:4}: status $status, said '$(cat "$work/said")'"; exit 1; }
    [ -z "$3" ] || cmp "$3" "$work/out/dump.vcd" || { echo "waves: ${*:4}: another dump"; exit 1; }
    [ "$(ls -A "$work/out")" = "${3:+dump.vcd}" ] || { echo "waves: ${*:4}: leaves $(ls -A "$work/out")"; exit 1; }
    rm -f "$work/out/dump.vcd"
}
full() { (ulimit -f 1; trap '' XFSZ; exec "$@"); }
ended() { timeout 2 "$@" < <(exec sleep 4); }
used 0 '' "$work/recall-own.vcd" ./nt6861 wave -o "$work/out/dump.vcd" "$work/recall-own.words"
used 1 'nt6861 wave: the input ends within a word; its bytes are left out' "$work/recall-own.vcd" ./nt6861 wave -o "$work/out/dump.vcd" "$work/cut.words"
used 2 "nt6861 wave: $work/out/dump.vcd: *" '' full ./nt6861 wave -o "$work/out/dump.vcd" "$work/recall-own.words"
used 2 "nt6861 wave: $work/none/dump.vcd: No such file or directory" '' ./nt6861 wave -o "$work/none/dump.vcd" "$work/recall-own.words"
used 2 "nt6861 wave: $work: Is a directory" '' ./nt6861 wave -o "$work" "$work/recall-own.words"
used 124 '*' '' ended ./nt6861 wave -o "$work/out/dump.vcd"
echo "waves: in $uses uses a dump has the name asked for when it is whole, and nothing is left otherwise"

# The save file for GTKWave names the variables of the header, and the translation file the phases.
python3 - "$work/recall-own.vcd" <<'PYTHON'
import re, sys
declared = {name: int(width) for width, name in re.findall(r"\$var wire (\d+) \S+ (\S+) \$end", open(sys.argv[1]).read())}
named = {}
for name, high in re.findall(r"^NT6861\.(\w+)(?:\[(\d+):0\])?$", open("images/wave.gtkw").read(), re.M):
    named[name] = int(high) + 1 if high else 1
if named != declared:
    sys.exit(f"waves: images/wave.gtkw and the header differ: {sorted(set(named.items()) ^ set(declared.items()))}")
phases = [line.split() for line in open("images/wave-phases.txt")]
from_script = re.search(r"PHASES = (\[.*\])", open("scripts/wave_svg.py").read())[1]
if [number for number, _ in phases] != [str(k) for k in range(7)] or [name for _, name in phases] != eval(from_script):
    sys.exit("waves: images/wave-phases.txt is not the seven phases")
PYTHON
echo "waves: images/wave.gtkw names every variable once; images/wave-phases.txt names the phases"

# Other readers, where they are installed.
others=''
if command -v vcd2fst > /dev/null && command -v fst2vcd > /dev/null; then
    vcd2fst "$work/recall-own.vcd" "$work/own.fst" > /dev/null 2>&1
    fst2vcd "$work/own.fst" > "$work/back.vcd" 2> /dev/null
    python3 - "$work/recall-own.vcd" "$work/back.vcd" <<'PYTHON'
import re, sys
def told(path):
    text = open(path).read()
    names = {code: name for code, name in re.findall(r"\$var wire \d+ (\S+) (\w+)", text)}
    time, values = 0, {}
    for line in re.sub(r"\$\w+", "", text.split("$enddefinitions $end", 1)[1]).split("\n"):
        line = line.strip()
        if line.startswith("#"):
            time = int(line[1:])
        elif line.startswith("b"):
            value, code = line[1:].split()
            values.setdefault(names[code], []).append((time, int(value, 2)))
        elif line:
            values.setdefault(names[line[1:]], []).append((time, int(line[0])))
    return {name: [v for k, v in enumerate(list) if k == 0 or list[k - 1][1] != v[1]] for name, list in values.items()}
if told(sys.argv[1]) != told(sys.argv[2]):
    sys.exit("waves: vcd2fst and fst2vcd change what the dump tells")
PYTHON
    others="$others vcd2fst"
fi
if command -v sigrok-cli > /dev/null; then
    # its reader takes no vector of more than one bit
    grep -v -E '^b[01]+ [K-P]$|^\$var wire [0-9]+ [K-P] ' "$work/recall-own.vcd" > "$work/scalars.vcd"
    sigrok-cli -I vcd -i "$work/scalars.vcd" -P i2c:scl=SCL_line:sda=SDA_line -A i2c=address-write 2> /dev/null | grep -q 'Address write: 50' ||
        { echo "waves: sigrok-cli does not see the address 50"; exit 1; }
    others="$others sigrok-cli"
fi
missing=''
for tool in vcd2fst sigrok-cli; do case $others in *$tool*) ;; *) missing="$missing $tool" ;; esac; done
echo "waves: taken by:${others:- none}; not installed:${missing:- none}"
