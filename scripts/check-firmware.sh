#!/usr/bin/env bash
# Firmware images and their runs on the independent core: the images are what their sources make, where the assembler is installed;
# the lists of events are what the hosts' acts make, and the same acts on the proved call tell and give the same; the EDID block is what a
# host reads; the commands of docs/RECALL.md and
# images/README.md print what these pages say; malformed files are told. Where crates.txt has the program `firmware`, the same runs
# and refusals of the proved program print the same, and ./nt6861 firmware is tried on files that cannot be read and outputs that cannot be
# written; where it has `firmware_capi`, the call for C is compared with the core. Ends in a line for each part, or names the first
# difference and fails.
set -euo pipefail
cd "$(dirname "$0")/.."
work=$(mktemp -d)
trap 'rm -rf "$work"' EXIT
source scripts/library.sh
cargo build --offline --quiet --release --bin model
model=target/cargo/release/model
proved=''
if grep -q '^firmware:' crates.txt; then
    proved=target/bin/firmware
    program firmware
fi

fail() {
    echo "firmware: $*"
    exit 1
}

if command -v ca65 > /dev/null; then
    bash images/make.sh "$work"
    for image in "$work"/*.rom "$work"/*.lst; do
        cmp -s "$image" "images/${image##*/}" || fail "${image##*/} is not what its source makes"
    done
    echo "firmware: images and listings are what the sources make"
else
    echo "firmware: ca65 is not installed: the images are taken as stored"
fi

# same ARGUMENTS: the proved program prints what the model prints, and tells what it tells
same() {
    local status=0
    "$model" firmware "$@" > "$work/expected" 2> "$work/told" || status=$?
    [ -n "$proved" ] || return 0
    "$proved" "$@" > "$work/printed" 2> "$work/said" || fail "$* ends with status $?"
    cmp -s "$work/expected" "$work/printed" || {
        diff "$work/printed" "$work/expected" | head -n 4
        fail "$* differs (program <, model >)"
    }
    diff "$work/said" "$work/told" || fail "$* is told otherwise"
}

runs=0
while read -r image list count; do
    rom=images/$image.rom
    events=images/$list.events
    "$model" host "$rom" "images/$list.host" | cmp - "$events" || fail "$list.events is not what its description makes"
    same "$rom" "$count" "$events"
    tail -n 1 "$work/expected" | grep -q "^number 0 counted $count given $(grep -c '^[0-9]' "$events") " || fail "$list does not run to its end"
    same -t "$rom" "$count" "$events"
    same "$rom" "$((count / 3))" "$events"
    same "$rom" 0 "$events"
    same "$rom" 3000
    runs=$((runs + 1))
done < <(grep -v '^#' images/runs.txt)
echo "firmware: $runs stored runs${proved:+, the proved program printing what the model prints}"

# random programs with random events, from power up
seed=${SEED:-1}
programs=40
for _ in $(seq $programs); do
    "$model" image "$seed" > "$work/random.rom"
    "$model" events "$seed" 300 > "$work/random.events"
    same -t "$work/random.rom" 1500 "$work/random.events"
    same "$work/random.rom" 1500 "$work/random.events"
    [ -s "$work/expected" ] || fail "random program $seed: $(cat "$work/told")"
    tail -n 1 "$work/expected" >> "$work/ends"
    seed=$((seed + 1))
done
echo "firmware: $programs random programs, of which $(grep -c '^number 0 ' "$work/ends") run to their end${proved:+; printed alike}"

# lists longer than a block that the program reads at once, and a comment of that length
"$model" image 3 > "$work/random.rom"
"$model" events 3 20000 > "$work/long.events"
{ head -n 9 "$work/long.events"; printf '#%0100000d\n' 0; tail -n +10 "$work/long.events"; printf ' 4294967295\t00000000'; } > "$work/comment.events"
for list in long comment; do
    same "$work/random.rom" 90000 "$work/$list.events"
    same -t "$work/random.rom" 2000 "$work/$list.events"
done
{ cat "$work/long.events"; echo '1 0000000'; } > "$work/malformed"
same "$work/random.rom" 1 "$work/malformed"

# the call for C, beside the same core
if grep -qE '^firmware_capi( staticlib)?:' crates.txt; then
    library firmware_capi_c
    cargo build --offline --quiet --release --features proved,area --bin firmware_compare
    target/cargo/release/firmware_compare
    library chip_capi
    cc -Wall -Wextra -Werror -Iinclude tests/firmware.c -o "$work/c" target/staticlib/libfirmware_capi.a target/staticlib/libchip_capi.a
    "$work/c" < images/sort.rom
fi

# the hosts on the proved call, ./nt6861 firmware --host: it tells what the host on the independent core tells, gives the same events, and
# what it expects comes
# hosted STATUS STDERR ARGUMENTS..: a run that ends with this status and tells this
hosted() {
    local status=0
    ./nt6861 firmware "${@:3}" > "$work/printed" 2> "$work/said" || status=$?
    # shellcheck disable=SC2053
    [ "$status" = "$1" ] && [[ $(cat "$work/said") == $2 ]] || fail "${*:3}: status $status, told: $(cat "$work/said")"
}
if grep -qE '^firmware_capi( staticlib)?:' crates.txt; then
    front hosted firmware_capi_c chip_capi
    hosts=0
    while read -r image list count; do
        hosted 0 '' --host "images/$list.host" --events "$work/list" "images/$image.rom"
        cmp "$work/list" "images/$list.events" || fail "$list.host gives other events on the proved call"
        "$model" transcript "images/$image.rom" "images/$list.host" | diff <(grep -v '^SCL held \|^stretches of SCL\|^number ' "$work/printed") - ||
            fail "$list.host tells otherwise on the proved call (program <, model >)"
        grep -q "^number 0 counted $count given $(grep -c '^[0-9]' "$work/list") " "$work/printed" || fail "$list.host does not run to its end"
        hosts=$((hosts + 1))
    done < <(grep -v '^#' images/runs.txt)
    echo "firmware: $hosts hosts on the proved call tell and give what they do on the model, the run in one go alike"

    # the lines of that run, read by another decoder
    if command -v sigrok-cli > /dev/null; then
        hosted 0 '' --host images/ddc2b.host --lines "$work/lines.vcd" images/ddc2b.rom
        sigrok-cli -I vcd -i "$work/lines.vcd" -P i2c:scl=SCL:sda=SDA -B i2c=data-read > "$work/read" 2> "$work/said" || fail "sigrok-cli: $(cat "$work/said")"
        cmp "$work/read" images/edid.bin || fail "sigrok's decoder reads another block from the lines"
        echo "firmware: sigrok's I2C decoder reads the EDID block from the lines"
    else
        echo "firmware: sigrok-cli is not installed: the lines are read by no other decoder"
    fi

    # a host with all that it can do, and one that waits for long, on random programs and on the images: both cores alike, whatever comes. The proved
    # one carries out idle loops at once.
    cat > "$work/all.host" << 'END_OF_ACTS'
scl 400kHz
hsync 31.5kHz
vsync 400us
wait 2ms
pin P16 0
START
write A0 01 any
repeated START
write 42 any
STOP
reset
watchdog 500us
wait 3ms
pin P16 1
wait 40us
vsync off
hsync off
vsync 100us 12
END_OF_ACTS
    cat > "$work/idle.host" << 'END_OF_ACTS'
at 45ms
pin P16 0
wait 70ms
pin P16 1
vsync 60Hz
wait 40ms
START
write A0 any
STOP
show IRQX
END_OF_ACTS
    tried=0
    roms=(images/*.rom)
    for seed in 1 2 3 4 5 6; do
        "$model" image "$seed" > "$work/random-$seed.rom"
        roms+=("$work/random-$seed.rom")
    done
    for rom in "${roms[@]}"; do
        for acts in "$work/all.host" "$work/idle.host"; do
            theirs=0 ours=0
            "$model" host "$rom" "$acts" > "$work/expected" 2> "$work/told" || theirs=1
            ./nt6861 firmware --host "$acts" --events "$work/list" "$rom" > "$work/printed" 2> "$work/said" || ours=$?
            [ "$theirs" = "$ours" ] || fail "$rom: status $ours, and $theirs on the model: $(cat "$work/said" "$work/told")"
            [ "$ours" != 0 ] || cmp "$work/list" "$work/expected" || fail "$rom: other events on the proved call"
            tried=$((tried + 1))
        done
    done
    echo "firmware: a host with pulses, resets and all clocks, and one that waits, do the same on both cores: $tried runs"

    # what goes wrong, and what is not reached
    uses=0
    head -c 24575 images/sort.rom > "$work/short"
    says() { # STATUS STDERR ACTS ARGUMENTS..: the acts in a file
        printf '%b' "$3" > "$work/acts"
        hosted "$1" "$2" --host "$work/acts" "${@:4}"
        uses=$((uses + 1))
    }
    says 1 "nt6861 firmware: $work/acts:2: sing: no such act" 'wait 1us\nsing\n' images/ddc2b.rom
    [ ! -s "$work/printed" ] || fail "a malformed act: something runs"
    says 1 "nt6861 firmware: $work/acts:1: wait 5: 5: not a time*" 'wait 5' images/ddc2b.rom
    says 1 "nt6861 firmware: $work/acts:1: STOP: no transfer has begun" 'STOP' images/ddc2b.rom
    says 1 "nt6861 firmware: $work/acts:1: not text" '\377' images/ddc2b.rom
    says 1 "nt6861 firmware: $work/short: 24575 bytes, not 24576" 'wait 1us' "$work/short"
    says 1 "nt6861 firmware: /dev/zero: more than 24576 bytes, not 24576" 'wait 1us' /dev/zero
    says 1 "nt6861 firmware: $work/acts:2: write A0: A0 is not acknowledged" 'START\nwrite A0' images/ddc2b.rom
    says 1 "nt6861 firmware: $work/acts:4: STOP: SDA is held low" 'at 750us\nSTART\nwrite A1\nSTOP' images/ddc2b.rom
    says 1 "nt6861 firmware: $work/acts:5: expect 00 01: 00 FF came" 'at 750us\nSTART\nread A1 2\nSTOP\nexpect 00 01\n' images/ddc2b.rom
    says 1 "nt6861 firmware: $work/acts:3: expect 81: 80 came" 'wait 1ms\nshow DACH5\nexpect 81' images/ddc2b.rom
    says 1 "nt6861 firmware: $work/acts:1: wait 1s: after 9 instructions the host is not done" 'wait 1s' images/ddc2b.rom 9
    says 1 "nt6861 firmware: SCL held at * us for 17.75 us, ended by * STA IIDAT; more than 10.00 us*" \
        'at 750us\nSTART\nwrite A0 00\nSTOP' --max-hold 10us images/ddc2b.rom
    says 0 '' 'at 750us\nSTART\nwrite A0 00\nSTOP' --max-hold 2ms --holds --labels images/ddc2b.lst images/ddc2b.rom
    grep -q '^SCL held at .* us for 17.75 us, ended by .*+2 .* STA IIDAT$' "$work/printed" || fail "a hold is told otherwise: $(grep '^SCL' "$work/printed")"
    says 0 '' 'at 750us\nSTART\nwrite A0 00\nSTOP' --labels images/ddc2b.lst --until service images/ddc2b.rom
    grep -q ' until service A032 PHA ' "$work/printed" || fail "--until service: $(tail -n 2 "$work/printed")"
    says 0 '' 'at 750us\nSTART\nwrite A0 00\nSTOP' --labels images/ddc2b.lst -t --watch 0080 images/ddc2b.rom
    grep -q ' interrupt A: matched address A0H at [0-9.]* us$' "$work/printed" || fail "an interrupt is told otherwise: $(grep -m 1 interrupt "$work/printed")"
    grep -q ' interrupt D: ninth clock at [0-9.]* us$' "$work/printed" || fail "an interrupt is told otherwise: $(grep interrupt "$work/printed")"
    grep -q ' event SCL 0 03001900 ' "$work/printed" || fail "an event is told otherwise"
    says 2 'nt6861 firmware: 0300: no register, and not an address of RAM, 0080 to 017F' 'at 750us' --watch 0300 images/ddc2b.rom
    says 1 'nt6861 firmware: last was not reached' 'at 750us' --labels images/ddc2b.lst --break last images/ddc2b.rom
    says 2 'nt6861 firmware: lost: no label, and not an address of four hex digits' 'at 750us' --labels images/ddc2b.lst --until lost images/ddc2b.rom
    printf 'al 00A000 .reset\nal A00 reset\n' > "$work/labels"
    says 1 "nt6861 firmware: $work/labels:2: no line of a label file, debug file or listing" 'at 750us' --labels "$work/labels" images/ddc2b.rom
    # an instruction that is refused: JAM at A000
    { printf '\002'; tail -c +2 images/sort.rom; } > "$work/refused.rom"
    says 1 'nt6861 firmware: instruction 0 is refused with 20, an opcode that is not documented: A000 02, no documented opcode' 'wait 1us' "$work/refused.rom"
    hosted 1 'nt6861 firmware: instruction 0 at A000 is refused with 20, an opcode that is not documented' "$work/refused.rom" 5
    hosted 1 'nt6861 firmware: instruction 0 at A000 is refused with 20, an opcode that is not documented' -t "$work/refused.rom" 5
    hosted 2 'nt6861 firmware: no option --hots; *' --hots x images/ddc2b.rom
    hosted 2 'nt6861 firmware: without a host a count is needed; *' --holds images/ddc2b.rom
    echo "firmware: $((uses + 4)) uses of ./nt6861 firmware --host that go wrong or stop are told"
fi

# what a host reads, as lines of sixteen bytes
od -An -v -tx1 -w16 images/edid.bin | sed 's/^ //' | tr a-f A-F > "$work/block"
read -r image list count < <(grep '^ddc2b ' images/runs.txt)
"$model" bus images/ddc2b.rom "$count" images/ddc2b.events > "$work/bus"
sed -n '/^START A1+ /s///p' "$work/bus" | sed 's/ STOP$//; s/[+-]//g' | xargs -n 16 | diff "$work/block" - || fail "the host does not read the block by DDC2B"
read -r image list count < <(grep '^ddc1 ' images/runs.txt)
"$model" bus images/ddc1.rom "$count" images/ddc1.events | sed 1d | diff "$work/block" - || fail "the host does not read the block by DDC1"
echo "firmware: the host reads the EDID block by DDC2B and by DDC1"

# told LINE ARGUMENTS: nothing is printed, and this line is told
told() {
    local status=0
    "$model" firmware "${@:2}" > "$work/expected" 2> "$work/told" || status=$?
    [ "$status" = 2 ] && [ ! -s "$work/expected" ] && [ "$(cat "$work/told")" = "$1" ] || fail "${*:2}: status $status, told: $(cat "$work/told")"
    same "${@:2}"
}
head -c 24575 images/sort.rom > "$work/short"
{ cat images/sort.rom; echo; } > "$work/long"
printf '0 04000000\n\n1 0400000\n' > "$work/malformed"
printf '4294967296 04000000\n' > "$work/great"
told "$work/short: 24575 bytes, not 24576" "$work/short" x "$work/malformed"
told "$work/long: 24577 bytes, not 24576" "$work/long" 1
told "x: not a decimal number up to 4294967295" images/sort.rom x "$work/malformed"
told "4294967296: not a decimal number up to 4294967295" images/sort.rom 4294967296
told "$work/malformed:3: not NUMBER WORD" images/sort.rom 1 "$work/malformed"
told "$work/great:1: not NUMBER WORD" -t images/sort.rom 1 "$work/great"
malformed=0
for line in 1 '1 1234567' '1 123456789' '1 1234567G' '1 +1234567' '1 00000000 2' 'x 00000000' '-1 00000000' '+1 00000000' '1,00000000' '1 #00000000' \
    '00000000' '1 0x000000' '99999999999999999999 00000000' '1 0000 0000'; do
    printf '0 04000000 # a clock\n%s\n0 04000000\n' "$line" > "$work/malformed"
    told "$work/malformed:2: not NUMBER WORD" images/sort.rom 1 "$work/malformed"
    malformed=$((malformed + 1))
done
for line in '' ' ' '#' '# 1' '1 00000000#' '\t007\t0400000f \r' '4294967295 FFFFFFFF' '00000000000000000000 04000000'; do
    printf "0 04000000\n$line\n0 04000000" > "$work/taken"
    same images/sort.rom 9 "$work/taken"
    [ -s "$work/expected" ] || fail "line '$line' is told: $(cat "$work/told")"
done
echo "firmware: malformed files are told, $malformed lines among them"

# tried STATUS STDERR COMMAND..: nothing is printed, and the status and what is told are these
tried=0
tried() {
    local status=0
    tried=$((tried + 1))
    "${@:3}" > "$work/printed" 2> "$work/said" || status=$?
    [ "$status" = "$1" ] && [ ! -s "$work/printed" ] && [ "$(cat "$work/said")" = "$2" ] || fail "${*:3}: status $status, told: $(cat "$work/said")"
}
full_disk() { ./nt6861 firmware "$@" > /dev/full; }
closed_output() { ./nt6861 firmware "$@" >&-; }
piped_list() { ./nt6861 firmware images/sort.rom 9 /dev/stdin < <(cat images/sort.events); }
arguments=(images/sort.rom 1 images/sort.events 1)
if [ -n "$proved" ]; then
    for count in 0 1 4; do
        tried 2 "nt6861 firmware: an image, a count and a list at most, and $count arguments are given; ./nt6861 firmware -h says what it takes" \
            ./nt6861 firmware "${arguments[@]:0:count}"
    done
    tried 2 "nt6861 firmware: $work/missing: No such file or directory" ./nt6861 firmware "$work/missing" 1
    tried 2 "nt6861 firmware: $work: Is a directory" ./nt6861 firmware "$work" 1
    tried 2 "nt6861 firmware: $work/missing: No such file or directory" ./nt6861 firmware -t images/sort.rom 1 "$work/missing"
    tried 2 "nt6861 firmware: $work: Is a directory" ./nt6861 firmware images/sort.rom 1 "$work"
    tried 2 'nt6861 firmware: /dev/stdin: cannot be read twice; give a file' piped_list
    tried 2 'nt6861 firmware: 4294967296: not a decimal number up to 4294967295' ./nt6861 firmware images/sort.rom 4294967296
    tried 1 "nt6861 firmware: $work/short: 24575 bytes, not 24576" ./nt6861 firmware "$work/short" 1
    printf '0 04000000\n\n1 0400000\n' > "$work/wrong.events"
    tried 1 "nt6861 firmware: $work/wrong.events:3: not NUMBER WORD" ./nt6861 firmware images/sort.rom 1 "$work/wrong.events"
    touch "$work/unreadable"
    chmod 000 "$work/unreadable"
    [ -r "$work/unreadable" ] || tried 2 "nt6861 firmware: $work/unreadable: Permission denied" ./nt6861 firmware "$work/unreadable" 1
    tried 2 'nt6861 firmware: standard output: No space left on device' full_disk images/sort.rom 9
    tried 2 'nt6861 firmware: standard output: No space left on device' full_disk -t images/sort.rom 9 images/sort.events
    tried 2 'nt6861 firmware: standard output is closed' closed_output images/sort.rom 9
    { ./nt6861 firmware -t images/crc.rom 100000 2> "$work/said" || echo "$?" > "$work/status"; } | head -n 1 > "$work/first"
    [ "$(cat "$work/status")" = 141 ] && [ ! -s "$work/said" ] || fail "a closed pipe: status $(cat "$work/status"), told: $(cat "$work/said")"
    echo "firmware: $((tried + 1)) uses of ./nt6861 firmware that fail are told"
fi

# the commands of the pages, each with the lines that it prints
PATH=$(dirname "$model"):$PATH python3 - docs/RECALL.md images/README.md <<'PYTHON'
import re, subprocess, sys
commands = 0
for page in sys.argv[1:]:
    runs = re.findall(r'^    \$ (.*)\n((?:    [^$\n].*\n)*)', open(page).read(), re.M)
    if not runs:
        sys.exit(f'firmware: {page} has no command')
    for command, expected in runs:
        commands += 1
        done = subprocess.run(['bash', '-c', command], capture_output=True, text=True)
        if done.stdout + done.stderr != re.sub(r'^    ', '', expected, flags=re.M):
            sys.exit(f'firmware: {page}: {command}\n{done.stdout}{done.stderr}')
print(f'firmware: {commands} commands of docs/RECALL.md and images/README.md print what the pages say')
PYTHON
