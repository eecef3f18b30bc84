#!/usr/bin/env bash
# The figures on firmware in docs/PERFORMANCE.md, as its tables. First the proved call nt6861_firmware beside the independent core, each
# stored image alone and with its host's events, the best of nine turns of each. Then, where sim65 (of cc65) is installed, the call (a C
# program, bench/firmware.c, with its code at four positions) and the program `firmware` beside it on the images that need no chip:
# processor time of the whole process, one after the other in each turn; the best of each, and the median of the ratios, of the call the
# mean over the positions. Usage: bench/firmware.sh [TURNS]
set -euo pipefail
cd "$(dirname "$0")/.."
turns=${1:-9}
work=$(mktemp -d)
trap 'rm -rf "$work"' EXIT
source scripts/library.sh
program firmware
library chip_capi firmware_capi_c
cargo build --offline --quiet --release --features proved,area --bin firmware_compare

# a row for each image; one with two lists of events has two ratios with them
echo "| image | proved, million instructions a second | independent core | ratio | ratio with its host's events (events for a hundred instructions) |"
echo '|---|---|---|---|---|'
target/cargo/release/firmware_compare bench | awk -F ', ' '
    NR > 1 && $2 == "none" && !($1 in alone) { images[++count] = $1; alone[$1] = $4 " | " $5 " | " $6 }
    NR > 1 && $2 != "none" { before = $1 in listed ? listed[$1] ", " : ""; listed[$1] = before $6; events[$1] = $3 }
    END { for (i = 1; i <= count; i++) print "| `" images[i] "` | " alone[images[i]] " | " listed[images[i]] " (" events[images[i]] ") |" }'

command -v sim65 > /dev/null || { echo "sim65 is not installed: the second table is left out"; exit 0; }
shifts='0 16 32 48'
for shift in $shifts; do
    cc -O2 -Iinclude -DSHIFT="$shift" -o "$work/call-$shift" bench/firmware.c target/staticlib/libfirmware_capi.a target/staticlib/libchip_capi.a
done
python3 - "$turns" $(for shift in $shifts; do echo "$work/call-$shift"; done) << 'END'
import pathlib, resource, statistics, struct, subprocess, sys, tempfile

INSTRUCTIONS = 20_000_000
TRACED = 500_000
PROGRAM = "target/bin/firmware"


def cycles_an_instruction(image):
    """of the first instructions: the program's trace has the cycles modulo 32, and no instruction takes as many"""
    run = subprocess.Popen([PROGRAM, "-t", image, str(TRACED)], stdout=subprocess.PIPE, text=True)
    cycles = over = 0
    for line in run.stdout:
        if line[0].isdigit():
            now = int(line[-3:], 16)
            cycles, over = cycles + (now - over) % 32, now
    if run.wait() != 0:
        sys.exit(f"{image}: no trace")
    return cycles / TRACED


def seconds(command):
    """processor time of a process"""
    before = resource.getrusage(resource.RUSAGE_CHILDREN)
    subprocess.run(command, stdout=subprocess.DEVNULL, stderr=subprocess.DEVNULL)
    after = resource.getrusage(resource.RUSAGE_CHILDREN)
    return after.ru_utime + after.ru_stime - before.ru_utime - before.ru_stime


CALLS = sys.argv[2:]
print("\n| image | the call, million instructions a second | `firmware` | sim65 | the call to sim65 | `firmware` to sim65 |\n|---|---|---|---|---|---|")
with tempfile.TemporaryDirectory() as folder:
    for name in ("arithmetic", "crc", "sort"):
        image = f"images/{name}.rom"
        # sim65 loads from A000 up to its own vectors, and begins there
        loaded = pathlib.Path(folder, name)
        loaded.write_bytes(b"sim65\x02\x00\x00" + struct.pack("<HH", 0xA000, 0xA000) + pathlib.Path(image).read_bytes()[:0x5F00])
        cycles = str(round(INSTRUCTIONS * cycles_an_instruction(image)))
        commands = [["sim65", "-x", cycles, loaded]] + [[program, image, str(INSTRUCTIONS)] for program in [PROGRAM, *CALLS]]
        turns = [[seconds(command) for command in commands] for _ in range(int(sys.argv[1]))]
        other, program, *calls = (INSTRUCTIONS / min(times) / 1e6 for times in zip(*turns))
        program_ratio, *ratios = (statistics.median(turn[0] / turn[k] for turn in turns) for k in range(1, len(commands)))
        call, ratio = statistics.geometric_mean(calls), statistics.geometric_mean(ratios)
        print(f"| `{name}` | {call:.0f} ({min(calls):.0f} to {max(calls):.0f}) | {program:.0f} | {other:.0f} | {ratio:.2f} | {program_ratio:.2f} |", flush=True)
END
