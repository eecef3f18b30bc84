#!/usr/bin/env bash
# Tries every command of ./nt6861 in what they have in common: usage, examples, options, more files than one, files that cannot be read, links,
# outputs and errors that cannot be written; then the inputs of each by which a status was once wrong. Holds manual page, completion and docs/COMMANDS.md's
# table to scripts/commands.txt. What a command does is tried by its own check, and how it is proved and run by scripts/check-made.sh.
# Usage: check-commands.sh [COMMAND ..]; without a name all commands are tried.
set -euo pipefail
cd "$(dirname "$0")/.."
# what is built of Rust and of a proved library is there first, so that no command says that it builds it
source scripts/library.sh
front vcd vcd_capi
front addresses addresses_capi
front hosted firmware_capi_c chip_capi
work=$(mktemp -d)
trap 'rm -rf "$work"' EXIT
bad=0
tried=0
complain() {
    echo "commands: $*"
    bad=1
}

# tried STATUS STDOUT STDERR COMMAND..: the status and what is said are these; a `*` in a text stands for anything
tried() {
    local status=0 said
    tried=$((tried + 1))
    "${@:4}" > "$work/out" 2> "$work/err" || status=$?
    [ "$status" = "$1" ] || complain "${*:4}: status $status, not $1"
    # shellcheck disable=SC2053
    [[ "$(tr -d '\0' < "$work/out")" == $2 ]] || complain "${*:4}: printed '$(head -c 200 "$work/out" | tr -d '\0')', not '$2'"
    # shellcheck disable=SC2053
    # other checks that run beside this one may prove or build meanwhile: that a command waits for them says nothing
    said=$(grep -v ': waits for another run that proves or builds here$' "$work/err" || true)
    # shellcheck disable=SC2053
    [[ "$said" == $3 ]] || complain "${*:4}: said '$said', not '$3'"
}
full() { "$@" > /dev/full; }
closed_input() { "$@" <&-; }
closed_output() { "$@" >&-; }
full_error() { "$@" 2> /dev/full; }
closed_error() { "$@" 2>&-; }
from() { "${@:2}" < "$1"; }
read_only_output() { "$@" 1< /dev/null; }
write_only_input() { "$@" 0> /dev/null; }

# What stands before a command's file, a file to read, what stands behind it. A command that reads no standard input has `own`, and its files
# are tried by its own check.
declare -A before=([addresses]=6E)
declare -A behind=([firmware]=100)
declare -A own=([check]=yes [firmware]=yes)
declare -A script=([release]=yes)
# what is printed of a file that is missing
declare -A missed=([check]='0 passed, 1 failed')
declare -A file=(
    [addresses]=tests/addresses/example.bin [check]=tests/cases/vsync.txt [counters6862]=crates/counters6862/stdin [edid]=crates/edid/stdin [feed]=crates/edid/stdin
    [firmware]=images/sort.rom [list]=crates/record/stdin [record]=crates/record/stdin [recording]=crates/record/stdout [replay]=crates/record/stdin [vcd]=tests/vcd/start.vcd
    [wave]=crates/wave/stdin [why]=crates/why/stdin [words]=crates/words/stdin)
# library, install and uninstall are tried by scripts/check-library.sh
mapfile -t commands < <(./nt6861 -h | sed -n 's/^  \([a-z0-9]*\) .*/\1/p' | grep -vxE 'library|install|uninstall')
[ "${#commands[@]}" -ge 10 ] || complain "./nt6861 -h lists ${#commands[@]} commands"
[ $# = 0 ] || commands=("$@")

# ---- the list of commands
tried 0 'usage: ./nt6861 COMMAND*  replay \[FILE\] *answers to event words, one a line*' '' ./nt6861
mv "$work/out" "$work/list"
for option in -h --help; do
    ./nt6861 "$option" | cmp -s - "$work/list" || complain "./nt6861 $option is not ./nt6861"
done
tried 2 '' 'nt6861: no command repaly; the nearest is replay; ./nt6861 -h lists the commands' ./nt6861 repaly crates/record/stdin
tried 2 '' 'nt6861: no command EDID; the nearest is *' ./nt6861 EDID
tried 2 '' 'nt6861: no option -x; ./nt6861 -h lists the commands' ./nt6861 -x
tried 2 '' '*nt6861: standard output cannot be written to' full ./nt6861 -h

# locked COMMAND..: root, who may read every file, gives that right up
touch "$work/locked"
chmod 000 "$work/locked"
locked() {
    if [ ! -r "$work/locked" ]; then
        "$@"
    else
        setpriv --bounding-set=-dac_override,-dac_read_search --inh-caps=-dac_override,-dac_read_search "$@"
    fi
}
missing=$work/'no such file'
mkdir "$work/elsewhere"
ln -s "$PWD/nt6861" "$work/elsewhere/nt6861"
ln -s elsewhere/nt6861 "$work/link"
for name in "${commands[@]}"; do
    # usage: the arguments, a text, an example that prints what it says, the statuses
    tried 0 "usage: ./nt6861 $name *
status 0  *
status 2  *" '' ./nt6861 "$name" -h
    mv "$work/out" "$work/usage"
    ./nt6861 "$name" --help | cmp -s - "$work/usage" || complain "./nt6861 $name --help is not ./nt6861 $name -h"
    # a command that is a script of the repository is tried by a check of its own
    [ -z "${script[$name]:-}" ] || continue
    example=$(sed -n 's/^    \$ //p' "$work/usage")
    [ -n "$example" ] || complain "./nt6861 $name -h has no example"
    tried 0 "$(sed -n '/^    \$ /d; s/^    //p' "$work/usage")" '' bash -c "$example"
    tried 2 '' "*nt6861 $name: standard output cannot be written to" full ./nt6861 "$name" -h
    tried 2 '' "*nt6861 $name: standard output cannot be written to" closed_output ./nt6861 "$name" -h

    [ -n "${file[$name]:-}" ] || { complain "$name has no file in this check"; continue; }
    words=(${before[$name]:-})
    good=${file[$name]}
    whole=("${words[@]}" "$good" ${behind[$name]:-})
    tried 2 '' "nt6861 $name: no option -x; ./nt6861 $name -h says what it takes" ./nt6861 "$name" -x
    tried 2 '' "nt6861 $name: standard output is closed" closed_output ./nt6861 "$name" "${whole[@]}"
    tried 2 '' "nt6861 $name: *standard output*" full ./nt6861 "$name" "${whole[@]}"
    tried 2 '' "nt6861 $name: *standard output*" read_only_output ./nt6861 "$name" "${whole[@]}"

    # by a link to a link from elsewhere as by its own name
    tried 0 '?*' '' ./nt6861 "$name" "${whole[@]}"
    mv "$work/out" "$work/own"
    tried 0 '?*' '' "$work/link" "$name" "${whole[@]}"
    cmp -s "$work/own" "$work/out" || complain "$name prints otherwise by a link"

    # the same status where it cannot be told why
    for quiet in full_error closed_error; do
        tried 2 '' '' "$quiet" ./nt6861 "$name" -x
        tried 2 "${missed[$name]:-}" '' "$quiet" ./nt6861 "$name" "${words[@]}" "$missing" ${behind[$name]:-}
        tried 2 '' '' "$quiet" full ./nt6861 "$name" "${whole[@]}"
        tried 0 '?*' '' "$quiet" ./nt6861 "$name" "${whole[@]}"
        cmp -s "$work/own" "$work/out" || complain "$name prints otherwise without standard error"
    done

    # one file or standard input
    [ -z "${own[$name]:-}" ] || continue
    tried 2 '' "nt6861 $name: one file at most, and 2 are named; ./nt6861 $name -h says what it takes" ./nt6861 "$name" "${words[@]}" "$good" "$good"
    tried 2 '' "nt6861 $name: $missing: No such file or directory" ./nt6861 "$name" "${words[@]}" "$missing"
    tried 2 '' "nt6861 $name: $work: Is a directory" ./nt6861 "$name" "${words[@]}" "$work"
    tried 2 '' "nt6861 $name: $work/locked: Permission denied" locked ./nt6861 "$name" "${words[@]}" "$work/locked"
    tried 2 '' "nt6861 $name: *standard input*" from "$work" ./nt6861 "$name" "${words[@]}"
    tried 2 '' "nt6861 $name: *standard input*" write_only_input ./nt6861 "$name" "${words[@]}"
    tried 2 '' "nt6861 $name: standard input is closed" closed_input ./nt6861 "$name" "${words[@]}"
    tried 0 '?*' '' from "$good" ./nt6861 "$name" "${words[@]}"
    cmp -s "$work/own" "$work/out" || complain "$name prints otherwise from standard input"
done

# ---- the inputs by which a status was once wrong
is_tried() { [[ " ${commands[*]} " == *" $1 "* ]]; }
given() { printf "$1" | "${@:2}"; }
if is_tried counters6862; then
    tried 1 '0 6862 *line 2 malformed' 'nt6861 counters6862: line 2 malformed' given 'fresh 6862\nx\nh 0\n' ./nt6861 counters6862
    endless() { (echo x; exec yes 2> /dev/null) | timeout 60 ./nt6861 counters6862 || return "${PIPESTATUS[1]}"; }
    tried 1 'line 1 malformed' 'nt6861 counters6862: line 1 malformed' endless
fi
if is_tried vcd; then
    tried 1 '*' 'nt6861 vcd: tests/vcd/back.vcd: at byte 45: 41, time goes back' ./nt6861 vcd tests/vcd/back.vcd
fi
if is_tried wave; then
    tried 2 '' 'nt6861 wave: the name after -o is missing; *' ./nt6861 wave -o
    tried 1 '$timescale*#1' 'nt6861 wave: the input ends within a word; its bytes are left out' given '\000\000\000\006\001' ./nt6861 wave
fi
if is_tried addresses; then
    tried 1 2 'nt6861 addresses: standard input: refused with 2, a line that is neither SDA nor SCL' given '\001\000' ./nt6861 addresses 6E
    tried 1 3 'nt6861 addresses: standard input: refused with 3, a level above 1' given '\030\002' ./nt6861 addresses 6E
    tried 1 '' 'nt6861 addresses: standard input: ends within a change' given '\030' ./nt6861 addresses 6E
    tried 2 '' 'nt6861 addresses: II ADR is a byte of two hex digits, and not 1FF; *' ./nt6861 addresses 1FF
    tried 2 '' 'nt6861 addresses: the byte in II ADR is missing; *' ./nt6861 addresses
fi
if is_tried firmware; then
    tried 1 '' 'nt6861 firmware: /dev/zero: 24577 bytes, not 24576' ./nt6861 firmware /dev/zero 9
fi
if is_tried edid && is_tried feed; then
    head -c 127 crates/edid/stdin > "$work/short"
    tried 1 '30 length' '' ./nt6861 edid "$work/short"
    tried 1 '' 'nt6861 feed: the block is refused: 30, length' ./nt6861 feed "$work/short"
fi
if is_tried record && is_tried recording; then
    tried 1 '*' 'nt6861 record: the input ends within a word; its bytes are left out' given '\001' ./nt6861 record
    tried 1 '*0A000000' 'nt6861 recording: a bad block ends the replay' given '\001' ./nt6861 recording
fi

# ---- a pipe by name is opened once
if is_tried replay; then
    mkfifo "$work/pipe"
    for _ in 1 2 3; do
        timeout 20 bash -c 'cat "$1" > "$2" || echo "the writer ends with $?" >> "$3"' _ crates/record/stdin "$work/pipe" "$work/writer" 2> /dev/null &
        tried 0 "$(target/bin/replay < crates/record/stdin)" '' timeout 20 ./nt6861 replay "$work/pipe"
        wait $! || true
    done
    [ ! -e "$work/writer" ] || complain "a pipe by name: $(cat "$work/writer")"
fi

# ---- manual page, completion and docs/COMMANDS.md's table are made of the same texts
python3 scripts/manual.py --check || bad=1

[ "$bad" = 0 ] && echo "commands: $tried uses of ${#commands[@]} commands behave as said: usage, examples, arguments, files, links, failed reads and writes"
exit "$bad"
