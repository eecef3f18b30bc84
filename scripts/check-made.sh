#!/usr/bin/env bash
# Tries scripts/made.sh and scripts/program.sh, on which ./nt6861 stands, in a small tree with a checker and programs that stand in for the
# proved ones: what is proved anew and what is not, refusals, the lock, signals, statuses, read-only trees, a full disk, the Rust programs.
# Nothing is proved here. scripts/check-commands.sh tries the commands themselves.
set -euo pipefail
cd "$(dirname "$0")/.."
repository=$PWD
unset -f rt
unset RT_TURN
work=$(mktemp -d)
trap 'chmod -R u+w "$work"; rm -rf "$work"' EXIT
bad=0
tried=0
complain() {
    echo "made: $*"
    bad=1
}

# tried STATUS STDOUT STDERR COMMAND..: the status and what is said are these; a `*` in a text stands for anything
tried() {
    local status=0
    tried=$((tried + 1))
    "${@:4}" > "$work/out" 2> "$work/err" || status=$?
    [ "$status" = "$1" ] || complain "${*:4}: status $status, not $1"
    # shellcheck disable=SC2053
    [[ "$(tr -d '\0' < "$work/out")" == $2 ]] || complain "${*:4}: printed '$(head -c 200 "$work/out" | tr -d '\0')', not '$2'"
    # shellcheck disable=SC2053
    [[ "$(cat "$work/err")" == $3 ]] || complain "${*:4}: said '$(cat "$work/err")', not '$3'"
}

# ---- the tree, the checker and the programs
tree=$work/tree
mkdir -p "$tree/scripts" "$tree/commands" "$work/bin"
cp nt6861 "$tree"
cp scripts/made.sh scripts/program.sh scripts/commands.txt scripts/library.sh "$tree/scripts"
cp commands/vcd.rs commands/vcd_link.rs commands/descriptors.rs "$tree/commands"
cat > "$tree/crates.txt" << 'END_OF_CRATES'
# a comment
bits:
hex_digits: bits
replay: hex_digits bits
edid: bits
feed: bits
record: bits
counters6862: bits
firmware: bits
vcd_capi staticlib: bits
other:
END_OF_CRATES
for crate in bits hex_digits replay edid feed record counters6862 firmware vcd_capi other; do
    mkdir -p "$tree/crates/$crate/src"
    echo "// $crate" > "$tree/crates/$crate/src/lib.rt"
done

# A crate is proved in CRATE_TIME seconds; the hook is run at each; a program is the text in $work/programs with a line of its sources. As `rt run` it
# leaves a stamp beside a program that is proved and built, and ends with the program's own status, here always 3.
cat > "$work/bin/rt" << 'END_OF_RT'
#!/usr/bin/env bash
[ "$1" != version ] || { echo "${KIT:-kit 1}"; exit; }
name=$(basename "$PWD")
cd ../..
[ "$#" = 1 ] && [ "$PWD" = "$WORK/tree" ] || echo "rt $* in $PWD/crates/$name" >> "$WORK/calls"
[ "$1" != run ] || exec 1>&2
echo "$1 $name" >> "$WORK/calls"
[ ! -e "$WORK/busy" ] || echo "two at once" >> "$WORK/calls"
touch "$WORK/busy"
trap 'rm -f "$WORK/busy"' EXIT
for crate in bits hex_digits "$name"; do
    out=crates/$crate/out
    mkdir -p "$out"
    sum=$(cat "crates/$crate"/src/* | sha256sum)
    [ "$crate" = "$name" ] || [ "$(cat "$out/stamp" 2> /dev/null)" != "$sum" ] || continue
    echo "rt: chose --jobs 2 for $crate"
    rm -f "$out/stamp"
    [ -z "${CRATE_TIME:-}" ] || { sleep "$CRATE_TIME" & echo $! >> "$WORK/started"; wait $!; }
    [ -z "${HOOK:-}" ] || eval "$HOOK"
    case ${REFUSED:-} in
    "$crate")
        echo "./proofs/hex_line/Answers.antt:9:1: error: the goal does not follow"
        echo "./proofs/hex_line/Answers.antt:12:1: error: another"
        echo "logic=not-proved"
        exit 1
        ;;
    full)
        echo "rattle: cannot write out/rlib/$crate.rlib: No space left on device"
        exit 2
        ;;
    esac
    echo "logic=proved functions=1"
    echo "$sum" > "$out/stamp"
done
case $1 in
run)
    { echo '#!/usr/bin/env bash'; cat crates/*/src/* | sed 's/^/# /'; cat "$WORK/programs/$name"; } > "$out/$name"
    chmod +x "$out/$name"
    [ "${REFUSED:-}" != link ] || { echo "rattle-link: error: $name is not linked"; exit 2; }
    echo "$sum" > "$out/$name.stamp"
    echo "rt: running out/$name"
    exit 3
    ;;
lib) cp "$WORK/libvcd_capi.a" "$out/lib$name.a" ;;
esac
END_OF_RT
chmod +x "$work/bin/rt"
mkdir "$work/programs"
echo cat > "$work/programs/replay"
export WORK=$work
PATH=$work/bin:$PATH
calls() {
    local n=0
    [ ! -f "$work/calls" ] || n=$(grep -c "^$1" "$work/calls") || true
    rm -f "$work/calls"
    echo "$n"
}
# proves WHAT: the next use proves anew, and the one after it does not
proves() {
    echo words > "$work/words"
    tried 0 words '*: proving *' "$tree/nt6861" replay "$work/words"
    [ "$(calls run)" -ge 1 ] || complain "$1: nothing is proved anew"
    tried 0 words '' "$tree/nt6861" replay "$work/words"
    [ "$(calls run)" = 0 ] || complain "$1: proved twice"
}
# runs WHAT COMMAND..: the program runs, and nothing is proved
runs() {
    tried 0 words '' "${@:2}" "$tree/nt6861" replay "$work/words"
    [ "$(calls run)" = 0 ] || complain "$1: proved anew"
}

# ---- progress, a line a crate; then at once
echo words > "$work/words"
CRATE_TIME=0.6 tried 0 words 'nt6861 replay: proving what is not proved yet of 3 crates; this is done once and may take many minutes
nt6861 replay: proving 1 of 3: bits
nt6861 replay: proving 2 of 3: hex_digits
nt6861 replay: proving 3 of 3: replay' "$tree/nt6861" replay "$work/words"
[ "$(calls run)" = 1 ] || complain "a first run: not proved once"
runs "a second run" env

# ---- what is proved is known by content
source=$tree/crates/hex_digits/src/lib.rt
touch "$source" "$tree/crates.txt"
runs "a newer time" env
cp -p "$source" "$work/kept"
echo "// changed" >> "$source"
touch -d 2001-01-01 "$source"
proves "a change with an old time"
rm "$source"
echo "// more" > "$tree/crates/hex_digits/src/more.rt"
proves "a source that is deleted"
cp -p "$work/kept" "$source"
rm "$tree/crates/hex_digits/src/more.rt"
proves "a source that comes back"
mkdir "$tree/crates/replay/data"
echo x > "$tree/crates/replay/data/x"
proves "a file of its run"
echo "// changed" >> "$tree/crates/other/src/lib.rt"
runs "a crate that it is not made of" env
sed -i 's/^replay: hex_digits bits/replay: hex_digits bits bytes/' "$tree/crates.txt"
proves "a crate that it lists"
export KIT='kit 2'
proves "another toolchain"
without=$work/without
mkdir "$without"
for tool in bash env awk sed find sha256sum cut sort dirname readlink head stat cat mkdir rm mv flock touch tail grep sleep timeout; do
    ln -s "$(type -P "$tool")" "$without/$tool"
done
runs "no toolchain" env "PATH=$without"
rm "$without/find"
printf '#!/bin/sh\nexit 1\n' > "$without/find"
chmod +x "$without/find"
tried 2 '' 'nt6861 replay: the sources of replay cannot be read' env "PATH=$without" "$tree/nt6861" replay "$work/words"
rm "$without/find"
tried 2 '' '*nt6861 replay: the sources of replay cannot be read' env "PATH=$without" "$tree/nt6861" replay "$work/words"
rm -f "$work/calls"

# ---- an edit during the proof
echo "// edited" >> "$source"
HOOK="[ -e '$work/once' ] || { touch '$work/once'; echo '// while it is proved' >> '$source'; }" \
    tried 0 words '*the sources have changed meanwhile*' "$tree/nt6861" replay "$work/words"
[ "$(calls run)" = 2 ] || complain "an edit during the proof: not proved again"
grep -q 'while it is proved' "$tree/target/bin/replay" || complain "an edit during the proof: the old program is run"

# ---- refused until it passes
echo "// refused" >> "$source"
for _ in 1 2 3; do
    REFUSED=hex_digits tried 2 '' "nt6861 replay: proving*Answers.antt:9:1: error: the goal does not follow
nt6861 replay: the program is not proved, so it is not run; $tree/target/replay.log has all that the checker said" "$tree/nt6861" replay "$work/words"
done
for _ in 1 2 3; do
    REFUSED=link tried 2 '' "*rattle-link: error: replay is not linked
nt6861 replay: the program is not proved, so it is not run; *" "$tree/nt6861" replay "$work/words"
    [ -x "$tree/crates/replay/out/replay" ] && [ ! -e "$tree/target/bin/replay" ] || complain "the stand-in has made no program before its refusal"
done
echo "// no room" >> "$source"
REFUSED=full tried 2 '' "*nt6861 replay: no space is left for $tree/target, so the program is not proved" "$tree/nt6861" replay "$work/words"
rm -f "$work/calls"
proves "what was refused and passes"

# ---- a file that was not made so
: > "$tree/target/bin/replay"
proves "an empty program"
printf '#!/bin/sh\necho foreign\n' > "$tree/target/bin/replay"
proves "another program in its place"
rm "$tree/target/bin/replay"
proves "no program in its place"
echo > "$tree/target/made/replay.run"
proves "an empty stamp"

# ---- first runs at once take turns
rm -rf "$tree/target"
for i in 1 2 3; do
    CRATE_TIME=0.4 "$tree/nt6861" replay "$work/words" > "$work/at-once-$i" 2> "$work/said-$i" || complain "one of three first runs at once: status $?" &
done
wait %1 %2 %3 || true
tried=$((tried + 3))
for i in 1 2 3; do
    [ "$(cat "$work/at-once-$i")" = words ] || complain "one of three first runs at once prints '$(cat "$work/at-once-$i")' and says $(cat "$work/said-$i")"
done
[ "$(grep -l 'waits for another run' "$work"/said-* | wc -l)" = 2 ] || complain "of three first runs at once not two wait"
! grep -q 'two at once' "$work/calls" || complain "two checkers at once"
[ "$(calls run)" = 1 ] || complain "three first runs at once: not proved once"

# ---- signals to the command alone
cat > "$work/programs/edid" << 'END_OF_PROGRAM'
echo $$ >> "$WORK/started"
exec sleep 300
END_OF_PROGRAM
cp "$work/programs/edid" "$work/programs/replay"
cat > "$work/send.py" << 'END_OF_PYTHON'
import os, pathlib, signal, subprocess, sys, time
number, arguments = getattr(signal, sys.argv[1]), sys.argv[2:]
started = pathlib.Path(os.environ['WORK'], 'started')
started.unlink(missing_ok=True)
# a signal that whoever runs the check ignores is not ignored here
default = lambda: signal.signal(number, signal.SIG_DFL)
child = subprocess.Popen(arguments, stdin=subprocess.DEVNULL, stdout=subprocess.DEVNULL, stderr=subprocess.DEVNULL, start_new_session=True, preexec_fn=default)
for _ in range(300):
    if started.exists() and started.read_text().endswith('\n'):
        break
    time.sleep(0.1)
time.sleep(0.3)
began = time.time()
child.send_signal(number)
status = child.wait(30)
def running(pid):
    try:
        state = pathlib.Path(f'/proc/{pid}/stat').read_text().rsplit(')', 1)[1].split()
    except (FileNotFoundError, ProcessLookupError):
        return None
    return None if state[0] == 'Z' else state[3]


# what was killed may take a moment to be gone
while time.time() - began < 4:
    left = [pid for pid in started.read_text().split() if running(pid)]
    in_session = [pid for pid in os.listdir('/proc') if pid.isdigit() and running(pid) == str(child.pid)]
    if not left and not in_session:
        break
    time.sleep(0.1)
if status not in (-number, 128 + number) or left or in_session:
    sys.exit(f'status {status}, running on: {left} {in_session}')
END_OF_PYTHON
echo "// sleeps" >> "$tree/crates/edid/src/lib.rt"
echo "// sleeps" >> "$tree/crates/replay/src/lib.rt"
for name in edid replay; do
    for signal in SIGTERM SIGHUP SIGINT; do
        tried=$((tried + 1))
        rm -rf "$tree/target"
        CRATE_TIME=100 python3 "$work/send.py" "$signal" "$tree/nt6861" "$name" "$work/words" || complain "$name gets $signal while it is proved"
        rm -f "$work/busy"
    done
    # ended and begun again, it goes on
    "$tree/nt6861" "$name" "$work/words" > /dev/null 2>&1 &
    sleep 2
    kill $!
    for signal in SIGTERM SIGHUP SIGINT SIGQUIT; do
        tried=$((tried + 1))
        python3 "$work/send.py" "$signal" "$tree/nt6861" "$name" "$work/words" || complain "$name gets $signal while it runs"
    done
done
# one that waits for its turn
tried=$((tried + 1))
rm -rf "$tree/target"
mkdir "$tree/target"
flock -F "$tree/target/turn" sleep 100 &
holder=$!
while flock -n "$tree/target/turn" true; do sleep 0.1; done
: > "$work/err"
"$tree/nt6861" edid "$work/words" > "$work/out" 2> "$work/err" &
waiting=$!
for ((i = 0; i < 300; i++)); do
    ! grep -q 'waits for another run' "$work/err" || break
    sleep 0.2
done
grep -q 'waits for another run' "$work/err" && kill -0 "$waiting" || complain "one that waits for its turn: $(cat "$work/err")"
status=0
kill "$waiting"
wait "$waiting" 2> /dev/null || status=$?
[ "$status" = 143 ] || complain "one that waits for its turn and is ended: status $status"
kill "$holder"
wait "$holder" 2> /dev/null || true
rm -f "$work/calls" "$work/busy"

# ---- statuses by what a program says
says() { # PROGRAM TEXT
    echo "$2" > "$work/programs/$1"
    rm -f "$tree/target/made/$1.run"
    timeout 60 "$tree/nt6861" "$1" "$work/words" > /dev/null 2>&1 || true
}
says feed 'echo "feed: the block is refused: 30" >&2'
tried 1 '' 'nt6861 feed: the block is refused: 30, length' "$tree/nt6861" feed "$work/words"
says feed 'echo "feed: standard input: Is a directory" >&2'
tried 2 '' "nt6861 feed: $work/words: Is a directory" "$tree/nt6861" feed "$work/words"
says feed 'printf "feed: the block is refused: 30\nfeed: standard output: No space left on device" >&2'
tried 2 '' 'nt6861 feed: the block is refused: 30, length
nt6861 feed: standard output: No space left on device' "$tree/nt6861" feed "$work/words"
says feed 'echo words; exit 3'
tried 2 words '' "$tree/nt6861" feed "$work/words"
says feed 'kill -SEGV $$'
tried 139 '' '*nt6861 feed: ended by signal 11' "$tree/nt6861" feed "$work/words"
says feed 'yes | head -c 6000 >&2'
tried 2 '' '*nt6861 feed: y*' "$tree/nt6861" feed "$work/words"
says counters6862 'echo "line 2 malformed"; echo "counters6862: line 2 malformed" >&2'
tried 1 'line 2 malformed' 'nt6861 counters6862: line 2 malformed' "$tree/nt6861" counters6862 "$work/words"
says record 'echo "record: the input ends within a word; its bytes are left out" >&2'
tried 1 '' 'nt6861 record: the input ends within a word; its bytes are left out' "$tree/nt6861" record "$work/words"
says edid 'echo "0 accepted 1.3"'
tried 0 '0 accepted 1.3' '' "$tree/nt6861" edid "$work/words"
into() { "${@:2}" > "$1"; }
tried 2 '' 'nt6861 edid: standard output: No space left on device' into /dev/full "$tree/nt6861" edid "$work/words"
says edid 'echo "30 length"'
tried 1 '30 length' '' "$tree/nt6861" edid "$work/words"
says edid 'echo "edid: standard input: Is a directory" >&2'
tried 2 '' "nt6861 edid: $work/words: Is a directory" "$tree/nt6861" edid "$work/words"
says edid 'for ((i = 0; i < 20000; i++)); do echo 0; done'
tried=$((tried + 1))
{ "$tree/nt6861" edid "$work/words" 2> "$work/err" || echo "$?" > "$work/status"; } | head -n 1 > /dev/null
[ "$(cat "$work/status")" = 141 ] && [ ! -s "$work/err" ] || complain "a closed pipe: status $(cat "$work/status"), said $(cat "$work/err")"
says replay 'cat; exit 0'

# ---- images that do not end
cat > "$work/programs/firmware" << 'END_OF_PROGRAM'
size=$(wc -c < "$1")
[ "$size" = 24576 ] || echo "$1: $size bytes, not 24576" >&2
END_OF_PROGRAM
"$tree/nt6861" firmware /dev/zero 9 > /dev/null 2>&1 || true
tried 1 '' 'nt6861 firmware: /dev/zero: 24577 bytes, not 24576' "$tree/nt6861" firmware /dev/zero 9
truncate -s 5G "$work/long.rom"
tried 1 '' "nt6861 firmware: $work/long.rom: 5368709120 bytes, not 24576" "$tree/nt6861" firmware "$work/long.rom" 9
head -c 24576 /dev/zero > "$work/right.rom"
tried 0 '' '' "$tree/nt6861" firmware "$work/right.rom" 9
piped() { "$tree/nt6861" firmware /dev/stdin 9 < <(cat "$work/right.rom"); }
tried 0 '' '' piped
tried 2 '' 'nt6861 firmware: an image, a count and a list at most, and 1 arguments are given; *' "$tree/nt6861" firmware "$work/right.rom"

# ---- trees that cannot be written to
read_only() {
    if ! (: > "$tree/trial") 2> /dev/null; then
        "$@"
    else
        rm -f "$tree/trial"
        setpriv --bounding-set=-dac_override,-dac_read_search --inh-caps=-dac_override,-dac_read_search "$@"
    fi
}
chmod -R a-w "$tree"
tried 0 words '' read_only "$tree/nt6861" replay "$work/words"
chmod -R u+w "$tree"
echo "// not proved" >> "$tree/crates/replay/src/lib.rt"
chmod -R a-w "$tree"
tried 2 '' "nt6861 replay: *cannot be written*" read_only "$tree/nt6861" replay "$work/words"
chmod -R u+w "$tree"
rm -rf "$tree/target"
chmod -R a-w "$tree"
tried 2 '' "nt6861 replay: $tree/target cannot be written to, and the program is not built yet" read_only "$tree/nt6861" replay "$work/words"
chmod -R u+w "$tree"
rm -f "$work/calls"

# ---- the Rust programs over a library that stands in for the proved one
cat > "$work/library.c" << 'END_OF_C'
#include <stdint.h>
#include <stddef.h>
uint8_t nt6861_vcd(const uint8_t *f, size_t n, uint32_t *w, size_t r, uint64_t *t, size_t p) { return 0; }
uint8_t nt6861_vcd_more(const uint8_t *f, size_t n, uint32_t *w, size_t r, uint64_t *c, size_t m, uint64_t *t, size_t p)
{
    for (t[0] = 0; t[0] < n && f[t[0]] != 'x'; t[0]++) w[t[0]] = 0x0A000000 + f[t[0]];
    t[1] = t[0];
    return t[0] < n ? 41 : 0;
}
END_OF_C
cc -c -o "$work/library.o" "$work/library.c"
ar rcs "$work/libvcd_capi.a" "$work/library.o"
printf ab > "$work/dump"
printf abx > "$work/refused"
words() { "$@" | od -An -v -tx4 -w4 | tr -d ' \n'; }
tried 0 0a0000610a000062 '*proving*building vcd' words "$tree/nt6861" vcd "$work/dump"
tried 0 0a0000610a000062 '' words "$tree/nt6861" vcd "$work/dump"
[ "$(calls lib)" = 1 ] || complain "the library is not made once"
tried 1 '*' "nt6861 vcd: $work/refused: at byte 2: 41, time goes back" "$tree/nt6861" vcd "$work/refused"
tried 2 '' "nt6861 vcd: standard output: No space left on device" into /dev/full "$tree/nt6861" vcd "$work/dump"
read_only_output() { "$@" 1< /dev/null; }
write_only_input() { "$@" 0> /dev/null; }
tried 2 '' "nt6861 vcd: standard output: Bad file descriptor" read_only_output "$tree/nt6861" vcd "$work/dump"
tried 2 '' "nt6861 vcd: standard input: Bad file descriptor" write_only_input "$tree/nt6861" vcd
head -c 60000 /dev/zero > "$work/much"
tried=$((tried + 1))
rm -f "$work/status"
{ "$tree/nt6861" vcd "$work/much" 2> "$work/err" || echo "$?" > "$work/status"; } | head -c 1 > /dev/null
[ "$(cat "$work/status")" = 141 ] && [ ! -s "$work/err" ] || complain "vcd and a closed pipe: status $(cat "$work/status"), said $(cat "$work/err")"
sed -i 's/nt6861 vcd: {why}/nt6861 vcd: changed: {why}/' "$tree/commands/vcd.rs"
touch -d 2001-01-01 "$tree/commands/vcd.rs"
export CARGO_TARGET_DIR=$work/elsewhere CARGO_BUILD_TARGET=none RUSTFLAGS=--wrong
tried 1 '*' "nt6861 vcd: building vcd
nt6861 vcd: changed: $work/refused: at byte 2: 41, time goes back" "$tree/nt6861" vcd "$work/refused"
unset CARGO_TARGET_DIR CARGO_BUILD_TARGET RUSTFLAGS
ln -sf "$(type -P find)" "$without/find"
tried 1 '*' "nt6861 vcd: changed: $work/refused: at byte 2: 41, time goes back" env "PATH=$without" "$tree/nt6861" vcd "$work/refused"
chmod -R a-w "$tree"
tried 1 '*' "nt6861 vcd: changed: $work/refused: at byte 2: 41, time goes back" read_only "$tree/nt6861" vcd "$work/refused"
chmod -R u+w "$tree"
: > "$tree/target/made/vcd"
tried 2 '' 'nt6861 vcd: the program is not built yet, and rustc is not on the PATH' env "PATH=$without" "$tree/nt6861" vcd "$work/dump"
tried 0 0a0000610a000062 'nt6861 vcd: building vcd' words "$tree/nt6861" vcd "$work/dump"
sed -i '1i wrong' "$tree/commands/vcd.rs"
tried 2 '' "*error*nt6861 vcd: the program cannot be built; $tree/target/vcd.log has all that rustc said" "$tree/nt6861" vcd "$work/dump"

# ---- a command whose crate is not listed is none
tried 2 '' 'nt6861: no command why; the nearest is *; ./nt6861 -h lists the commands' "$tree/nt6861" why "$work/words"
tried 2 '' 'nt6861: no command firmwre; the nearest is firmware; ./nt6861 -h lists the commands' "$tree/nt6861" firmwre
# seven of them, and the four that run no program
[ "$("$tree/nt6861" -h | grep -c "^  ")" = 11 ] || complain "./nt6861 -h lists other commands than those whose crates are there"

[ "$repository" = "$PWD" ] && [ "$bad" = 0 ] && echo "made: $tried uses behave as said: sources by content, refusals, turns, signals, statuses, trees that cannot be written to, Rust programs"
exit "$bad"
