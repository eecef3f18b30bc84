#!/usr/bin/env bash
# Tries the gate itself: in a copy, with a toolchain and checks that stand in for the real ones, it passes as it is and refuses each sabotage.
# No part of the gate. Where the library of value change dumps is there, a wrong status of the Rust program under `vcd` is tried too.
set -euo pipefail
cd "$(dirname "$0")/.."
repository=$PWD
work=$(mktemp -d)
trap 'rm -rf "$work"' EXIT
bad=0
passed=0
refused=0

# ---- the copy: checks that print what the list asks of them, and not more
copy() {
    rm -rf "$work/copy" "$work/stand-in"
    mkdir -p "$work/copy/crates/replay/src" "$work/copy/crates/one_capi/src" "$work/stand-in"
    cp -r "$repository/.ci" "$repository/scripts" "$repository/toolchain.txt" "$work/copy"
    rm -f "$work/copy/scripts/"check-*.sh
    cd "$work/copy"
    printf '%s\n' 'replay:' 'one_capi staticlib:' > crates.txt
    echo '// replay' > crates/replay/src/main.rt
    echo '// one_capi' > crates/one_capi/src/lib.rt
    python3 - << 'PYTHON'
import pathlib, re
name = None
for line in pathlib.Path('scripts/checks.txt').read_text().split('\n'):
    if line.startswith('apart '):
        for other in line.split()[1:]:
            pathlib.Path('scripts', other).write_text('exit 1\n')
    elif line.startswith('    '):
        text = re.sub(r'\{(\d+)\}', r'\1', line.strip().split(' / ')[0]).replace('*', 'and so on')
        with pathlib.Path('scripts', name).open('a') as script:
            script.write(f'cat << "END_OF_LINE"\n{text}\nEND_OF_LINE\n')
    elif line and not line.startswith('#'):
        name = line
pathlib.Path('scripts/rt-ci').replace('../stand-in/last')
PYTHON
    sed -i '/^cat\|^END_OF_LINE/d' ../stand-in/last
    # what `rt ci` says of edits stands in a longer line
    sed -nE 's/^(must-fail edits: [0-9]+ refused), 0 bad$/rt: ok; handles allowed: none; \1; every proof and must-fail edit was done in this run/p' ../stand-in/last > ../stand-in/ok
    sed -i '/^must-fail edits:/d' ../stand-in/last
    sed -n 's/^rt //p' toolchain.txt > ../stand-in/kit
    echo 1.95.0 > ../stand-in/cargo-version
    echo 0 > ../stand-in/status
    : > ../stand-in/hook
    cat > ../stand-in/rt << 'END_OF_RT'
#!/usr/bin/env bash
here=$(dirname "$(readlink -f "$0")")
case $1 in
version) cat "$here/kit" ;;
ci)
    [ "$#" = 1 ] || exit 9
    mkdir -p crates/replay/out
    echo program > crates/replay/out/replay
    source "$here/hook"
    cat "$here/ok" "$here/last"
    exit "$(cat "$here/status")"
    ;;
esac
END_OF_RT
    # the prover of the kit, which builds what is linked
    mkdir -p "$work/bin"
    printf '#!/bin/sh\nwhile [ "$1" != -o ]; do shift; done\n[ ! -e "%s/unbuilt" ] || exit 1\necho library > "$2"\n' "$work/stand-in" > "$work/bin/rattle"
    chmod +x "$work/bin/rattle"
    cat > ../stand-in/cargo << 'END_OF_CARGO'
#!/usr/bin/env bash
[ "$1" != --version ] || echo "cargo $(cat "$(dirname "$(readlink -f "$0")")/cargo-version") (stand-in)"
END_OF_CARGO
    chmod +x ../stand-in/rt ../stand-in/cargo
}
environment=()
gate() {
    env "${environment[@]}" "PATH=$work/stand-in:$PATH" bash .ci/run > "$work/log" 2>&1
}

# passes WHAT SABOTAGE.., refuses WHAT TEXT SABOTAGE..: the gate, after the commands of the sabotage
passes() {
    copy
    eval "${2:-}"
    if gate && [ "$(tail -n 1 "$work/log")" = "$(cat ../stand-in/last)" ]; then
        passed=$((passed + 1))
    else
        echo "gate: refuses, $1: $(tail -n 3 "$work/log")"
        bad=1
    fi
}
refuses() {
    local status=0
    copy
    eval "$3"
    gate || status=$?
    if [ "$status" != 0 ] && grep -q -- "$2" "$work/log"; then
        refused=$((refused + 1))
    else
        echo "gate: status $status, $1: $(tail -n 3 "$work/log")"
        bad=1
    fi
}

# refuses_each WHAT TEXT SABOTAGE: the same done to every check, and each is named in a line with the text
refuses_each() {
    local check
    refuses "every check $1" "$2" "for check in \"\${checks[@]}\"; do $3; done"
    for check in "${checks[@]}"; do
        grep -- "$2" "$work/log" | grep -qF -- "$check" || { echo "gate: $check $1 is not refused"; bad=1; }
    done
}

mapfile -t checks < <(python3 scripts/checks.py list)
passes "as it is"

# ---- checks that are not there, say nothing or say too little
refuses "all checks but one deleted" 'is listed and missing' 'find scripts -name "check-*.sh" ! -name check-model.sh -delete'
refuses "all checks emptied to exit 0" 'the gate fails: ' 'for f in scripts/check-*.sh; do echo "exit 0" > "$f"; done'
refuses "a check that is not listed" 'check-more.sh is not listed' 'echo "echo more" > scripts/check-more.sh'
# all at once, and each must be named
refuses_each "deleted" 'is listed and missing' 'rm -f "scripts/$check"'
refuses_each "emptied" 'is empty' ': > "scripts/$check"'
refuses_each "at once at its end" 'the gate fails: ' 'sed -i "1i exit 0" "scripts/$check"'
refuses_each "with a status" 'the gate fails: ' 'echo "exit 3" >> "scripts/$check"'
refuses_each "with counts of 0" 'the gate fails: ' 'sed -i -E "/^cat|^END/! s/[0-9][0-9,]*/0/g" "scripts/$check"'
refuses "one that is killed, one that goes on after its counts, one with three lines of four" 'the gate fails: check-made.sh check-model.sh check-why.sh' \
    'echo "kill -9 \$\$" >> scripts/check-why.sh; echo "echo more" >> scripts/check-made.sh; sed -i 1,3d scripts/check-model.sh'
refuses "an empty list of checks" 'the gate fails' ': > scripts/checks.txt'
refuses "a list without its texts" 'asks no line of check-model.sh' 'sed -i "/^    agree/d" scripts/checks.txt'
refuses "a check taken from the list" 'check-model.sh is not listed' 'sed -i "/^check-model.sh/,/^\$/d" scripts/checks.txt'
refuses "nothing asked of rt ci" 'asks nothing of rt ci' 'sed -i "/^rt-ci/,/^\$/d" scripts/checks.txt'
refuses "an empty holder of the list" 'the gate fails' ': > scripts/checks.py'

# ---- the toolchain
refuses "another toolchain" 'toolchain.txt names' 'echo "another kit" > ../stand-in/kit'
refuses "no toolchain named" 'toolchain.txt names' ': > toolchain.txt'
refuses "an older cargo" 'or later is needed' 'echo 1.81.0 > ../stand-in/cargo-version'
passes "the oldest cargo" 'echo 1.82.0 > ../stand-in/cargo-version'
passes "a cargo of three digits" 'echo 1.100.0 > ../stand-in/cargo-version'
refuses "an edit that cannot be made" 'a must-fail edit is bad' 'sed -i "s/ refused; /&1 bad; /; s/ refused; 1 bad/ refused, 1 bad/" ../stand-in/ok'
refuses "an edit less" 'the gate fails: rt-ci' 'sed -i "s/edits: [0-9]* refused/edits: 5 refused/" ../stand-in/ok'
refuses "nothing said of edits" 'says nothing of must-fail edits' 'echo "rt: ok; handles allowed: none; every proof was done in this run" > ../stand-in/ok'
refuses "no program left" 'left no crates/replay/out/replay' 'echo "rm crates/replay/out/replay" > ../stand-in/hook'
passes "with a static library that is not built so" 'touch ../stand-in/unbuilt'
passes "with libraries of an earlier run" 'mkdir -p crates/one_capi/out/rlib; touch ../stand-in/unbuilt'
refuses "rt ci fails" '1 failed' 'echo 1 > ../stand-in/status; echo "399 passed, 1 failed" > ../stand-in/last'
refuses "rt ci says that one failed" "the gate fails: the last line of rt ci is" 'echo "399 passed, 1 failed" > ../stand-in/last'
refuses "rt ci passes nothing" 'the gate fails: rt-ci' 'echo "0 passed, 0 failed" > ../stand-in/last'
refuses "rt ci says nothing" 'the gate fails' ': > ../stand-in/last'
refuses "an edit during the proof" 'have changed while they were proved' 'echo "echo // edited >> crates/replay/src/main.rt" > ../stand-in/hook'
refuses "an edit of what a static library is made of" 'have changed while they were proved' 'echo "echo // edited >> crates/one_capi/src/lib.rt" > ../stand-in/hook'

# ---- the environment
environment=(COUNT=0 PAIRS=0 SEED=9 SHEET=/dev/null VECTORS=/tmp PROGRAM=/bin/true LOGS=/tmp CARGO_TARGET_DIR=/tmp/elsewhere RT_CUT=1 'BASH_FUNC_cat%%=() { :; }')
passes "with variables and functions that reach into checks" \
    "sed -i '1i [ -z \"\${COUNT+set}\${PAIRS+set}\${SEED+set}\${SHEET+set}\${VECTORS+set}\${PROGRAM+set}\${LOGS+set}\${CARGO_TARGET_DIR+set}\${RT_CUT+set}\" ] && ! declare -F cat || exit 9' scripts/check-model.sh"
environment=()

# ---- a signal to the gate ends its checks
copy
echo 'echo $$ > ../stand-in/running; exec sleep 300' > scripts/check-model.sh
PATH=$work/stand-in:$PATH bash .ci/run > "$work/log" 2>&1 &
gate=$!
for _ in $(seq 100); do [ ! -s ../stand-in/running ] || break; sleep 0.2; done
kill "$gate"
status=0
wait "$gate" || status=$?
# what was ended may take a moment to be gone
runs_on() { grep -qs '^State:.[^Z]' "/proc/$(cat ../stand-in/running)/status"; }
for _ in $(seq 20); do ! runs_on || sleep 0.1; done
if [ "$status" = 143 ] && ! runs_on; then
    refused=$((refused + 1))
else
    echo "gate: a signal: status $status, and a check may run on"
    bad=1
fi

# ---- a wrong status of a program: the part of scripts/check-vcd.sh that reads the stored dumps
cd "$repository"
if [ -f target/staticlib/libvcd_capi.a ]; then
    mkdir -p "$work/wrong/commands" "$work/wrong/target/cargo/release"
    cp commands/vcd.rs commands/vcd_link.rs commands/descriptors.rs "$work/wrong/commands"
    cp -r tests "$work/wrong"
    part=$(sed -n '/^# The stored dumps/,/^# The dumps whose/p' scripts/check-vcd.sh)
    for status in 1 0; do
        sed -i "s/ended([01], &format!(\"{name}: at byte/ended($status, \&format!(\"{name}: at byte/" "$work/wrong/commands/vcd.rs"
        rustc --edition 2021 -L "native=$PWD/target/staticlib" -o "$work/wrong/target/cargo/release/vcd" "$work/wrong/commands/vcd.rs"
        if (cd "$work/wrong" && set -e && eval "$part") > "$work/log" 2>&1; then ended=1; else ended=0; fi
        [ "$ended" = "$status" ] && refused=$((refused + 1)) || { echo "gate: vcd with status $status at a refusal: $(cat "$work/log")"; bad=1; }
    done
else
    echo "gate: no target/staticlib/libvcd_capi.a: a wrong status of vcd is not tried"
fi

[ "$bad" = 0 ] && echo "gate: passes $passed times and refuses $refused sabotages"
exit "$bad"
