#!/usr/bin/env bash
# Compares the proved reading of the bus with the independent one and with both chips, on every list of toggles to a depth and on
# generated lists; calls it from C; runs the worked cases of tests/addresses/cases.txt. Ends in 'addresses: ..', or names the first
# difference and fails.
set -euo pipefail
cd "$(dirname "$0")/.."
work=$(mktemp -d)
trap 'rm -rf "$work"' EXIT
source scripts/library.sh
library addresses_capi chip_capi
cargo test --offline --quiet --release --lib addresses > "$work/log" 2>&1 || { cat "$work/log"; exit 1; }
cargo build --offline --quiet --release --features proved --bin addresses --bin addresses_compare
target/cargo/release/addresses_compare
cc -std=c99 -Wall -Wextra -Werror -Iinclude -o "$work/addresses" tests/addresses.c target/staticlib/libaddresses_capi.a
"$work/addresses"

python3 - <<'PYTHON'
import re, subprocess, sys
LETTERS = {'s': b'\x18\x00', 'S': b'\x18\x01', 'c': b'\x19\x00', 'C': b'\x19\x01'}
program = 'target/cargo/release/addresses'

def changes(text):
    parts = re.findall(r'[sScC]|\[[0-9A-F]{4}\]', text)
    if ''.join(parts) != text.replace(' ', ''):
        sys.exit(f'addresses: cannot read {text}')
    return b''.join(LETTERS[p] if p in LETTERS else bytes.fromhex(p[1:5]) for p in parts)

def run(arguments, given):
    done = subprocess.run([program, *arguments], input=given, capture_output=True)
    return done.returncode, done.stdout.decode().split('\n')[:-1], done.stderr.decode()

cases = 0
for line in open('tests/addresses/cases.txt'):
    if line.startswith('#'):
        continue
    name, own, list_, expected = (part.strip() for part in line.split('|'))
    expected = expected.split(',') if expected else []
    status = 1 if re.fullmatch('[0-9]', ''.join(expected)) else 0
    ended, printed, said = run(['list', own], changes(list_))
    if (ended, printed, bool(said)) != (status, expected, status == 1):
        sys.exit(f'addresses: {name}: {ended} {printed} {said}')
    cases += 1
print(f'addresses: {cases} worked cases as expected')
PYTHON
