#!/usr/bin/env bash
# libnt6861 and ./nt6861 install. Every call of include/nt6861.h is in both libraries, once, and nothing else is seen; a C and a C++ program that
# make every call are linked with each; all calls stay within what is lent to them, between guard pages (tests/guards.c). Then a copy of
# the repository is installed into a prefix and removed: from there README's examples, a build by pkg-config, the tests in Python and Rust and the
# decoder for sigrok are run.
# Nothing is proved or built in the copy: it has what was made here, known by content.
set -euo pipefail
cd "$(dirname "$0")/.."
source scripts/library.sh
whole_library
front vcd vcd_capi
front addresses addresses_capi
front hosted firmware_capi_c chip_capi
for name in $(sed -n 's/^crate \([a-z0-9_]*\)$/\1/p' scripts/commands.txt); do
    [ ! -f "crates/$name/src/main.rt" ] || program "$name"
done
# the copy below is another folder, with a turn of its own
unset -f rt
unset RT_TURN
work=$(mktemp -d)
trap 'chmod -R u+w "$work"; rm -rf "$work"' EXIT
repository=$PWD
fail() {
    echo "library: $*"
    exit 1
}

# ---- symbols
cc -E -P include/nt6861.h | grep -oE '\bnt686[12]_[a-z0-9_]+ *\(' | tr -d ' (' | sort > "$work/declared"
[ "$(wc -l < "$work/declared")" -ge 20 ] || fail "include/nt6861.h declares $(wc -l < "$work/declared") calls"
nm -g --defined-only target/lib/libnt6861.a | awk 'NF == 3 { print $3 }' | sort > "$work/static"
nm -D --defined-only target/lib/libnt6861.so | awk '$2 != "A" { sub(/@.*/, "", $3); print $3 }' | sort > "$work/shared"
grep -oE '\bnt686[12]_[a-z0-9_]+\(' tests/library.c | tr -d '(' | sort -u > "$work/used"
for one in static shared used; do
    diff "$work/declared" "$work/$one" || fail "the calls of include/nt6861.h (<) and what is $one (>) differ"
done
parts=$(ar t target/lib/libnt6861.a | wc -l)
[ "$parts" = "$(source scripts/made.sh && interface_crates | wc -l)" ] || fail "libnt6861.a has $parts objects"
version=$(sed -n 's/^version = "\(.*\)"$/\1/p' bindings/python/pyproject.toml)
[ -f "target/lib/libnt6861.so.$version" ] || fail "there is no libnt6861.so.$version"
readelf -dW target/lib/libnt6861.so > "$work/dynamic"
grep -qF "soname: [libnt6861.so.${version%%.*}]" "$work/dynamic" || fail "the soname is not libnt6861.so.${version%%.*}"
! grep -q TEXTREL "$work/dynamic" || fail "the shared library has relocations in its code"
needed=$(sed -n 's/.*NEEDED.*\[\(.*\)\]/\1/p' "$work/dynamic" | grep -v '^libc\.so\.' || true)
[ -z "$needed" ] || fail "the shared library needs $needed"
readelf -lW target/lib/libnt6861.so | grep GNU_STACK | grep -q ' RW ' || fail "the shared library asks for a stack that can be executed"

# ---- what is joined: nothing that is no call, and no call twice
joined() (
    tell() { :; }
    source scripts/made.sh
    library_of() { echo "$work/$1.a"; }
    mkdir "$work/joined-$#$1" && join_objects "$work/joined-$#$1" 1.0.0 "$@" 2>&1
)
for part in one:nt6861_one two:nt6861_one foreign:other; do
    echo "int ${part#*:}(void); int ${part#*:}(void) { return 1; }" | cc -x c -c -fPIC -o "$work/${part%:*}.o" -
    ar rcs "$work/${part%:*}.a" "$work/${part%:*}.o"
done
joined one > /dev/null || fail "a part alone is not joined"
for wrong in 'one two:defined twice: nt6861_one ' 'foreign one:visible and no call: other '; do
    # shellcheck disable=SC2086
    ! joined ${wrong%%:*} > "$work/out" && grep -qx "error: ${wrong#*:}" "$work/out" || fail "joining ${wrong%%:*}: $(cat "$work/out")"
done

# ---- every call, from C and C++, static and shared
strict=(-Wall -Wextra -Wpedantic -Werror -Iinclude)
said=''
for kind in a so; do
    cc -std=c99 "${strict[@]}" -o "$work/c-$kind" tests/library.c "target/lib/libnt6861.$kind"
    c++ -x c++ -std=c++17 "${strict[@]}" -o "$work/cc-$kind" tests/library.c -x none "target/lib/libnt6861.$kind"
    for program in "c-$kind" "cc-$kind"; do
        said=$(LD_LIBRARY_PATH=target/lib "$work/$program") || fail "$program: $said"
    done
done
echo "library: $(wc -l < "$work/declared") calls in $parts objects, each once in libnt6861.a and in libnt6861.so; C and C++ programs make them all: ${said#library: }"

# ---- guard pages
cc -std=c99 -O1 "${strict[@]}" -o "$work/guards" tests/guards.c target/lib/libnt6861.a
! "$work/guards" beyond > "$work/beyond" || fail "memory that is not lent was read, and the guard pages do not show it"
grep -qx 'guards: a call left its memory: nt6861_hold' "$work/beyond" || fail "guards beyond: $(cat "$work/beyond")"
for seed in 1 2 3; do
    said=$("$work/guards" "$seed" 20000) || fail "seed $seed: $said"
done
echo "library: $said"

# ---- install, from a copy
mkdir -p "$work/copy/target"
tar c --exclude=./target --exclude=./.git --exclude='./crates/*/out' . | tar x -C "$work/copy"
cp -a target/bin target/made target/staticlib target/lib "$work/copy/target"
tree() {
    (cd "$1" && find . -printf '%p %y %m %l\n' | LC_ALL=C sort && find . -type f -exec sha256sum {} + | LC_ALL=C sort)
}
uses=0
# used STATUS TEXT COMMAND..: status, and the line that it prints or says
used() {
    local status=0
    uses=$((uses + 1))
    "${@:3}" > "$work/out" 2>&1 < /dev/null || status=$?
    [ "$status" = "$1" ] || fail "${*:3}: status $status: $(tail -n 3 "$work/out")"
    # shellcheck disable=SC2053
    [[ "$(cat "$work/out")" == $2 ]] || fail "${*:3}: '$(cat "$work/out")', not '$2'"
}
# nothing is to be proved here
mkdir "$work/tools"
printf '%s\n' '#!/bin/sh' '[ "$1" != version ] || exec '"$(printf %q "$(type -P rt)")"' version' 'echo "library: rt $* is called"; exit 1' > "$work/tools/rt"
chmod +x "$work/tools/rt"
own=$work/copy/nt6861
with() { PATH=$work/tools:$PATH "$@"; }
used 2 'nt6861 install: the folder PREFIX is missing; ./nt6861 install -h says what it takes' with "$own" install
used 2 'nt6861 install: no option -p; *' with "$own" install -p
used 2 'nt6861 install: one folder, and 2 are named; *' with "$own" install a b
used 2 'nt6861 uninstall: nothing of nt6861 is installed in *' with "$own" uninstall "$work/none"
touch "$work/file"
used 2 "nt6861 install: $work/file is no folder" with "$own" install "$work/file"
used 2 "nt6861 install: $work/file/in is not complete: *" with "$own" install "$work/file/in"
used 2 "nt6861 library: no arguments, and 1 are given; *" with "$own" library there
used 0 "$work/copy/target/lib" with "$own" library
for command in library install uninstall; do
    used 0 "usage: ./nt6861 $command*status 0  *status 2  *" with "$own" "$command" -h
done
prefix="$work/a prefix"
used 0 "[0-9]* files are in $prefix" with "$own" install "$prefix"
tree "$prefix" > "$work/first"
used 0 "[0-9]* files are in $prefix" with "$own" install "$prefix"
tree "$prefix" > "$work/second"
cmp "$work/first" "$work/second" || fail "a second install gives another tree"
used 0 "[0-9]* files are in $work/dest/opt/nt6861" with env DESTDIR="$work/dest" "$own" install /opt/nt6861
tree "$work/dest/opt/nt6861" | cmp - "$work/first" || fail "the tree under DESTDIR is another one"
[ "$(find "$work/dest" -mindepth 1 -maxdepth 2 | wc -l)" = 2 ] || fail "something else is written to DESTDIR"
# a file of an older version goes, one that is not ours stays
echo 'file lib/libnt6861.so.0.9.9' >> "$work/dest/opt/nt6861/libexec/nt6861/manifest"
touch "$work/dest/opt/nt6861/lib/libnt6861.so.0.9.9" "$work/dest/opt/nt6861/lib/other"
used 0 '*' with env DESTDIR="$work/dest" "$own" install /opt/nt6861
[ ! -e "$work/dest/opt/nt6861/lib/libnt6861.so.0.9.9" ] || fail "a file of an older version is left"
used 0 "*nt6861/lib is left: it is not empty*[0-9]* files are removed from *" with env DESTDIR="$work/dest" "$own" uninstall /opt/nt6861
[ "$(cd "$work/dest/opt" && find . -type f)" = ./nt6861/lib/other ] || fail "uninstall leaves or removes too much: $(find "$work/dest" | head -n 5)"
rm -rf "$work/copy" "$work/tools"
found=$(grep -rlF -e "$repository/" -e "$work/" "$prefix" || true)
[ -z "$found" ] || fail "installed files name the repository: $found"

# ---- from there, with nothing of the repository
python=$(python3 -c 'import sys; print(sys.executable)')
there() { env -i PATH="$prefix/bin:/usr/bin:/bin" LC_ALL=C.UTF-8 HOME="$work" "$@"; }
cp scripts/readme.py tests/library.c "$work"
cd "$prefix/share/nt6861"
there "$python" "$work/readme.py" --commands ../doc/nt6861/README.md > "$work/out" || fail "README's examples, installed: $(cat "$work/out")"
examples=$(sed -n 's/^readme: \([0-9]*\) commands .*/\1/p' "$work/out")
used 0 'usage: nt6861 COMMAND*  uninstall PREFIX *' there nt6861
used 2 'nt6861: no command install; *' there nt6861 install "$work/else"
if command -v pkg-config > /dev/null; then
    export PKG_CONFIG_PATH="$prefix/lib/pkgconfig"
    [ "$(pkg-config --modversion nt6861)" = "$version" ] || fail "pkg-config gives version $(pkg-config --modversion nt6861)"
    eval "flags=($(pkg-config --cflags --libs nt6861))"
    built=pkg-config
else
    flags=(-I"$prefix/include" -L"$prefix/lib" -lnt6861)
    built='hand, as pkg-config is not installed'
fi
cc -std=c99 -Wall -Wextra -Wpedantic -Werror -o "$work/jobs" examples/jobs.c "${flags[@]}"
LD_LIBRARY_PATH="$prefix/lib" "$work/jobs" images/edid.bin examples/address.vcd images/recall.rom | diff examples/jobs.txt - || fail "examples/jobs.c prints something else"
c++ -x c++ -std=c++17 -Wall -Wextra -Wpedantic -Werror -o "$work/all" "$work/library.c" -x none "${flags[@]}"
LD_LIBRARY_PATH="$prefix/lib" "$work/all" > /dev/null
said=$(there PYTHONPATH=python "$python" -m unittest discover -s python/tests 2>&1) || fail "the Python tests: $said"
[[ $said != *skipped* ]] || fail "Python tests are skipped"
tests=$(sed -n 's/^Ran \([0-9]*\) tests.*/\1/p' <<< "$said")
pip='pip is not there'
if "$python" -m pip --version > /dev/null 2>&1; then
    there "$python" -m pip install --quiet --no-index --no-build-isolation --no-warn-script-location --disable-pip-version-check --root-user-action=ignore --target "$work/site" ./python > "$work/out" 2>&1 || fail "pip: $(tail -n 3 "$work/out")"
    mv "$prefix" "$prefix.away"
    (cd "$work" && there PYTHONPATH="$work/site" "$python" -c 'import nt6861; assert nt6861.Chip().read("HVCON") == 0x3C and "site" in nt6861.__file__') || fail "the module that pip has installed"
    mv "$prefix.away" "$prefix"
    pip='pip installs the module'
fi
decoded='sigrok-cli is not installed, and its decoder not run'
if command -v sigrok-cli > /dev/null; then
    for capture in address read:vsync=VSYNC; do
        there SIGROKDECODE_DIR="$prefix/share/nt6861/sigrok" sigrok-cli -I vcd -i "examples/${capture%%:*}.vcd" -A nt6861_ddc --protocol-decoder-samplenum \
            -P "nt6861_ddc:scl=SCL:sda=SDA$(sed 's/^[a-z]*//' <<< "$capture")" > "$work/out" 2>&1 || fail "sigrok-cli: $(tail -n 3 "$work/out")"
        diff "sigrok/${capture%%:*}.txt" "$work/out" || fail "the decoder tells something else (>) of examples/${capture%%:*}.vcd"
    done
    decoded='two captures decoded by sigrok-cli'
fi
CARGO_TARGET_DIR=$work/rust cargo test --offline --locked --quiet --manifest-path rust/Cargo.toml > "$work/out" 2>&1 || fail "the tests of the Rust package: $(tail -n 20 "$work/out")"
rust=$(sed -n 's/^test result: ok\. \([0-9]*\) passed.*/\1/p' "$work/out" | awk '{ sum += $1 } END { print sum }')
CARGO_TARGET_DIR=$work/rust cargo check --offline --locked --quiet --no-default-features --manifest-path rust/Cargo.toml > "$work/out" 2>&1 && [ ! -s "$work/out" ] || fail "the Rust package without std: $(head -n 20 "$work/out")"
[ "$(grep -rl 'unsafe *{' rust/src)" = rust/src/calls.rs ] || fail "unsafe stands elsewhere than in rust/src/calls.rs"
cd "$work"
used 0 "[0-9]* files are removed from $prefix" there nt6861 uninstall "$prefix"
[ ! -e "$prefix" ] || fail "uninstall leaves $(find "$prefix" | head -n 5)"
echo "library: installed, with the repository gone: $examples examples of README.md, $tests Python tests, $rust tests in Rust, C and C++ by $built; $pip; $decoded; $uses uses of install and uninstall behave as said"
