# Read by ./nt6861 and by the checks: what is proved and built, known by content. Of each file made there is a stamp under target/made: a
# sum over the sources of the crates that it is made of and over what else it is built of, the toolchain's identity, and a sum of the file
# itself. A file whose stamp does not fit is made anew; times of files are not looked at. A stamp is written only where `rt` has accepted
# and the sources are after the proof what they were before it, so what was refused is refused again until it passes.
# Who reads this defines `fail WHY..`, which ends, and `tell WHAT..`, which says how far it is.
top=$(dirname "$(dirname "$(readlink -f "${BASH_SOURCE[0]}")")")

# end_jobs: what this shell has started ends, a prover with all that it started, and the helpers of a program
helpers=()
end_jobs() {
    local job
    ((${#helpers[@]} == 0)) || kill -TERM "${helpers[@]}" 2> /dev/null || true
    for job in $(jobs -p); do
        kill -TERM -- "-$job" 2> /dev/null || kill -TERM "$job" 2> /dev/null || true
    done
}

# stopped SIGNAL: what was started ends, then this shell by the same signal
stopped() {
    trap '' INT TERM HUP QUIT
    end_jobs
    wait
    trap - "$1"
    kill -s "$1" "$BASHPID"
}

# heed_signals: from here on a signal to this shell alone ends what it has started
heed_signals() {
    local signal
    for signal in INT TERM HUP QUIT; do
        # shellcheck disable=SC2064
        trap "stopped $signal" "$signal"
    done
}

# lines_of CRATE: the crate and all crates of the repository below it, each with those that it names, in the order in which `rt` proves them
lines_of() {
    awk -v wanted="$1" '
        function visit(name,    below, i, n) {
            if (seen[name]++) return
            n = split(needs[name], below, " ")
            for (i = 1; i <= n; i++) {
                if (!(below[i] in needs)) continue
                visit(below[i])
                if (level[below[i]] >= level[name]) level[name] = level[below[i]] + 1
            }
            print level[name] + 0 ":" name kind[name] ":" needs[name]
        }
        { sub(/#.*/, ""); at = index($0, ":") }
        at { split(substr($0, 1, at - 1), head, " "); name = head[1]; kind[name] = substr($0, length(name) + 1, at - length(name) - 1); needs[name] = substr($0, at + 1) }
        END { if (!(wanted in needs)) exit 1; visit(wanted) }' "$top/crates.txt" |
        sort -s -t : -n -k 1,1 | cut -d : -f 2-
}

made_of() {
    lines_of "$1" | sed 's/[ :].*//'
}

# sources_of CRATE FILE..: a sum over all files of the crates that it is made of, over their lines in crates.txt and over further files. Fails
# where one of them cannot be read.
sources_of() (
    set -o pipefail
    lines=$(lines_of "$1") && [ -n "$lines" ] || exit 1
    crates=$(sed 's/[ :].*//' <<< "$lines") || exit 1
    cd "$top" || exit 1
    parts=()
    for crate in $crates; do
        for part in src specs proofs stdin stdout args status data; do
            [ ! -e "crates/$crate/$part" ] || parts+=("crates/$crate/$part")
        done
    done
    {
        printf '%s\n' "$lines" &&
            find "${parts[@]}" "${@:2}" \( -type f -o -type l \) -exec sha256sum {} + | LC_ALL=C sort
    } | sha256sum | cut -d ' ' -f 1
)

# identity: the toolchain's, or nothing where there is none on the PATH
identity() {
    local rt
    rt=$(type -P rt) || return 0
    # (`rt` reads nothing here, and does not start where its standard input is a folder)
    "$rt" version < /dev/null 2> /dev/null || echo unknown
}

sum_of() {
    sha256sum < "$1" | cut -d ' ' -f 1
}

# is_current STAMP FILE SOURCES: the file is what was made of these sources. Where there is no toolchain, the one that made it is taken as it is.
is_current() {
    local sources='' toolchain='' sum='' here
    [ -f "$2" ] && [ -s "$2" ] && [ -r "$1" ] || return 1
    { read -r _ sources && read -r _ toolchain && read -r _ sum; } < "$1" || return 1
    here=$(identity)
    [ "$sources" = "$3" ] && [ "${here:-$toolchain}" = "$toolchain" ] && [ "$sum" = "$(sum_of "$2")" ]
}

# stamp STAMP FILE SOURCES
stamp() {
    mkdir -p "$(dirname "$1")" 2> /dev/null &&
        printf '%s\n' "sources $3" "toolchain $(identity)" "file $(sum_of "$2")" 2> /dev/null > "$1.new" &&
        mv "$1.new" "$1" || cannot_write "$1"
}

# cannot_write FILE: fails with the reason
cannot_write() {
    is_room || fail "no space is left for $top/target"
    fail "$1 cannot be written"
}

# is_room: there is room for some more bytes in target/
is_room() {
    local status=0
    head -c 65536 /dev/zero 2> /dev/null > "$top/target/room" || status=1
    rm -f "$top/target/room" 2> /dev/null || true
    return "$status"
}

# take_turn: one at a time proves or builds in this folder; a second one waits. `lock` is open until it is closed by `end_turn`.
take_turn() {
    mkdir -p "$top/target" 2> /dev/null && { command exec {lock}> "${RT_TURN:-$top/target/turn}"; } 2> /dev/null ||
        fail "$top/target cannot be written to, and the program is not built yet"
    flock -n "$lock" && return
    tell "waits for another run that proves or builds here"
    flock "$lock" &
    wait $!
}

end_turn() {
    exec {lock}>&-
}

# so_far: the seconds of this shell, for a person who looks
so_far() {
    [ ! -t 2 ] || printf ' (%d:%02d so far)' $((SECONDS / 60)) $((SECONDS % 60))
}

# watched JOB LOG CRATE..: tells each crate as its proof begins, until the job has ended: `rt` says then with how many jobs it proves the crate.
watched() {
    local job=$1 log=$2 crates=("${@:3}") told=0 running=yes begun i
    while [ -n "$running" ]; do
        kill -0 "$job" 2> /dev/null || running=''
        mapfile -t begun < <(sed -nE 's/^rt: chose --jobs [0-9]+ for ([a-z0-9_]+)$/\1/p' "$log")
        while ((told < ${#begun[@]})); do
            for i in "${!crates[@]}"; do
                [ "${crates[$i]}" != "${begun[$told]}" ] || tell "proving $((i + 1)) of ${#crates[@]}: ${crates[$i]}$(so_far)"
            done
            told=$((told + 1))
        done
        [ -z "$running" ] || sleep 0.2
    done
}

# rt_makes TASK CRATE: `rt TASK` in the crate's folder, in a process group of its own, so that a signal ends all that it started. What it says is in a
# log. Fails where it has made nothing. `rt run` also runs the program, here on no input, and ends with the program's own status: the
# stamp that it leaves beside a program tells that it has proved and built it.
rt_makes() {
    local rt folder=$top/crates/$2 log=$top/target/$2.log status=0 job crates
    rt=$(type -P rt) || fail "the program is not proved yet, and the Rattle toolchain (rt) is not on the PATH"
    mapfile -t crates < <(made_of "$2")
    { : > "$log"; } 2> /dev/null || cannot_write "$log"
    tell "proving what is not proved yet of ${#crates[@]} crates; this is done once and may take many minutes"
    set -m
    if [ "$1" = run ]; then
        (cd "$folder" && exec "$rt" run) < /dev/null > /dev/null 2> "$log" {lock}>&- &
    else
        (cd "$folder" && exec "$rt" lib) < /dev/null > "$log" 2>&1 {lock}>&- &
    fi
    job=$!
    set +m
    watched "$job" "$log" "${crates[@]}"
    wait "$job" || status=$?
    if [ "$1" = run ]; then
        [ ! -s "$folder/out/$2.stamp" ] || return 0
    else
        [ "$status" != 0 ] || return 0
    fi
    return 1
}

# refused CRATE: what `rt` has said against it is told
refused() {
    local log=$top/target/$1.log
    ! grep -q 'No space left on device' "$log" && is_room || fail "no space is left for $top/target, so the program is not proved"
    grep -m 1 -E ': error|error\[|it is not proved that|NOT PROVED|FAILED' "$log" >&2 || tail -n 5 "$log" >&2 || true
    fail "the program is not proved, so it is not run; $log has all that the checker said"
}

# put_in_place MADE FILE: what `rt` has made in a crate's folder becomes a file of target/
put_in_place() {
    mkdir -p "$(dirname "$2")" 2> /dev/null && cp "$1" "$2.new" 2> /dev/null && mv -f "$2.new" "$2" 2> /dev/null || cannot_write "$2"
}

# proved TASK CRATE MADE FILE: `rt TASK` makes MADE in the crate's folder, and it is copied to FILE, where the stamp of FILE does not fit
proved() {
    local mark=$top/target/made/$2.$1 made=$top/crates/$2/$3 before after is_made
    before=$(sources_of "$2") || fail "the sources of $2 cannot be read"
    ! is_current "$mark" "$4" "$before" || return 0
    take_turn
    while ! is_current "$mark" "$4" "$before"; do
        # without its stamp `rt run` builds a program anew, whatever stands in its place; `rt lib` always does
        rm -f "$mark" "$4" "$made" "$made.stamp" 2> /dev/null || fail "$4 cannot be made anew"
        is_made=yes
        rt_makes "$1" "$2" || is_made=''
        after=$(sources_of "$2") || fail "the sources of $2 cannot be read"
        if [ "$before" != "$after" ]; then
            tell "the sources have changed meanwhile"
            before=$after
            continue
        fi
        [ -n "$is_made" ] || refused "$2"
        [ -s "$made" ] || fail "rt has accepted $2 and made no $made"
        put_in_place "$made" "$4"
        stamp "$mark" "$4" "$after"
    done
    end_turn
}

# accepted SOURCES CRATE: a program that `rt ci` has proved from nothing since the sources had this sum, run and left in the crate's folder. For the
# gate alone.
accepted() {
    local after
    after=$(sources_of "$2") || fail "the sources of $2 cannot be read"
    [ "$1" = "$after" ] || fail "the sources of $2 have changed while they were proved"
    [ -s "$top/crates/$2/out/$2" ] || fail "rt ci has accepted $2 and left no crates/$2/out/$2"
    put_in_place "$top/crates/$2/out/$2" "$(program_of "$2")"
    stamp "$top/target/made/$2.run" "$(program_of "$2")" "$after"
}

# accepted_library SOURCES CRATE: a static library that `rt ci` has proved since the sources had this sum. It builds none: here the crate is proved
# once more and built, over the libraries that `rt ci` has left. Fails where that cannot be done. For the gate alone, where no library
# stood below crates/ before `rt ci`: `rt lib` proves each of them anew.
accepted_library() {
    local after file
    file=$(library_of "$2")
    mkdir -p "$(dirname "$file")" || cannot_write "$file"
    python3 "$top/scripts/rattle.py" library "$2" "$file.new" > "$top/target/$2.log" 2>&1 || return 1
    after=$(sources_of "$2") || fail "the sources of $2 cannot be read"
    [ "$1" = "$after" ] || fail "the sources of $2 have changed while they were proved"
    mv -f "$file.new" "$file" || cannot_write "$file"
    stamp "$top/target/made/$2.lib" "$file" "$after"
}

# program_of CRATE, library_of CRATE: the file that is made of it
program_of() {
    echo "$top/target/bin/$1"
}

library_of() {
    echo "$top/target/staticlib/lib${1%_c}.a"
}

proved_program() {
    proved run "$1" "out/$1" "$(program_of "$1")"
}

proved_library() {
    proved lib "$1" "out/lib$1.a" "$(library_of "$1")"
}

# front_of FRONT: the Rust program over a proved library. rustc is called by itself, so that neither cargo's settings nor its look at the
# times of files has a part in it.
front_of() {
    echo "$top/target/made/$1"
}

# front_sources FRONT CRATE..: a sum for each library under it, with the program's own files: each module that its first file names
front_sources() {
    local crate sum sums='' parts
    mapfile -t parts < <(awk '/^#\[path = "\.\.\/.*"\]$/ { part = substr($3, 5, length($3) - 6); next }
        /^mod [a-z0-9_]+;$/ { print part != "" ? part : "commands/" substr($2, 1, length($2) - 1) ".rs" } { part = "" }' "$top/commands/$1.rs")
    for crate in "${@:2}"; do
        sum=$(sources_of "$crate" "commands/$1.rs" "${parts[@]}") || return 1
        sums+=$sum
    done
    echo "$sums"
}

built_front() { # FRONT CRATE..
    local program mark sources rust crate
    program=$(front_of "$1")
    mark=$program.front
    sources=$(front_sources "$@") || fail "the sources of $1 cannot be read"
    ! is_current "$mark" "$program" "$sources" || return 0
    rust=$(type -P rustc) || fail "the program is not built yet, and rustc is not on the PATH"
    for crate in "${@:2}"; do
        proved_library "$crate"
    done
    take_turn
    if ! is_current "$mark" "$program" "$sources"; then
        rm -f "$mark" "$program" 2> /dev/null || fail "$program cannot be made anew"
        mkdir -p "$top/target/made" || cannot_write "$program"
        tell "building $1"
        (cd "$top" && exec "$rust" --edition 2021 --crate-name "$1" -C opt-level=3 -L "native=$top/target/staticlib" -o "$program" "commands/$1.rs") < /dev/null > "$top/target/$1.log" 2>&1 {lock}>&- &
        wait $! || {
            is_room || fail "no space is left for $top/target, so the program is not built"
            grep -m 1 '^error' "$top/target/$1.log" >&2 || true
            fail "the program cannot be built; $top/target/$1.log has all that rustc said"
        }
        [ "$sources" = "$(front_sources "$@")" ] || fail "the sources have changed while they were built"
        stamp "$mark" "$program" "$sources"
    fi
    end_turn
}

# ---- libnt6861: every call of include/nt6861.h in one library, static and shared. Each crate of the C interface stays an object of its own in it:
# compiled together, they made the list call three times as slow (docs/PERFORMANCE.md).

# interface_crates: the static libraries of the C interface. One that another crate stands on is a library, and NAME_c its static library.
interface_crates() {
    sed -nE 's/^([a-z0-9_]*_capi(_c)?) staticlib:.*/\1/p' "$top/crates.txt"
}

# library_version: MAJOR.MINOR.PATCH, as include/nt6861.h has it
library_version() {
    local number
    number=$(sed -n 's/^#define NT6861_VERSION \(0x[0-9a-f]*\)$/\1/p' "$top/include/nt6861.h") && [ -n "$number" ] || fail "include/nt6861.h has no NT6861_VERSION"
    echo "$((number >> 16)).$((number >> 8 & 255)).$((number & 255))"
}

# join_objects FOLDER VERSION CRATE..: both libraries in the folder, of the proved libraries of the crates
join_objects() (
    cd "$1" && mkdir objects && cd objects || exit 1
    for crate in "${@:3}"; do
        ar x "$(library_of "$crate")" || exit 1
    done
    # nothing but the calls may be seen, and nothing twice
    nm -g --defined-only ./*.o | awk 'NF == 3 { print $3 }' > ../symbols || exit 1
    foreign=$(grep -vE '^nt686[12]_[a-z0-9_]+$' ../symbols | tr '\n' ' ' || true)
    [ -z "$foreign" ] || { echo "error: visible and no call: $foreign"; exit 1; }
    twice=$(sort ../symbols | uniq -d | tr '\n' ' ')
    [ -z "$twice" ] || { echo "error: defined twice: $twice"; exit 1; }
    echo "NT6861_${2%%.*} { global: nt6861_*; nt6862_*; local: *; };" > ../map
    ar rcsD ../libnt6861.a ./*.o &&
        cc -shared -Wl,-soname,"libnt6861.so.${2%%.*}" -Wl,--version-script=../map -Wl,-z,defs,-z,noexecstack,-z,relro,-z,now -Wl,--build-id=none \
            -o "../libnt6861.so.$2" ./*.o && chmod 644 "../libnt6861.so.$2"
)

# is_joined VERSION PARTS: both libraries with their names are there, and of these parts
is_joined() {
    local folder=$top/target/lib
    is_current "$top/target/made/libnt6861.a" "$folder/libnt6861.a" "$2" && is_current "$top/target/made/libnt6861.so" "$folder/libnt6861.so.$1" "$2" &&
        [ "$folder/libnt6861.so" -ef "$folder/libnt6861.so.$1" ] && [ "$folder/libnt6861.so.${1%%.*}" -ef "$folder/libnt6861.so.$1" ]
}

# joined_library: target/lib/libnt6861.a and libnt6861.so with its two other names, made anew where a part is another one
joined_library() {
    local crates crate version parts folder=$top/target/lib work
    mapfile -t crates < <(interface_crates)
    ((${#crates[@]} > 0)) || fail "crates.txt has no crate of the C interface"
    version=$(library_version) || exit 2
    for crate in "${crates[@]}"; do
        proved_library "$crate"
    done
    type -P cc > /dev/null && type -P ar > /dev/null && type -P nm > /dev/null || fail "cc, ar and nm are needed for the library"
    parts=$({ echo "$version"; declare -f join_objects; for crate in "${crates[@]}"; do sum_of "$(library_of "$crate")"; done; } | sha256sum | cut -d ' ' -f 1)
    ! is_joined "$version" "$parts" || return 0
    take_turn
    if ! is_joined "$version" "$parts"; then
        tell "joining ${#crates[@]} parts to libnt6861"
        rm -rf "$folder" "$top/target/made/libnt6861.a" "$top/target/made/libnt6861.so" && mkdir -p "$folder" "$top/target/made" && work=$(mktemp -d "$top/target/join.XXXXXX") || cannot_write "$folder"
        join_objects "$work" "$version" "${crates[@]}" > "$top/target/libnt6861.log" 2>&1 || {
            rm -rf "$work"
            grep -m 1 'error' "$top/target/libnt6861.log" >&2 || true
            fail "the parts cannot be joined; $top/target/libnt6861.log has what was said"
        }
        mv "$work/libnt6861.a" "$work/libnt6861.so.$version" "$folder" || cannot_write "$folder"
        # hard links: `rt ci` stops at a symbolic one
        ln "$folder/libnt6861.so.$version" "$folder/libnt6861.so.${version%%.*}" && ln "$folder/libnt6861.so.$version" "$folder/libnt6861.so" || cannot_write "$folder"
        rm -rf "$work"
        stamp "$top/target/made/libnt6861.a" "$folder/libnt6861.a" "$parts"
        stamp "$top/target/made/libnt6861.so" "$folder/libnt6861.so.$version" "$parts"
    fi
    end_turn
}
