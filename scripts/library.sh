# Read by the checks, in the folder at the top: what is proved, made where that is not done yet. Known by content (scripts/made.sh), and under
# one lock, so that checks that run side by side make it once and none reads a file that is being written.

# made_or_told CALL NAME..: in a shell of its own, so that nothing of it reaches the check
made_or_told() (
    source scripts/made.sh
    tell() { :; }
    fail() {
        echo "$*"
        exit 1
    }
    heed_signals
    "$@" 2>&1
)

# library NAME..: target/staticlib/libNAME.a of each; of NAME_c it is libNAME.a
library() {
    local name before
    for name in "$@"; do
        before=$(sha256sum "target/staticlib/lib${name%_c}.a" 2> /dev/null) || true
        made_or_told proved_library "$name" || exit 1
        # cargo does not look into a library: where it is another one, the programs that link it are built anew
        [ -z "$before" ] || [ "$before" = "$(sha256sum "target/staticlib/lib${name%_c}.a")" ] || awk -F '"' '/^name/ { name = $2 } /^required-features/ { print name }' Cargo.toml |
            while read -r program; do rm -f target/cargo/release/deps/"$program"-*; done
    done
}

# program NAME..: target/bin/NAME of each
program() {
    local name
    for name in "$@"; do
        made_or_told proved_program "$name" || exit 1
    done
}

# front FRONT CRATE..: the Rust program of a command over its proved libraries. A check that compares what ./nt6861 says asks for it first, so that
# nothing is said of building or waiting meanwhile.
front() {
    made_or_told built_front "$@" || exit 1
}

# whole_library: target/lib/libnt6861.a and .so
whole_library() {
    library $(source scripts/made.sh && interface_crates)
    made_or_told joined_library || exit 1
}
