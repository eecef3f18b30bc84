# Read by scripts/program.sh for the commands `library`, `install` and `uninstall`.
# What is installed is the same wherever it stands: no file has the name of PREFIX in it. DESTDIR, where it is set, stands before PREFIX. The
# manifest, libexec/nt6861/manifest, has a line for each file and for each folder that was made; uninstall removes these.
manifest=libexec/nt6861/manifest

# place_of ARGUMENT..: `place` is DESTDIR/PREFIX
place=''
place_of() {
    case ${1:-} in
    '') misused "the folder PREFIX is missing" ;;
    -*) misused "no option $1" ;;
    esac
    [ $# = 1 ] || misused "one folder, and $# are named"
    place=$(realpath -m -- "$1") && [[ $place != *$'\n'* ]] || fail "$1 is no folder"
    place=${DESTDIR:+$(realpath -m -- "$DESTDIR")}$place
}

build_library() {
    [ $# = 0 ] || misused "no arguments, and $# are given"
    joined_library
    echo "$top/target/lib"
}

# put MODE FILE PATH: a file of the repository into the tree that is being made
put() {
    install -D -m "$1" -- "$2" "$stage/$3"
}

# put_text FILE PATH: the same, with the command called as it is once it is installed
put_text() {
    mkdir -p -- "$(dirname "$stage/$2")" && sed 's|\./nt6861\b|nt6861|g' "$1" > "$stage/$2" && chmod 644 "$stage/$2"
}

# put_folder FROM TO: the files of a folder that git would keep
put_folder() {
    local file
    while IFS= read -r file; do
        put 644 "$1/$file" "$2/$file" || return 1
    done < <(cd "$1" && find . -type f ! -path '*/__pycache__/*' ! -path '*/target/*' ! -name '*.so*' -printf '%P\n' | sort)
}

# named_files: the files of the repository that the examples of README.md and of the commands name
named_files() {
    { sed -n 's/^    \$ //p' README.md; sed -n 's/^example //p' scripts/commands.txt; } | tr -s " |<>;&'" '\n' | sort -u |
        while IFS= read -r file; do
            case $file in ./* | /* | *..* | images/*) ;; */*) [ ! -e "$file" ] || find "$file" -type f ;; esac
        done
}

# put_commands: bin/nt6861, what it reads, and the programs
put_commands() {
    local name crate program own=$stage/libexec/nt6861
    mkdir -p "$own/bin" "$own/scripts" "$stage/bin" || return 1
    printf '%s\n' '#!/usr/bin/env bash' '# nt6861 COMMAND ..: the proved programs, as they were installed. nt6861 -h lists the commands.' \
        'source "$(dirname "$(dirname "$(readlink -f "$0")")")/libexec/nt6861/scripts/program.sh"' 'main "$@"' > "$stage/bin/nt6861" && chmod 755 "$stage/bin/nt6861" || return 1
    for name in "${shown[@]}"; do
        crate=${entry[$name crate]:-}
        [ -n "$crate" ] || continue
        if [ -n "${entry[$name front]:-}" ]; then program=$(front_of "${entry[$name front]}"); else program=$(program_of "$crate"); fi
        install -m 755 -- "$program" "$own/bin/$(basename "$program")" && echo "$crate:" >> "$own/crates.txt" || return 1
        [ -z "${entry[$name beside]:-}" ] || install -m 755 -- "$(front_of "${entry[$name beside]%% *}")" "$own/bin/" || return 1
    done
    put_text scripts/made.sh libexec/nt6861/scripts/made.sh && put_text scripts/program.sh libexec/nt6861/scripts/program.sh &&
        put_text scripts/install.sh libexec/nt6861/scripts/install.sh && put_text scripts/commands.txt libexec/nt6861/scripts/commands.txt
}

# put_all: the tree in `stage`
put_all() {
    local version file
    cd "$top" && version=$(library_version) || return 1
    put_commands || return 1
    put 644 target/lib/libnt6861.a lib/libnt6861.a && put 755 "target/lib/libnt6861.so.$version" "lib/libnt6861.so.$version" &&
        ln -s "libnt6861.so.$version" "$stage/lib/libnt6861.so.${version%%.*}" && ln -s "libnt6861.so.${version%%.*}" "$stage/lib/libnt6861.so" || return 1
    put 644 include/nt6861.h include/nt6861.h || return 1
    mkdir -p "$stage/lib/pkgconfig" && printf '%s\n' 'prefix=${pcfiledir}/../..' 'libdir=${prefix}/lib' 'includedir=${prefix}/include' '' 'Name: nt6861' \
        'Description: The proved model of the NT6861 monitor microcontroller' "Version: $version" 'Cflags: -I${includedir}' 'Libs: -L${libdir} -lnt6861' > "$stage/lib/pkgconfig/nt6861.pc" || return 1
    put_text nt6861.1 share/man/man1/nt6861.1 && put_text scripts/completion.bash share/bash-completion/completions/nt6861 || return 1
    for file in README.md docs/WORDS.md docs/NUMBERS.md docs/STATE.md; do
        put_text "$file" "share/doc/nt6861/$(basename "$file")" || return 1
    done
    put_folder images share/nt6861/images && put_folder examples share/nt6861/examples || return 1
    while IFS= read -r file; do
        put 644 "$file" "share/nt6861/$file" || return 1
    done < <(named_files)
    for file in bindings/*/; do
        [ ! -d "$file" ] || put_folder "${file%/}" "share/nt6861/$(basename "$file")" || return 1
    done
    chmod -R u=rwX,go=rX "$stage"
}

# listed FILE KIND: the paths of a manifest of that kind, of which none leads out of its folder
listed() {
    sed -n "s/^$2 //p" "$1" | grep -vE '(^|/)\.\.(/|$)|^/' || true
}

# make_folder PATH: a folder of the place, and of its parents those that are missing; each that is made is told
make_folder() {
    [ ! -d "$place${1:+/$1}" ] || return 0
    if [ -z "$1" ]; then
        mkdir -p -- "$place"
        return
    fi
    case $1 in */*) make_folder "${1%/*}" ;; *) make_folder '' ;; esac && mkdir -m 755 -- "$place/$1" && echo "folder $1"
}

# copy_all: the tree goes to its place, the manifest before it, so that what a stopped install has left can be removed. A file takes the place of an
# older one at once.
copy_all() {
    local path old=$work/old made=$work/made
    : > "$old"
    [ ! -f "$place/$manifest" ] || cp -- "$place/$manifest" "$old" || return 1
    (cd "$stage" && find . -mindepth 1 \( -type f -o -type l \) -printf 'file %P\n') > "$work/files" && echo "file $manifest" >> "$work/files" || return 1
    (cd "$stage" && find . -mindepth 1 -type d -printf '%P\n' | sort) > "$work/folders" || return 1
    { [ -d "$place" ] || echo 'folder .'; grep '^folder ' "$old"; } > "$made" || true
    make_folder '' || return 1
    while IFS= read -r path; do
        make_folder "$path" >> "$made" || return 1
    done < "$work/folders"
    LC_ALL=C sort -u "$work/files" "$made" > "$work/manifest" || return 1
    cat "$work/manifest" "$old" | LC_ALL=C sort -u > "$place/$manifest" && chmod 644 "$place/$manifest" || return 1
    while IFS= read -r path; do
        [ "$path" != "$manifest" ] || continue
        [ ! -d "$place/$path" ] || [ -L "$place/$path" ] || { tell "$place/$path is a folder"; return 1; }
        cp -P --preserve=mode -- "$stage/$path" "$place/$path.nt6861-new" && mv -T -- "$place/$path.nt6861-new" "$place/$path" || return 1
    done < <(listed "$work/files" file)
    # what an older version had besides
    while IFS= read -r path; do
        grep -qxF "file $path" "$work/manifest" || rm -f -- "$place/$path" || return 1
    done < <(listed "$old" file)
    cp -- "$work/manifest" "$place/$manifest"
}

install_into() {
    local name work stage reason
    place_of "$@"
    [ ! -e "$place" ] || [ -d "$place" ] || fail "$place is no folder"
    for name in "${shown[@]}"; do
        if [ -n "${entry[$name front]:-}" ]; then
            built_front "${entry[$name front]}" "${entry[$name crate]}"
        elif [ -n "${entry[$name crate]:-}" ]; then
            proved_program "${entry[$name crate]}"
        fi
        # shellcheck disable=SC2086
        [ -z "${entry[$name beside]:-}" ] || built_front ${entry[$name beside]}
    done
    joined_library
    umask 022
    work=$(mktemp -d "$top/target/install.XXXXXX") || cannot_write "$top/target"
    stage=$work/tree
    mkdir "$stage"
    put_all > "$work/said" 2>&1 && copy_all >> "$work/said" 2>&1 || {
        reason=$(tail -n 1 "$work/said")
        rm -rf "$work"
        fail "$place is not complete: ${reason:-it cannot be written}"
    }
    rm -rf "$work"
    echo "$(listed "$place/$manifest" file | wc -l) files are in $place"
}

uninstall_from() {
    local files folders path left=0
    place_of "$@"
    [ -r "$place/$manifest" ] || fail "nothing of nt6861 is installed in $place: there is no $manifest"
    mapfile -t files < <(listed "$place/$manifest" file)
    mapfile -t folders < <(listed "$place/$manifest" folder | LC_ALL=C sort -r)
    # what Python has made of the files of the module goes with them
    for path in python python/nt6861 python/tests sigrok/nt6861_ddc; do
        rm -rf -- "$place/share/nt6861/$path/__pycache__"
    done
    for path in "${files[@]}"; do
        [ "$path" = "$manifest" ] || rm -f -- "$place/$path" || left=1
    done
    ((left == 0)) || fail "$place still has files of nt6861"
    rm -f -- "$place/$manifest" || fail "$place/$manifest cannot be removed"
    for path in "${folders[@]}"; do
        path=$place${path:+/$path}
        path=${path%/.}
        [ ! -d "$path" ] || rmdir -- "$path" 2> /dev/null || tell "$path is left: it is not empty"
    done
    echo "${#files[@]} files are removed from $place"
}
