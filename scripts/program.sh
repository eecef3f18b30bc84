# Read by ./nt6861, by whatever link it is called: the commands of scripts/commands.txt, their arguments, and how each is run.
# Statuses: 0 done; 1 the input was refused or a case failed; 2 wrong arguments, or something could not be read, written, made, proved or
# built; 128 + n where signal n ended the command, as 141 for a closed pipe. Where standard error is closed or full nothing is told, and the
# status is the same.
set -euo pipefail
if ((BASH_VERSINFO[0] * 100 + BASH_VERSINFO[1] < 501)); then
    echo "nt6861: bash 5.1 or later is needed" >&2
    exit 2
fi
source "$(dirname "$(readlink -f "${BASH_SOURCE[0]}")")/made.sh"
# Installed (scripts/install.sh), the programs stand in bin beside this folder, and nothing is proved or built.
if [ -e "$top/manifest" ]; then
    proved_program() { :; }
    built_front() { :; }
    program_of() { echo "$top/bin/$1"; }
    front_of() { echo "$top/bin/$1"; }
fi
command=''
: 3>&2 || exec 2> /dev/null

tell() {
    printf '%s\n' "nt6861${command:+ $command}: $*" >&2 || true
}

fail() {
    tell "$*"
    exit 2
}

misused() {
    [ -z "$command" ] || fail "$*; ./nt6861 $command -h says what it takes"
    fail "$*; ./nt6861 -h lists the commands"
}

# ---- the table of commands
# Of each command NAME that is shown: entry[NAME field], where a field that comes again has a line for each.
declare -A entry
shown=()
read_table() {
    local line name='' field crates
    crates=$'\n'$(sed -nE 's/^([a-z0-9_]+)( [a-z0-9_= ]+)?:.*/\1/p' "$top/crates.txt")$'\n' || fail "$top/crates.txt cannot be read"
    while IFS= read -r line; do
        case $line in
        '' | '#'*) continue ;;
        'command '*) name=${line#command } ;;
        'crate '*)
            [[ $crates == *$'\n'"${line#crate }"$'\n'* ]] || { name=''; continue; }
            shown+=("$name")
            entry[$name crate]=${line#crate }
            ;;
        'script '*)
            # an installation has no scripts of the repository
            [ ! -e "$top/manifest" ] || { name=''; continue; }
            shown+=("$name")
            entry[$name script]=${line#script }
            ;;
        'runs '*)
            # where it is installed there is nothing to make
            [ "$line" = 'runs uninstall_from' ] || [ ! -e "$top/manifest" ] || { name=''; continue; }
            shown+=("$name")
            entry[$name runs]=${line#runs }
            ;;
        *)
            field=${line%% *}
            line=${line#"$field"}
            [ -z "$name" ] || entry[$name $field]=${entry[$name $field]+${entry[$name $field]}$'\n'}${line# }
            ;;
        esac
    done < "$top/scripts/commands.txt" || fail "$top/scripts/commands.txt cannot be read"
}

is_shown() {
    local name
    for name in "${shown[@]}"; do
        [ "$name" != "$1" ] || return 0
    done
    return 1
}

# distance A B: how many letters are to be put in, taken out or changed
distance() {
    local a=$1 b=$2 i j cost row next
    row=()
    for ((j = 0; j <= ${#b}; j++)); do row[j]=$j; done
    for ((i = 1; i <= ${#a}; i++)); do
        next=("$i")
        for ((j = 1; j <= ${#b}; j++)); do
            cost=${row[j - 1]}
            [ "${a:i-1:1}" = "${b:j-1:1}" ] || cost=$((cost + 1))
            ((cost <= row[j] + 1)) || cost=$((row[j] + 1))
            ((cost <= next[j - 1] + 1)) || cost=$((next[j - 1] + 1))
            next[j]=$cost
        done
        row=("${next[@]}")
    done
    echo "${row[${#b}]}"
}

nearest() {
    local name best='' least=1000 d
    for name in "${shown[@]}"; do
        d=$(distance "${1:0:40}" "$name")
        ((d >= least)) || { least=$d; best=$name; }
    done
    echo "$best"
}

# ---- usage
list_commands() {
    local name
    echo "usage: ./nt6861 COMMAND [ARGUMENT ..]"
    echo
    for name in "${shown[@]}"; do
        printf '  %-40s %s\n' "$name ${entry[$name usage]}" "${entry[$name does]}"
    done
    echo
    echo "./nt6861 COMMAND -h says what a command takes. A file that is not named is standard input. Statuses: 0 done; 1 the input was refused or a"
    echo "case failed; 2 wrong arguments, or something could not be read, written, made, proved or built; 128 + n: ended by signal n."
}

usage_of() {
    echo "usage: ./nt6861 $1 ${entry[$1 usage]}"
    echo
    printf '%s\n' "${entry[$1 text]}"
    [ -z "${entry[$1 example]:-}" ] || printf '\n%s\n' "    \$ ${entry[$1 example]}"
    [ -z "${entry[$1 prints]:-}" ] || sed 's/^/    /' <<< "${entry[$1 prints]}"
    echo
    echo "status 0  ${entry[$1 done]}"
    [ -z "${entry[$1 refused]:-}" ] || echo "status 1  ${entry[$1 refused]}"
    echo "status 2  wrong arguments, or something could not be read, written, made, proved or built"
}

# told WHAT..: a usage on standard output
told() {
    local status=0
    "$@" 2> /dev/null || status=$?
    [ "$status" != 1 ] || fail "standard output cannot be written to"
    exit "$status"
}

# ---- arguments
# input [FILE]: standard input is the file from here on, where one is named, and `source` what to call it. It is opened once, since a pipe
# opened twice loses its writer.
source='standard input'
input() {
    local reason
    case ${1:-} in -*) misused "no option $1" ;; esac
    [ $# -le 1 ] || misused "one file at most, and $# are named"
    if [ $# = 1 ]; then
        source=$1
        if ! { command exec < "$1"; } 2> /dev/null; then
            reason=$({ : < "$1"; } 2>&1) || true
            fail "$1: ${reason##*: }"
        fi
        [ ! -d "$1" ] || fail "$1: Is a directory"
    fi
    { : 3<&0; } 2> /dev/null || fail "standard input is closed"
}

# What `wave` takes before its file: -o OUT. The output has another name until it is whole, and is then renamed, so that nothing is left half
# written under the name asked for. What is there and no regular file, as a pipe, is written to as it is.
out_name=''
partial=''
input_output() {
    if [ "${1:-}" = -o ]; then
        [ -n "${2:-}" ] || misused "the name after -o is missing"
        out_name=$2
        shift 2
    fi
    input "$@"
    [ -z "$out_name" ] || open_output
}

open_output() {
    local reason name=$out_name
    [ ! -d "$out_name" ] || fail "$out_name: Is a directory"
    if [ -f "$out_name" ] || [ ! -e "$out_name" ]; then
        name=$(readlink -m -- "$out_name").$$.part
        partial=$name
        trap 'rm -f -- "$partial"' EXIT
    fi
    if ! { command exec > "$name"; } 2> /dev/null; then
        reason=$({ : > "$name"; } 2>&1) || true
        fail "$out_name: ${reason##*: }"
    fi
}

remove_at_signals() {
    local signal
    for signal in INT TERM HUP QUIT; do
        # shellcheck disable=SC2064
        trap "rm -f -- \"\$partial\"; stopped $signal" "$signal"
    done
}

# settle STATUS: an output that is whole gets its name, any other is removed
settle() {
    [ -n "$partial" ] || return 0
    if (($1 <= 1)); then
        mv -f -- "$partial" "${partial%.$$.part}" 2> /dev/null || { tell "$out_name: cannot be renamed"; return 1; }
    else
        rm -f -- "$partial"
    fi
}

# What `addresses` takes before its file.
byte=()
input_byte() {
    case ${1:-} in
    '') misused "the byte in II ADR is missing" ;;
    -*) misused "no option $1" ;;
    esac
    [[ $1 =~ ^[0-9A-Fa-f]{1,2}$ ]] || misused "II ADR is a byte of two hex digits, and not $1"
    byte=("$1")
    input "${@:2}"
}

# What `firmware` takes. An image that is no regular file is read up to the byte that is too many, and one that is too long not at all.
image_bytes=24576
arguments=()
hosted='' # an argument begins with --: the Rust program beside the proved one takes them all
called=() # FILE NAME ..: a file that the program is given, and what to call it
input_firmware() {
    local option=() rom size fd argument
    for argument; do
        case $argument in --?*) hosted=yes ;; esac
    done
    if [ -n "$hosted" ]; then
        arguments=("$@")
        return
    fi
    if [ "${1:-}" = -t ]; then
        option=(-t)
        shift
    fi
    case ${1:-} in -*) misused "no option $1" ;; esac
    [ $# -ge 2 ] && [ $# -le 3 ] || misused "an image, a count and a list at most, and $# arguments are given"
    rom=$1
    if [ -f "$rom" ]; then
        size=$(stat -Lc %s -- "$rom") || fail "$rom: its length cannot be told"
        ((size <= image_bytes + 1)) || { tell "$rom: $size bytes, not $image_bytes"; exit 1; }
    elif [ -e "$rom" ] && [ ! -d "$rom" ]; then
        exec {fd}< <(exec head -c $((image_bytes + 1)) -- "$rom" 2> /dev/null)
        helpers+=("$!")
        called+=("/dev/fd/$fd" "$rom")
        rom=/dev/fd/$fd
    fi
    [ "$rom" != -t ] || rom=./-t
    arguments=("${option[@]}" "$rom" "${@:2}")
}

# What `check` takes: cases, and folders, which stand for the files in and below them, hidden ones left out, in the order of their names.
input_check() {
    local name found
    if [ $# = 0 ]; then
        { : 3<&0; } 2> /dev/null || fail "standard input is closed"
        arguments=(/dev/stdin)
        return
    fi
    for name in "$@"; do
        case $name in -*) misused "no option $name" ;; esac
        if [ -d "$name" ]; then
            mapfile -d '' -t found < <(find -L "$name" -mindepth 1 -name '.*' -prune -o -type f -print0 2> /dev/null | LC_ALL=C sort -z)
            [ "${#found[@]}" != 0 ] || fail "$name: no files in this folder"
            arguments+=("${found[@]}")
        else
            arguments+=("$name")
        fi
    done
}

# ---- running
# reword LINE: `line` is a line of the program as the command tells it
reword() {
    local i number meaning
    line=$1
    line=${line#"${entry[$command crate]}: "}
    [ "$source" = 'standard input' ] || line=${line/#standard input/"$source"}
    [ -z "$out_name" ] || line=${line/#standard output/"$out_name"}
    for ((i = 0; i < ${#called[@]}; i += 2)); do
        line=${line/#"${called[i]}"/"${called[i + 1]}"}
    done
    # of a list of events that is a pipe the system says too little
    line=${line/%: Illegal seek/: cannot be read twice; give a file}
    [ -n "${entry[$command meaning]:-}" ] || return 0
    while read -r number meaning; do
        [[ $line != *" $number" ]] || line="$line, $meaning"
    done <<< "${entry[$command meaning]}"
}

# is_like LINE PATTERNS: one pattern a line
is_like() {
    local pattern
    [ -n "$2" ] || return 1
    while IFS= read -r pattern; do
        # shellcheck disable=SC2053
        [[ $1 != $pattern ]] || return 0
    done <<< "$2"
    return 1
}

# judge_errors: tells what the program says on standard error. Status 0 where it says nothing, 1 where each line is that of a refusal, else 2.
judge_errors() {
    local said line status=0
    trap '' INT TERM HUP QUIT
    while IFS= read -r said || [ -n "$said" ]; do
        reword "$said"
        tell "$line"
        if is_like "$said" "${entry[$command says]:-}"; then
            ((status == 2)) || status=1
        else
            status=2
        fi
    done
    exit "$status"
}

# judge_output: passes on what the program writes, and looks at the last line. Status 1 where it is that of a refusal, 2 where it cannot be
# written, 141 where nobody reads on.
judge_output() {
    local line last='' reason
    trap '' INT TERM HUP QUIT
    while IFS= read -r line || [ -n "$line" ]; do
        last=$line
        printf '%s\n' "$line" 2> /dev/null && continue
        # again, for the reason
        { reason=$({ printf '%s\n' "$line" >&3; } 2>&1) || true; } 3>&1
        fail "standard output: ${reason##*: }"
    done
    ! is_like "$last" "${entry[$command ends]}" || exit 1
}

# judge_firmware: the same for a run of firmware, in blocks, since a trace has many lines. An instruction that was refused is told: its number
# among those carried out, the number of the refusal, and PC.
judge_firmware() {
    local block last='' more=yes reason
    trap '' INT TERM HUP QUIT
    while [ -n "$more" ]; do
        IFS= read -r -N 65536 block || more=''
        [ -n "$block" ] || continue
        last=$last$block
        ((${#last} <= 256)) || last=${last: -256}
        printf '%s' "$block" 2> /dev/null && continue
        { reason=$({ printf '%s' "$block" >&3; } 2>&1) || true; } 3>&1
        fail "standard output: ${reason##*: }"
    done
    last=${last%$'\n'}
    last=${last##*$'\n'}
    is_like "$last" "${entry[$command ends]}" || return 0
    if [[ $last =~ ^'number '([0-9]+)' counted '([0-9]+)' '.*' PC='([0-9A-F]+) ]]; then
        reword "instruction ${BASH_REMATCH[2]} at ${BASH_REMATCH[3]} is refused with ${BASH_REMATCH[1]}"
        tell "$line"
    fi
    exit 1
}

# worse A B: of two statuses the one to end with: a signal before a failure before a refusal
worse() {
    echo $(($1 > $2 ? $1 : $2))
}

# run PROGRAM ARGUMENT..: it runs, and its status follows from what it says, since a proved program ends with 0 whatever it refuses. The shell waits,
# so that a signal to it alone ends the program too.
run() {
    local program=$1 status=0 judged=0 output='' errors out err job
    if [ -n "${entry[$command ends]:-}" ]; then
        local judge=judge_output
        [ "$command" != firmware ] || judge=judge_firmware
        exec {out}> >("$judge")
        output=$!
    else
        exec {out}>&1
    fi
    exec {err}> >(judge_errors)
    errors=$!
    "$program" "${@:2}" <&0 >&"$out" 2>&"$err" {out}>&- {err}>&- &
    job=$!
    exec {out}>&- {err}>&-
    wait "$job" || status=$?
    wait "$errors" || judged=$?
    if [ -n "$output" ]; then
        wait "$output" || judged=$(worse $? "$judged")
    fi
    ((${#helpers[@]} == 0)) || kill "${helpers[@]}" 2> /dev/null || true
    # a program that was ended by a signal says so by that, but for a write that nobody reads
    ((status <= 128 || status == 141)) || tell "ended by signal $((status - 128))"
    ((status == 0 || status > 128)) || status=2
    status=$(worse "$status" "$judged")
    settle "$status" || status=2
    exit "$status"
}

main() {
    read_table
    case ${1:-} in
    '' | -h | --help) told list_commands ;;
    -*) misused "no option $1" ;;
    esac
    is_shown "$1" || misused "no command $1; the nearest is $(nearest "$1")"
    command=$1
    shift
    case ${1:-} in -h | --help) told usage_of "$command" ;; esac
    if [ -n "${entry[$command script]:-}" ]; then
        { : 3>&1; } 2> /dev/null || fail "standard output is closed"
        exec "$top/${entry[$command script]}" "$@"
    fi
    if [ -n "${entry[$command runs]:-}" ]; then
        heed_signals
        source "$top/scripts/install.sh"
        "${entry[$command runs]}" "$@"
        exit
    fi
    case ${entry[$command input]} in
    file) input "$@" ;;
    'byte file') input_byte "$@" ;;
    'output file') input_output "$@" ;;
    *)
        case $command in
        firmware) input_firmware "$@" ;;
        check) input_check "$@" ;;
        *) arguments=("$@") ;;
        esac
        ;;
    esac
    # that there is no output to write to is told before anything is proved
    { : 3>&1; } 2> /dev/null || fail "standard output is closed"
    heed_signals
    [ -z "$partial" ] || remove_at_signals
    if [ -n "${entry[$command front]:-}" ]; then
        built_front "${entry[$command front]}" "${entry[$command crate]}"
        exec "$(front_of "${entry[$command front]}")" "$source" "${byte[@]}"
    fi
    if [ -n "$hosted" ]; then
        # shellcheck disable=SC2086
        built_front ${entry[$command beside]}
        exec "$(front_of "${entry[$command beside]%% *}")" "${arguments[@]}"
    fi
    proved_program "${entry[$command crate]}"
    run "$(program_of "${entry[$command crate]}")" "${arguments[@]}"
}
