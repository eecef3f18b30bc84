# Completion for bash: source scripts/completion.bash. Made by scripts/manual.py from scripts/commands.txt.
_nt6861() {
    local words='' word=${COMP_WORDS[COMP_CWORD]}
    if [ "$COMP_CWORD" = 1 ]; then
        words='replay list check words why firmware vcd wave addresses edid feed record recording counters6862 library install uninstall release -h'
    elif [[ $word == -* ]]; then
        case ${COMP_WORDS[1]} in
        replay) words='-h' ;;
        list) words='-h' ;;
        check) words='-h' ;;
        words) words='-h' ;;
        why) words='-h' ;;
        firmware) words='-t --host -h' ;;
        vcd) words='-h' ;;
        wave) words='-o -h' ;;
        addresses) words='-h' ;;
        edid) words='-h' ;;
        feed) words='-h' ;;
        record) words='-h' ;;
        recording) words='-h' ;;
        counters6862) words='-h' ;;
        library) words='-h' ;;
        install) words='-h' ;;
        uninstall) words='-h' ;;
        release) words='-h' ;;
        esac
    else
        mapfile -t COMPREPLY < <(compgen -f -- "$word")
        return
    fi
    mapfile -t COMPREPLY < <(compgen -W "$words" -- "$word")
}
complete -o filenames -F _nt6861 nt6861 ./nt6861
