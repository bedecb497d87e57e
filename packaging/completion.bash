# bash completion of syslogr: commands and options; files; behind `trace FILE` the sources that FILE names.
_syslogr() {
    local word=${COMP_WORDS[COMP_CWORD]} sources
    COMPREPLY=()
    if [ "$COMP_CWORD" = 1 ]; then
        mapfile -t COMPREPLY < <(compgen -W 'check trace run spool drill --help --version' -- "$word")
        return
    fi
    case ${COMP_WORDS[1]}:$COMP_CWORD in
    check:2 | trace:2 | run:2 | spool:2 | trace:4)
        compopt -o filenames
        mapfile -t COMPREPLY < <(compgen -f -- "$word")
        ;;
    trace:3)
        sources=$(sed -nE 's/^[[:space:]]*source[[:space:]]+"?([A-Za-z0-9_.-]+)"?[[:space:]]*\{.*/\1/p' "${COMP_WORDS[2]}" 2>/dev/null)
        mapfile -t COMPREPLY < <(compgen -W "$sources" -- "$word")
        ;;
    run:3) mapfile -t COMPREPLY < <(compgen -W '--once --rounds' -- "$word") ;;
    run:4) [ "${COMP_WORDS[3]}" != --once ] || mapfile -t COMPREPLY < <(compgen -W --rounds -- "$word") ;;
    esac
}
complete -F _syslogr syslogr
