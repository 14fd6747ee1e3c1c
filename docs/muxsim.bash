# Completion of muxsim for bash: its subcommands and their options. Behind < and > files are completed.

_muxsim() {
    local word=${COMP_WORDS[COMP_CWORD]} before=${COMP_WORDS[COMP_CWORD - 1]} words=
    COMPREPLY=()
    case $before in
        '<' | '>' | '>>')
            mapfile -t COMPREPLY < <(compgen -f -- "$word")
            compopt -o filenames 2>/dev/null
            return
            ;;
        --workers | --at) return ;;
    esac
    if ((COMP_CWORD == 1)); then
        words='run check replay trace draw live commands help --help --version'
    else
        case ${COMP_WORDS[1]} in
            run) words='--workers --fronts --explain --help' ;;
            check) words='--explain --help' ;;
            replay) words='--at --explain --help' ;;
            trace) words='--waits --explain --help' ;;
            live) words='--explain --help' ;;
            commands) words='--help' ;;
            draw) words='--dot --steps --explain --help' ;;
            help) ((COMP_CWORD == 2)) && words='run check replay trace draw live commands' ;;
        esac
        # Each option may be given once.
        local given
        for given in "${COMP_WORDS[@]:2:COMP_CWORD - 2}"; do
            words=" $words "
            words=${words/" $given "/ }
        done
    fi
    mapfile -t COMPREPLY < <(compgen -W "$words" -- "$word")
}

complete -F _muxsim muxsim
