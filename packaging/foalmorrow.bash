# SPDX-License-Identifier: Apache-2.0
# Completes the words of foalmorrow for bash.
_foalmorrow() {
    local word="${COMP_WORDS[COMP_CWORD]}"
    if [ "$COMP_CWORD" -eq 1 ]; then
        mapfile -t COMPREPLY < <(compgen -W "prune scan show help --help --version" -- "$word")
    elif [ "${COMP_WORDS[COMP_CWORD - 1]}" = --format ]; then
        mapfile -t COMPREPLY < <(compgen -W "text json" -- "$word")
    elif [ "${word:0:1}" != - ]; then
        mapfile -t COMPREPLY < <(compgen -f -- "$word")
    else
        case "${COMP_WORDS[1]}" in
            prune) mapfile -t COMPREPLY < <(compgen -W "--explain --format --help" -- "$word") ;;
            scan) mapfile -t COMPREPLY < <(compgen -W "--explain --help" -- "$word") ;;
            show) mapfile -t COMPREPLY < <(compgen -W "--help" -- "$word") ;;
        esac
    fi
}
complete -o filenames -F _foalmorrow foalmorrow
