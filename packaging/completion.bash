# Completion of registrylog's command line for bash. Commands and options are those that the program's own help lists.

_registrylog() {
    local word=$2 before=$3 command=${COMP_WORDS[1]-} help words
    COMPREPLY=()
    if ((COMP_CWORD == 1)) || [[ $COMP_CWORD == 2 && $command == help ]]; then
        words=$(registrylog help 2>/dev/null | awk '/^[^ ]/ { listed = /^Commands:/ } listed && /^  [a-z]/ { print $1 }')
        ((COMP_CWORD == 2)) || words+=$'\n--help\n--version'
    else
        help=$(registrylog help "$command" 2>/dev/null | awk '/^ +-/ { sub(/^ +/, ""); sub(/  .*/, ""); print }')
        # Behind an option with a value come files for --output, and else nothing.
        if grep -q -e "^\(-., \)\?$before <" <<<"$help"; then
            [[ $before != --output ]] || mapfile -t COMPREPLY < <(compgen -f -- "$word")
            return
        fi
        if [[ $word != -* ]]; then
            mapfile -t COMPREPLY < <(compgen -f -- "$word")
            return
        fi
        words=$(grep -o -e '--[a-z-]*' <<<"$help")
    fi
    mapfile -t COMPREPLY < <(compgen -W "$words" -- "$word")
}

complete -o filenames -F _registrylog registrylog
