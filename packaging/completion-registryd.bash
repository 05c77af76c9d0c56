# Completion of registryd's command line for bash. Its commands are those that its own usage lists.

_registryd() {
    COMPREPLY=()
    ((COMP_CWORD == 1)) || return
    mapfile -t COMPREPLY < <(compgen -W "$(registryd 2>&1 </dev/null | grep -o 'registryd [a-z]*' | cut -d ' ' -f 2)" -- "$2")
}

complete -F _registryd registryd
