# Completion of dualnet-view's command line for bash. Source this file, or install it as
# PREFIX/share/bash-completion/completions/dualnet-view.

_dualnet_view() {
    local word=${COMP_WORDS[COMP_CWORD]}
    COMPREPLY=()
    if [[ $word == -* ]]; then
        mapfile -t COMPREPLY < <(compgen -W "--times --output --json --help --version" -- "$word")
        return
    fi
    compopt -o filenames
    mapfile -t COMPREPLY < <(compgen -f -- "$word")
}

complete -F _dualnet_view dualnet-view
