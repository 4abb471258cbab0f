# Completion of dualnet's command line for bash. Source this file, or install it as
# PREFIX/share/bash-completion/completions/dualnet.

_dualnet() {
    local word=${COMP_WORDS[COMP_CWORD]} before=${COMP_WORDS[COMP_CWORD - 1]} command=${COMP_WORDS[1]}
    local numbers options
    COMPREPLY=()
    if [[ $COMP_CWORD == 1 ]]; then
        mapfile -t COMPREPLY < <(compgen -W "check run replay time explain shell help --help --version" -- "$word")
        return
    fi
    case $before in
    --threads | --workers)
        numbers=$(seq 1 16)
        mapfile -t COMPREPLY < <(compgen -W "$numbers" -- "$word")
        return
        ;;
    --format)
        mapfile -t COMPREPLY < <(compgen -W "text json" -- "$word")
        return
        ;;
    --journal)
        compopt -o filenames
        mapfile -t COMPREPLY < <(compgen -f -- "$word")
        return
        ;;
    esac
    case $command in
    check) options="--explain --help" ;;
    run) options="--threads --workers --journal --no-journal --explain --format --progress --help" ;;
    replay) options="--explain --format --progress --help" ;;
    time) options="--spells --explain --format --help" ;;
    shell) options="--journal --no-journal --explain --format --help" ;;
    explain)
        numbers=$(seq 1 55)
        mapfile -t COMPREPLY < <(compgen -W "$numbers --help" -- "$word")
        return
        ;;
    help)
        mapfile -t COMPREPLY < <(compgen -W "check run replay time explain shell help" -- "$word")
        return
        ;;
    *) return ;;
    esac
    if [[ $word == -* ]]; then
        mapfile -t COMPREPLY < <(compgen -W "$options" -- "$word")
    else
        compopt -o filenames
        mapfile -t COMPREPLY < <(compgen -f -- "$word")
    fi
}

complete -F _dualnet dualnet
