# Completion of dualnetctl's commands, and of neighbours and prefixes as the daemon knows them. `compgen -W' has the shell expand
# its words, and the name of an interface may be anything, so what comes from elsewhere is not given to it.
_dualnetctl_of()
{
    local word=$1 each
    COMPREPLY=()
    while read -r each; do
        [[ $each == "$word"* ]] && COMPREPLY+=("$(printf %q "$each")")
    done
}

_dualnetctl()
{
    local word=${COMP_WORDS[COMP_CWORD]} command= at socket=()
    for ((at = 1; at < COMP_CWORD; at++)); do
        case ${COMP_WORDS[at]} in
        --socket) socket=(--socket "${COMP_WORDS[++at]}") ;;
        --timeout) ((++at)) ;;
        -*) ;;
        *)
            command=${COMP_WORDS[at]}
            break
            ;;
        esac
    done
    case $command in
    '') COMPREPLY=($(compgen -W "--socket --json --timeout --help --version table routes state neighbours why counters lookup \
        trace monitor version attach detach cost down up neighbour drain undrain unfilter reload" -- "$word")) ;;
    state | why | detach)
        _dualnetctl_of "$word" < <(dualnetctl "${socket[@]}" --timeout 1 routes 2>/dev/null | cut -d ' ' -f 1) ;;
    cost | down | up)
        _dualnetctl_of "$word" < <(dualnetctl "${socket[@]}" --timeout 1 neighbours 2>/dev/null | cut -d ' ' -f 1) ;;
    unfilter) _dualnetctl_of "$word" < <(ls /sys/class/net) ;;
    esac
}
complete -F _dualnetctl dualnetctl
