# bash completion for thpreplay
_thpreplay() {
    local word=${COMP_WORDS[COMP_CWORD]} before=${COMP_WORDS[COMP_CWORD - 1]}
    case $before in
    --program) COMPREPLY=($(compgen -f -- "$word")); return ;;
    --keep) COMPREPLY=($(compgen -d -- "$word")); return ;;
    --fill) COMPREPLY=($(compgen -W 'data zeros' -- "$word")); return ;;
    --nodes | --orders | --underused | --blocks | --random | --seed | --node-counts | --page-orders | --thresholds | --queue-lengths | --length | --shrink)
        COMPREPLY=(); return ;;
    esac
    COMPREPLY=($(compgen -W '--program --nodes --orders --underused --blocks --random --seed --node-counts --page-orders
        --thresholds --queue-lengths --length --fill --keep --shrink --no-memory
        --fingerprint --json --show --wait --undo --verbose --quiet --help --version' -- "$word"))
    COMPREPLY+=($(compgen -f -- "$word"))
}
complete -F _thpreplay thpreplay
