# bash completion for thpsplit
_thpsplit() {
    local word=${COMP_WORDS[COMP_CWORD]} before=${COMP_WORDS[COMP_CWORD - 1]}
    case $before in
    --report) COMPREPLY=($(compgen -W 'totals journal answers' -- "$word")) ;;
    --nodes) COMPREPLY=($(compgen -W '1 2 3 4 5 6 7 8' -- "$word")) ;;
    --blocks | --workers | --orders | --underused) COMPREPLY=() ;;
    *) COMPREPLY=($(compgen -W '--nodes --blocks --workers --report --orders --underused --check --help --version' -- "$word")) ;;
    esac
}
complete -F _thpsplit thpsplit
