# bash completion for thpdraw
_thpdraw() {
    local word=${COMP_WORDS[COMP_CWORD]} before=${COMP_WORDS[COMP_CWORD - 1]}
    case $before in
    --node) COMPREPLY=() ;;
    *) COMPREPLY=($(compgen -W '--table --node --progress --help --version' -- "$word")) ;;
    esac
}
complete -F _thpdraw thpdraw
