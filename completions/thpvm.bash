# bash completion for thpvm
_thpvm() {
    local word=${COMP_WORDS[COMP_CWORD]} before=${COMP_WORDS[COMP_CWORD - 1]}
    case $before in
    --file) COMPREPLY=($(compgen -f -- "$word")); return ;;
    --accel) COMPREPLY=($(compgen -W 'auto kvm emulation' -- "$word")); return ;;
    --numa | --memory | --append | --limit) COMPREPLY=(); return ;;
    esac
    COMPREPLY=($(compgen -W '--numa --memory --accel --file --append --limit --bisect --help --version' -- "$word"))
    COMPREPLY+=($(compgen -f -- "$word"))
}
complete -F _thpvm thpvm
