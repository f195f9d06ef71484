# bash completion for thpcheck
_thpcheck() {
    COMPREPLY=($(compgen -W '--explain --summary --progress --script --help --version' -- "${COMP_WORDS[COMP_CWORD]}"))
}
complete -F _thpcheck thpcheck
