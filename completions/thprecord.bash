# bash completion for thprecord
_thprecord() {
    local word=${COMP_WORDS[COMP_CWORD]} before=${COMP_WORDS[COMP_CWORD - 1]} i
    for ((i = 1; i < COMP_CWORD; i++)); do
        if [ "${COMP_WORDS[i]}" = -- ]; then
            COMPREPLY=($(compgen -c -f -- "$word"))
            return
        fi
    done
    case $before in
    --checker | --program | --out | --times | --records) COMPREPLY=($(compgen -f -- "$word")); return ;;
    --underused) COMPREPLY=($(compgen -W 'off as-is' -- "$word")); return ;;
    --enabled) COMPREPLY=($(compgen -W 'madvise always' -- "$word")); return ;;
    --user) COMPREPLY=($(compgen -u -- "$word")); return ;;
    --own | --order | --every | --contents | --collapse | --require | --seconds | --disk) COMPREPLY=(); return ;;
    esac
    COMPREPLY=($(compgen -W '--checker --program --own --order --underused --enabled --every --collapse --strict --require
        --out --times --contents --records --seconds --disk --user --wait --help --version --' -- "$word"))
}
complete -F _thprecord thprecord
