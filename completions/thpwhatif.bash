# bash completion for thpwhatif
_thpwhatif() {
    local word=${COMP_WORDS[COMP_CWORD]} before=${COMP_WORDS[COMP_CWORD - 1]} command=${COMP_WORDS[1]} words
    local choice='--pid --cgroup --all --memory --orders --queued'
    if [ "$COMP_CWORD" -eq 1 ]; then
        COMPREPLY=($(compgen -W 'now snapshot what-if target watch verify policies --help --version' -- "$word"))
        return
    fi
    case $before in
    --pid) COMPREPLY=($(compgen -W "$(cd /proc && echo [0-9]*)" -- "$word")); return ;;
    --cgroup | --keep) COMPREPLY=($(compgen -d -- "$word")); return ;;
    --times | --checker | -o | --output | --prometheus) COMPREPLY=($(compgen -f -- "$word")); return ;;
    --queued) COMPREPLY=($(compgen -W 'seen all' -- "$word")); return ;;
    --user) COMPREPLY=($(compgen -u -- "$word")); return ;;
    --thresholds | --threshold | --scan | --rounds | --seed | --pages | --after | --memory) COMPREPLY=(); return ;;
    esac
    case $command in
    now) words="$choice --thresholds --json --by-process --by-cgroup" ;;
    snapshot) words="$choice --output" ;;
    what-if) words='--memory --thresholds --json --by-process --by-cgroup' ;;
    target) words="$choice --json" ;;
    watch) words="$choice --rounds --thresholds --json --prometheus" ;;
    verify) words='--thresholds --rounds --seed --pages --after --user --wait --running --keep' ;;
    policies) words='--threshold --scan --times --json --checker' ;;
    esac
    COMPREPLY=($(compgen -W "$words --help" -- "$word"))
    case $command in what-if | target | policies) COMPREPLY+=($(compgen -f -- "$word")) ;; esac
}
complete -F _thpwhatif thpwhatif
