# Completions of ghost for bash. Made by .ci/pages; source this file, or put it into a folder of completions.
_ghost() {
    local word=${COMP_WORDS[COMP_CWORD]} options= file=
    COMPREPLY=()
    if [ "$COMP_CWORD" -eq 1 ]; then
        mapfile -t COMPREPLY < <(compgen -W "run explain report journal timeline timehist latency trace serve simulate compare threads help --help --version" -- "$word")
        return
    fi
    # A value follows these.
    case "${COMP_WORDS[1]} ${COMP_WORDS[COMP_CWORD - 1]}" in
        'report --last' | 'timeline --from' | 'timeline --to' | 'timeline --threads' | 'timeline --thread' | 'simulate --policy' | 'simulate --ticks' | 'simulate --seed' | 'compare --policy' | 'compare --ticks' | 'compare --seed' | 'threads --workers' | 'threads --each') return ;;
    esac
    case "${COMP_WORDS[1]}" in
        run) options='--help' file=yes ;;
        explain) options='--json --help' file=yes ;;
        report) options='--last --help' file=yes ;;
        journal) options='--json --help' file=yes ;;
        timeline) options='--from --to --threads --thread --all-threads --help' file=yes ;;
        timehist) options='--json --help' file=yes ;;
        latency) options='--json --threads --help' file=yes ;;
        trace) options='--help' file=yes ;;
        serve) options='--explain --help' ;;
        simulate) options='--policy --ticks --seed --help' file=yes ;;
        compare) options='--policy --ticks --seed --json --csv --help' file=yes ;;
        threads) options='--workers --each --journal --help' ;;
        help) options='run explain report journal timeline timehist latency trace serve simulate compare threads help' ;;
    esac
    mapfile -t COMPREPLY < <(compgen -W "$options" -- "$word"; [ -z "$file" ] || compgen -f -- "$word")
}
complete -o filenames -F _ghost ghost ./ghost
