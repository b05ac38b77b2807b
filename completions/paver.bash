# Completion of paver's words for bash, made by tests/generators/command_tables.py.
_paver() {
    local word=${COMP_WORDS[COMP_CWORD]} before=${COMP_WORDS[COMP_CWORD-1]} command=${COMP_WORDS[1]}
    COMPREPLY=()
    # `--name=value` comes as three words
    if [ "$word" = "=" ]; then
        word=
    elif [ "$before" = "=" ]; then
        before=${COMP_WORDS[COMP_CWORD-2]}
    fi
    if [ "$COMP_CWORD" -eq 1 ]; then
        mapfile -t COMPREPLY < <(compgen -W "check run resume merge audit svg campaign least run-centered audit-centered sample" -- "$word")
        return
    fi
    case $before in
        --eps|--depth|--boxes|--limit|--workers|--share|--x|--y|--at|--rounds|--of|--seed|--count) return ;;
        --bisect) mapfile -t COMPREPLY < <(compgen -W "largest round" -- "$word"); return ;;
        --contract) mapfile -t COMPREPLY < <(compgen -W "prop(8) hc4( compose( union( qinter( fix( prop(" -- "$word"); return ;;
        --form) mapfile -t COMPREPLY < <(compgen -W "plain centered" -- "$word"); return ;;
        --order) mapfile -t COMPREPLY < <(compgen -W "depth level" -- "$word"); return ;;
        --out|--keep) mapfile -t COMPREPLY < <(compgen -f -- "$word"); return ;;
    esac
    if [[ $word == -* ]]; then
        case $command in
            run) mapfile -t COMPREPLY < <(compgen -W "--eps --depth --bisect --contract --form --boxes --limit --workers --order --out" -- "$word") ;;
            resume) mapfile -t COMPREPLY < <(compgen -W "--eps --depth --bisect --contract --form --boxes --limit --workers --order --share --out" -- "$word") ;;
            merge) mapfile -t COMPREPLY < <(compgen -W "--eps --depth --bisect --contract --form --limit --out" -- "$word") ;;
            audit) mapfile -t COMPREPLY < <(compgen -W "--eps --depth --bisect --contract --form --limit --workers" -- "$word") ;;
            svg) mapfile -t COMPREPLY < <(compgen -W "--eps --depth --bisect --contract --form --limit --x --y --at" -- "$word") ;;
            campaign) mapfile -t COMPREPLY < <(compgen -W "--eps --depth --bisect --contract --form --boxes --limit --workers --order --keep --rounds" -- "$word") ;;
            least) mapfile -t COMPREPLY < <(compgen -W "--eps --depth --bisect --contract --boxes --limit --of" -- "$word") ;;
            run-centered) mapfile -t COMPREPLY < <(compgen -W "--eps --depth --bisect --contract --boxes --limit --workers --order --out" -- "$word") ;;
            audit-centered) mapfile -t COMPREPLY < <(compgen -W "--eps --depth --bisect --contract --limit --workers" -- "$word") ;;
            sample) mapfile -t COMPREPLY < <(compgen -W "--seed --count" -- "$word") ;;
        esac
        return
    fi
    mapfile -t COMPREPLY < <(compgen -f -- "$word")
}
complete -o filenames -F _paver paver
