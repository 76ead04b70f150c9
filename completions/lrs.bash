# Completions of lrs for bash: commands, options, names of files, and what demo takes.
_lrs() {
    local word=${COMP_WORDS[COMP_CWORD]} before="" command=""
    COMPREPLY=()
    if [ "$COMP_CWORD" -gt 1 ]; then
        command=${COMP_WORDS[1]}
        before=${COMP_WORDS[COMP_CWORD - 1]}
    fi
    case $command in
        '') mapfile -t COMPREPLY < <(compgen -W 'convert run resume status job demo' -- "$word") ;;
        run | resume)
            case $before in
                --workers | --bases | --depth | --lmin | --lost | =) return ;;
            esac
            case $word in
                -*) mapfile -t COMPREPLY < <(compgen -W '--workers --bases --depth --lmin --lost' -- "$word") ;;
                *) _lrs_files "$word" ;;
            esac
            ;;
        status) [ "$COMP_CWORD" -ne 2 ] || _lrs_files "$word" ;;
        demo)
            case $COMP_CWORD in
                2) mapfile -t COMPREPLY < <(compgen -W 'cube cross product pyramid' -- "$word") ;;
                3) mapfile -t COMPREPLY < <(compgen -W "$(seq 1 20)" -- "$word") ;;
            esac
            ;;
    esac
}

# The names of files and folders that begin with $1.
_lrs_files() {
    mapfile -t COMPREPLY < <(compgen -f -- "$1")
    compopt -o filenames 2>/dev/null
}

complete -F _lrs lrs
