#compdef lrs
# Completions of lrs for zsh: commands, options, names of files, and what demo takes.
_lrs() {
    local -a commands options
    commands=(
        'convert:print the listing of a file'
        'run:print it by worker processes, with a ledger'
        'resume:go on with the run of a ledger'
        'status:say how far the run of a ledger is'
        'job:print the reply to a job'
        'demo:say what the listing of an example comes to'
    )
    options=(
        '--workers=[worker processes at once, 1 to 256]:number:'
        '--bases=[cobases that a job visits, 1 to 1000000000000]:number:'
        '--depth=[how deep a job goes while few wait, 1 to 1000000]:number:'
        '--lmin=[few jobs are fewer than this for each worker, 1 to 1000]:number:'
        '--lost=[replies that may be lost, 0 to 1000000]:number:'
    )
    if (( CURRENT == 2 )); then
        _describe command commands
        return
    fi
    local command=$words[2]
    shift words
    (( CURRENT-- ))
    case $command in
        run|resume) _arguments $options '1:ledger:_files' ;;
        status) _arguments '1:ledger:_files' ;;
        demo) _arguments '1:kind:(cube cross product pyramid)' '2:number:({1..20})' ;;
    esac
}

_lrs "$@"
