# Completion of julia-tasks for bash. Use it by `source completions/julia-tasks.bash`.
_julia_tasks() {
    local word=${COMP_WORDS[COMP_CWORD]} command=${COMP_WORDS[1]} options= it
    COMPREPLY=()
    if [ "$COMP_CWORD" -eq 1 ]; then
        mapfile -t COMPREPLY < <(compgen -W 'run trace' -- "$word")
        return
    fi
    case $command in
    run | trace) options='--threads --seed --picks --max-turns --max-events' ;;
    esac
    # (an option stands once, and its value isn't known here)
    case ${COMP_WORDS[COMP_CWORD - 1]} in
    --threads | --seed | --picks | --max-turns | --max-events) return ;;
    esac
    for it in "${COMP_WORDS[@]:2:COMP_CWORD-2}"; do
        options=${options/"${it%%=*}"/}
    done
    mapfile -t COMPREPLY < <(compgen -W "$options" -- "$word")
}
complete -F _julia_tasks julia-tasks ./julia-tasks ./try-it
