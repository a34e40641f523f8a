# Completion of julia-tasks for fish: put this file into ~/.config/fish/completions.
complete -c julia-tasks -f
complete -c julia-tasks -n __fish_use_subcommand -a run -d 'run a script and write its lines'
complete -c julia-tasks -n __fish_use_subcommand -a trace -d 'run a script and write the trace of its run'
for command in run trace
    set -l on "__fish_seen_subcommand_from $command"
    complete -c julia-tasks -n $on -x -l threads -d 'numbers of workers: N or N,M'
    complete -c julia-tasks -n $on -x -l seed -d 'the five seed words: A,B,C,D,E'
    complete -c julia-tasks -n $on -x -l picks -d 'the number by which ready tasks are picked'
    complete -c julia-tasks -n $on -x -l max-turns -d 'the most turns of a task'
    complete -c julia-tasks -n $on -x -l max-events -d 'the greatest stamp'
end
