# The words of gb and gb_ask in fish. In ~/.config/fish/config.fish: source FOLDER/tools/completions/gb.fish
function __gb_tasks -d 'The registered tasks, with the first colon or without, as the word begins'
    set -l paths (gb_ask tasks 2>/dev/null | string match -r '^:[^ ]*' | string trim -r -c :)
    if string match -q ':*' -- (commandline -ct)
        string join \n -- $paths
    else
        string sub -s 2 -- $paths
    end
end

for command in gb gb_ask
    complete -c $command -f
    complete -c $command -s x -l exclude-task -x -a '(__gb_tasks)' -d 'Keep this task out'
    complete -c $command -s P -l project-prop -x -d 'The value of a gradleProperty'
    complete -c $command -l continue -d 'After a failure start what does not need what failed'
    complete -c $command -l rerun-tasks -d 'Take no task for up to date'
    complete -c $command -s m -l dry-run -d 'Print which tasks are scheduled'
end
complete -c gb -a '(__gb_tasks)'
complete -c gb_ask -n '__fish_seen_subcommand_from why graph' -a '(__gb_tasks)'
complete -c gb_ask -n __fish_use_subcommand -a 'why tasks graph check reads makes status fmt help'
complete -c gb_ask -n '__fish_seen_subcommand_from graph' -l why -d 'With the outcome of each task'
complete -c gb_ask -n '__fish_seen_subcommand_from graph' -l tree -d 'As an outline'
complete -c gb_ask -n '__fish_seen_subcommand_from graph' -l mermaid -d 'For Mermaid'
complete -c gb_ask -n '__fish_seen_subcommand_from graph' -l svg -d 'As a picture'
complete -c gb_ask -n '__fish_seen_subcommand_from reads makes' -F
complete -c gb_ask -n '__fish_seen_subcommand_from why tasks check graph reads makes status' -l json -d 'As JSON'
complete -c gb_ask -n '__fish_seen_subcommand_from fmt' -F
complete -c gb_ask -n '__fish_seen_subcommand_from fmt' -l write -d 'Write the files that differ'
complete -c gb_ask -n '__fish_seen_subcommand_from fmt' -l check -d 'Name the files that differ'
