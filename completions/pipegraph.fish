# Completion of pipegraph for fish.
set -l commands run dump filter automate check soak groups
complete -c pipegraph -f
complete -c pipegraph -n "not __fish_seen_subcommand_from $commands" -a run -d 'run a script of a graph'
complete -c pipegraph -n "not __fish_seen_subcommand_from $commands" -a dump -d 'print the POD of a file'
complete -c pipegraph -n "not __fish_seen_subcommand_from $commands" -a filter -d 'store what two formats have in common'
complete -c pipegraph -n "not __fish_seen_subcommand_from $commands" -a automate -d 'store a WAV file by the gains of a control sequence'
complete -c pipegraph -n "not __fish_seen_subcommand_from $commands" -a check -d 'say whether a trace is a legal history of a script'
complete -c pipegraph -n "not __fish_seen_subcommand_from $commands" -a soak -d 'run the graph of a number by four loops'
complete -c pipegraph -n "not __fish_seen_subcommand_from $commands" -a groups -d 'run each linked part of a graph with its own driver'
complete -c pipegraph -n '__fish_seen_subcommand_from run dump filter automate check groups' -F
complete -c pipegraph -n '__fish_seen_subcommand_from run' -l loops -x -a '(seq 0 16)' -d 'how many loops'
complete -c pipegraph -n '__fish_seen_subcommand_from run' -l ticks -x -d 'at how many asks the driver looks for late nodes'
complete -c pipegraph -n '__fish_seen_subcommand_from run' -l trace -d 'print the events'
complete -c pipegraph -n '__fish_seen_subcommand_from run' -l steal -d 'let each loop run any node'
complete -c pipegraph -n "not __fish_seen_subcommand_from $commands" -l help -d 'what the commands do'
