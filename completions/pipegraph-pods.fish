# Completion of pipegraph-pods for fish.
set -l commands gains pod format
complete -c pipegraph-pods -f
complete -c pipegraph-pods -n "not __fish_seen_subcommand_from $commands" -a gains -d 'make the control sequence of a list of gains'
complete -c pipegraph-pods -n "not __fish_seen_subcommand_from $commands" -a pod -d 'make the value of a dump'
complete -c pipegraph-pods -n "not __fish_seen_subcommand_from $commands" -a format -d 'make the format of an offer'
complete -c pipegraph-pods -n '__fish_seen_subcommand_from gains pod' -F
complete -c pipegraph-pods -n '__fish_seen_subcommand_from format' -F -a 'rate channels mandatory'
complete -c pipegraph-pods -n "not __fish_seen_subcommand_from $commands" -l help -d 'what the commands do'
