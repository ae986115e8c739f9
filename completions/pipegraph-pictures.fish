# Completion of pipegraph-pictures for fish.
set -l commands graph timeline wave
complete -c pipegraph-pictures -f
complete -c pipegraph-pictures -n "not __fish_seen_subcommand_from $commands" -a graph -d 'draw a script for Graphviz'
complete -c pipegraph-pictures -n "not __fish_seen_subcommand_from $commands" -a timeline -d 'draw a trace as SVG'
complete -c pipegraph-pictures -n "not __fish_seen_subcommand_from $commands" -a wave -d 'draw the peaks of a WAV file as SVG'
complete -c pipegraph-pictures -n '__fish_seen_subcommand_from graph timeline wave' -F
complete -c pipegraph-pictures -n '__fish_seen_subcommand_from graph' -l partial -d 'a script at fault as far as it goes'
complete -c pipegraph-pictures -n '__fish_seen_subcommand_from timeline' -l perfetto -r -d 'store the events for Perfetto'
complete -c pipegraph-pictures -n '__fish_seen_subcommand_from wave' -l db -d 'a scale in decibels'
