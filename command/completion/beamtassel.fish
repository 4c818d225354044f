# Completion of beamtassel for fish.
set -l commands replay finalizing two-views text bytes
complete -c beamtassel -n "not __fish_seen_subcommand_from $commands" -f -a replay -d "tell what a desk knew at the end of its journal"
complete -c beamtassel -n "not __fish_seen_subcommand_from $commands" -f -a finalizing -d "print the precommits that make a block final"
complete -c beamtassel -n "not __fish_seen_subcommand_from $commands" -f -a two-views -d "compare the precommits in two journals of one round"
complete -c beamtassel -n "not __fish_seen_subcommand_from $commands" -f -a text -d "print a journal as text"
complete -c beamtassel -n "not __fish_seen_subcommand_from $commands" -f -a bytes -d "turn text into a journal"
complete -c beamtassel -n "__fish_seen_subcommand_from replay" -l names -d "print names of files"
complete -c beamtassel -n "__fish_seen_subcommand_from text" -l sort-blocks -d "print blocks in one order"
complete -c beamtassel -l color -x -a "auto always never" -d "colour what is told"
complete -c beamtassel -s h -l help -d "print the usage"
complete -c beamtassel -s V -l version -d "print the version"
