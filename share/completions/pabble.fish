# Completion of pabble for fish.
set -l commands check project gen run sim replay expand strips cost judge demo
complete -c pabble -n "not __fish_seen_subcommand_from $commands" -f
complete -c pabble -n "not __fish_seen_subcommand_from $commands" -a check -d 'Whether a protocol is accepted'
complete -c pabble -n "not __fish_seen_subcommand_from $commands" -a project -d 'The endpoint program of a protocol'
complete -c pabble -n "not __fish_seen_subcommand_from $commands" -a gen -d 'The C text of a protocol'
complete -c pabble -n "not __fish_seen_subcommand_from $commands" -a run -d 'Simulate a protocol'
complete -c pabble -n "not __fish_seen_subcommand_from $commands" -a sim -d 'Simulate a C text'
complete -c pabble -n "not __fish_seen_subcommand_from $commands" -a replay -d 'Simulate a C text by a schedule'
complete -c pabble -n "not __fish_seen_subcommand_from $commands" -a expand -d 'The protocol file of a file with subprotocols'
complete -c pabble -n "not __fish_seen_subcommand_from $commands" -a strips -d 'The protocol file of a file with strips'
complete -c pabble -n "not __fish_seen_subcommand_from $commands" -a cost -d 'The least and the most that a protocol sends'
complete -c pabble -n "not __fish_seen_subcommand_from $commands" -a judge -d 'Whether a log kept a protocol'
complete -c pabble -n "not __fish_seen_subcommand_from $commands" -a demo -d 'Count what a protocol of so many statements does'
complete -c pabble -n "__fish_seen_subcommand_from demo" -f
complete -c pabble -n "__fish_seen_subcommand_from run sim replay judge" -l n -x -d 'The number N'
complete -c pabble -n "__fish_seen_subcommand_from run sim" -l seed -x -d 'The seed'
complete -c pabble -n "__fish_seen_subcommand_from run sim" -l turns -x -d 'The most events'
complete -c pabble -n "__fish_seen_subcommand_from run sim" -l mode -x -a 'eager waiting mixed' -d 'Whether sends wait'
complete -c pabble -n "__fish_seen_subcommand_from run sim" -l schedule -d 'Write the schedule'
