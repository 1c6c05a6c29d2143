# Completion of draw for fish.
complete -c draw -l from -x -d 'The first line of the log that is drawn'
complete -c draw -l to -x -d 'The last line that is drawn'
complete -c draw -l ranks -x -d 'The ranks that are drawn, as 0..15'
