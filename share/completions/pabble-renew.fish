# Completion of pabble-renew for fish.
complete -c pabble-renew -l force -d 'Drop lines outside of bodies, and keep the old text in OUT.old'
complete -c pabble-renew -l dry-run -d 'Say what would be done, and write nothing'
