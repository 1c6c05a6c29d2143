# Completion of pabble-renew for bash.
_pabble_renew()
{
    local word=${COMP_WORDS[COMP_CWORD]}
    COMPREPLY=()
    if [ "${word#-}" != "$word" ]; then
        mapfile -t COMPREPLY < <(compgen -W '--force --dry-run' -- "$word")
        return
    fi
    compopt -o filenames 2>/dev/null
    mapfile -t COMPREPLY < <(compgen -f -- "$word")
}
complete -F _pabble_renew pabble-renew
